#!/usr/bin/env bash
# Times the TIFF reader on a file with 65,531 entries and on one with 65,536 strips, each against a small
# file, as the ratio of the times of 20 runs. Needs `rt`, which builds the program crates/cdb_tiff_cli,
# and python3, which writes the files.
set -u
. "$(dirname "$0")/built.sh" || exit 2
need python3

folder=$(mktemp -d)
trap 'rm -rf "$folder"' EXIT

reader=$(built cdb_tiff_cli "$folder") || exit

python3 - "$folder" <<'PYTHON'
import struct
import sys

# A file of one column and so many rows of 8 bits, a row a strip, with the other tags besides.
def file(rows, others):
    values = {256: (3, 1), 257: (4, rows), 258: (3, 8), 278: (3, 1)}
    tags = sorted(set(values) | {273, 279} | set(others))
    places = 8 + 2 + 12 * len(tags) + 4
    raster = places + 8 * rows
    out = b"II*\0" + struct.pack("<IH", 8, len(tags))
    for tag in tags:
        kind, value = values.get(tag, (3, 1))
        if tag == 273:
            out += struct.pack("<HHII", tag, 4, rows, places if rows > 1 else raster)
        elif tag == 279:
            out += struct.pack("<HHII", tag, 4, rows, places + 4 * rows if rows > 1 else 1)
        else:
            out += struct.pack("<HHII", tag, kind, 1, value)
    out += struct.pack("<I", 0)
    out += b"".join(struct.pack("<I", raster + k) for k in range(rows))
    out += struct.pack("<I", 1) * rows
    return out + bytes(rows)

folder = sys.argv[1]
open(folder + "/small", "wb").write(file(1, []))
open(folder + "/entries", "wb").write(file(1, [t for t in range(65535) if not 322 <= t <= 325]))
open(folder + "/strips", "wb").write(file(65536, []))
PYTHON

# milliseconds NAME: the time of 20 runs on a file
milliseconds() {
    local begin end
    begin=$(date +%s%N)
    for _ in 1 2 3 4 5 6 7 8 9 10 11 12 13 14 15 16 17 18 19 20; do
        "$reader" <"$folder/$1" >"$folder/out"
    done
    end=$(date +%s%N)
    echo $(((end - begin) / 1000000))
}

milliseconds small >/dev/null
small=$(milliseconds small)
for name in entries strips; do
    time=$(milliseconds "$name")
    echo "$name: $(head -n 1 "$folder/out"), $(stat -c %s "$folder/$name") bytes, $time ms, small file $small ms, ratio $(awk -v a="$time" -v b="$small" 'BEGIN { printf "%.1f", a / b }')"
done
