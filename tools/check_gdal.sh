#!/usr/bin/env bash
# Compares the TIFF reader with GDAL: files that gdal_translate writes are read with GDAL's own values,
# and its files of other forms are refused by the reader's cause. Skipped where GDAL isn't installed.
# Needs `rt`, which builds the program crates/cdb_tiff_cli.
set -u
. "$(dirname "$0")/built.sh" || exit 2
need gdal_translate gdalinfo

folder=$(mktemp -d)
trap 'rm -rf "$folder"' EXIT
failures=0
checks=0

reader=$(built cdb_tiff_cli "$folder") || exit

fail() {
    echo "differs: $1"
    failures=$((failures + 1))
}

# grid NAME LOW HIGH: an ASCII grid of 37 columns and 29 rows with values from LOW to HIGH
grid() {
    awk -v low="$2" -v high="$3" 'BEGIN {
        print "ncols 37\nnrows 29\nxllcorner 7\nyllcorner 50\ncellsize 0.01"
        for (r = 0; r < 29; r++) {
            line = ""
            for (c = 0; c < 37; c++) {
                at = r * 37 + c
                value = at == 0 ? low : at == 1 ? high : low + (at * 7919) % (high - low + 1)
                line = line (c ? " " : "") value
            }
            print line
        }
    }' >"$folder/$1.asc"
}

# read NAME OPTION..: a file that gdal_translate writes of the grid NAME is read with GDAL's own values
read_by() {
    local name=$1
    shift
    checks=$((checks + 1))
    gdal_translate -q "$@" "$folder/$name.asc" "$folder/file.tif" || { fail "gdal_translate $*"; return; }
    gdal_translate -q -of XYZ "$folder/file.tif" "$folder/file.xyz" || { fail "XYZ of $*"; return; }
    "$reader" <"$folder/file.tif" >"$folder/out"
    [ "$(head -n 1 "$folder/out")" = "ok 37 29" ] || { fail "$name $*: $(head -n 1 "$folder/out")"; return; }
    tail -n +2 "$folder/out" | tr ' ' '\n' >"$folder/ours"
    awk '{ print $3 }' "$folder/file.xyz" >"$folder/theirs"
    cmp -s "$folder/ours" "$folder/theirs" || fail "values of $name $*"
    rm -f "$folder"/file.*
}

# refused WORD OPTION..: a file that gdal_translate writes is refused by this cause
refused() {
    local word=$1
    shift
    checks=$((checks + 1))
    gdal_translate -q "$@" "$folder/Byte.asc" "$folder/file.tif" || { fail "gdal_translate $*"; return; }
    "$reader" <"$folder/file.tif" >"$folder/out"
    [ "$(cut -d ' ' -f 1 "$folder/out")" = "$word" ] || fail "$*: $(head -n 1 "$folder/out") for $word"
    rm -f "$folder"/file.*
}

grid Byte 0 255
grid UInt16 0 65535
grid Int16 -32768 32767
for kind in Byte UInt16 Int16; do
    read_by "$kind" -ot "$kind"
    for order in LITTLE BIG; do
        for rows in 1 7 16 29; do
            read_by "$kind" -ot "$kind" -co "ENDIANNESS=$order" -co "BLOCKYSIZE=$rows"
        done
    done
done

for method in DEFLATE LZW PACKBITS; do
    refused compressed -ot Byte -co "COMPRESS=$method"
done
refused tiled -ot Byte -co TILED=YES
refused float -ot Float32
refused bits -ot Int32
refused samples -ot Byte -b 1 -b 1 -b 1
refused bigtiff -ot Byte -co BIGTIFF=YES

echo "$checks files, $failures differences"
[ "$failures" = 0 ]
