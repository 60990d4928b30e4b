#!/usr/bin/env bash
# Times what makes the values of a tile: painting (an arc second over level 1 and over level 0, a step
# without a common divisor, materials), each fold, and the way from a frame to a file and back, beside the
# same work in plain Rust. Prints nanoseconds for each post of a tile of 1024 by 1024, the least of several
# rounds that take turns, and their ratio.
#
#   time_values.sh YARDSTICK       or with its path in CUT_RS
#
# YARDSTICK is a Rust program with the functions cut_row, fold_elev, fold_ends, encode and head, which
# stands outside the repository. Skipped where it, rustc or rt is missing. The program that is timed is
# built in a copy of the crates below it, since it is no crate of the repository.
set -u
. "$(dirname "$0")/built.sh" || exit 2
need rustc rt awk

yardstick=${1:-${CUT_RS:-}}
[ -n "$yardstick" ] && [ -f "$yardstick" ] || { echo "skipped: no yardstick (give its path)"; exit 0; }
yardstick=$(cd "$(dirname "$yardstick")" && pwd)/$(basename "$yardstick")

top=$(cd "$(dirname "$0")/.." && pwd)
folder=$(mktemp -d)
trap 'rm -rf "$folder"' EXIT

CUT_RS="$yardstick" rustc -O --edition 2021 "$top/tools/time_values/yardstick.rs" -o "$folder/plain" ||
    { echo "the yardstick isn't built" >&2; exit 2; }

# the crates below the program, with what earlier checks kept of them
below="cdb_grid cdb_source cdb_model cdb_cut cdb_elev cdb_minmax cdb_material cdb_tiff_base cdb_tiff_write"
copy="$folder/copy"
mkdir -p "$copy/crates/timing/src" "$copy/crates/timing/specs" "$copy/crates/timing/proofs"
for crate in $below; do
    cp -r "$top/crates/$crate" "$copy/crates/"
    grep "^$crate:" "$top/crates.txt" >>"$copy/crates.txt"
done
cp "$top/HANDLES" "$copy/"
echo "timing: cdb_cut cdb_elev cdb_minmax cdb_material cdb_tiff_write cdb_source cdb_grid" >>"$copy/crates.txt"
: >"$copy/crates/timing/specs/Lib.antt"
: >"$copy/crates/timing/proofs/Lib.antt"
cp "$top/tools/time_values/main.txt" "$copy/crates/timing/src/main.rt"
(cd "$copy" && git init -q)

cd "$copy/crates/timing" || exit 2
rt run --jobs 1 >"$folder/first" 2>"$folder/log" ||
    { tail -n 40 "$folder/log" >&2; echo "the program isn't built" >&2; exit 2; }
program=$(find -L "$PWD/out" -type f -perm -u+x -name 'timing*' | head -n 1)
[ -n "$program" ] || { echo "the built program isn't found" >&2; exit 2; }

for _ in 1 2 3 4 5; do
    "$program" >>"$folder/proved" || exit 2
    "$folder/plain" >>"$folder/rust" || exit 2
done

awk '
    FNR == NR { if (!($1 in mine) || $2 < mine[$1]) mine[$1] = $2; sum[$1] = $3; next }
    { if (!($1 in rust)) order[++count] = $1; if (!($1 in rust) || $2 < rust[$1]) rust[$1] = $2; other[$1] = $3 }
    END {
        posts = 1024 * 1024
        printf "%-18s %10s %10s %6s\n", "ns a post", "proved", "rustc -O", "ratio"
        for (k = 1; k <= count; k++) {
            name = order[k]
            same = sum[name] == other[name] ? "" : "  values differ"
            if (same != "") wrong = 1
            printf "%-18s %10.2f %10.2f %6.2f%s\n", name, mine[name] / posts, rust[name] / posts, mine[name] / rust[name], same
        }
        exit wrong
    }' "$folder/proved" "$folder/rust"
status=$?
uptime | sed 's/.*load/load/'
exit $status
