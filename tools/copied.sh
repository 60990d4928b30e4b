# Sourced by the scripts beside it.

# copied FOLDER NAME LIBRARY..: puts a copy of the crates into FOLDER, and beside them the program NAME over
# these libraries, whose text is the standard input. It builds the program with `rt`, as FOLDER/NAME, and
# writes what is wrong to the standard error.
copied() {
    local top folder=$1 name=$2
    top="$(cd "$(dirname "${BASH_SOURCE[0]}")/.." && pwd)" || return 2
    shift 2
    tar -C "$top" --exclude=out -cf - crates crates.txt HANDLES | tar -C "$folder" -xf - || return 2
    mkdir -p "$folder/crates/$name/src"
    cat >"$folder/crates/$name/src/main.rt"
    echo "$name: $*" >>"$folder/crates.txt"
    (cd "$folder/crates/$name" && rt run </dev/null >"$folder/first" 2>"$folder/log") || { cat "$folder/log" >&2; return 2; }
    ln -s "crates/$name/out/$name" "$folder/$name"
}
