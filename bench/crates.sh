# Read by the programs of this folder that build one of their own.
# shellcheck shell=bash

# Copies crates of the repository, with all those below them, to another folder, and lists them there as crates.txt
# does.
#
# Usage: copy_crates FOLDER NAME..
copy_crates() {
    local folder=$1 top name part
    shift
    top=$(cd "$(dirname "${BASH_SOURCE[0]}")/.." && pwd)
    for name in $("$top/bin/crates" "$@"); do
        grep -E "^$name( [^:]*)?:" "$top/crates.txt" >>"$folder/crates.txt"
        mkdir -p "$folder/crates/$name"
        for part in src specs proofs; do
            if [ -d "$top/crates/$name/$part" ]; then cp -r "$top/crates/$name/$part" "$folder/crates/$name/"; fi
        done
    done
}
