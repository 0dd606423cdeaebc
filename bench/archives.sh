# For bench/c, bench/rust and the Makefile, which read this: where the archives of the library for C lie, and what is made of them.
# They are libmt_c.a, which `rt lib` makes in crates/mt_c, and the kit's liblibc_c.a. Both are looked up in the folders that
# MAPLE_ARCHIVES names, separated by colons, or else in crates/mt_c/out, and last in the kit whose `rt` is on the path. An archive in
# crates/mt_c/out that is missing or older than the crate is made again.

archive_folders() {
    local kit
    printf '%s' "${MAPLE_ARCHIVES:-$PWD/crates/mt_c/out}"
    if kit=$(rt doc 2> /dev/null); then printf ':%s/c' "$(dirname "$kit")"; fi
}

# Prints the path of an archive, or says that it is in none of the folders.
archive() { # archive NAME
    local folder folders
    IFS=: read -r -a folders <<< "$(archive_folders)"
    for folder in "${folders[@]}"; do
        if [ -f "$folder/$1" ]; then
            echo "$folder/$1"
            return
        fi
    done
    echo "no $1 in ${folders[*]}" >&2
    return 1
}

make_archive() {
    local made=crates/mt_c/out/libmt_c.a
    if [ -z "${MAPLE_ARCHIVES:-}" ] && { [ ! -f $made ] || [ -n "$(find crates/mt_c/src crates/mt_c/specs crates/mt_c/proofs -newer $made -print -quit)" ]; }; then
        command -v rt > /dev/null || { echo "$made is missing or old, and there is no rt on the path to make it" >&2; return 1; }
        (cd crates/mt_c && rt lib) || return 1
    fi
    archive libmt_c.a && archive liblibc_c.a
}

# Makes one object file of the archives, with the calls of the headers and no other name.
whole_object() { # whole_object FOLDER MAPLE.o ARCHIVE..
    gcc -std=c99 -O2 -fPIC -Wall -Wextra -Werror -Iinclude -c -o "$1/wait.o" c/wait.c &&
        ld -r --whole-archive -o "$1/$2" "$1/wait.o" "${@:3}" &&
        objcopy --wildcard --keep-global-symbol='maple_*' "$1/$2"
}

# Makes of that one whose calls look at their handles first (c/debug.c).
debug_object() { # debug_object FOLDER MAPLE.o DEBUG.o
    nm -g --defined-only "$1/$2" | sed -n 's/.* T maple_\(.*\)$/maple_\1 maple_tested_\1/p' > "$1/tested" &&
        objcopy --redefine-syms="$1/tested" "$1/$2" "$1/tested.o" &&
        gcc -std=c99 -O2 -fPIC -Wall -Wextra -Werror -Iinclude -c -o "$1/debug.o" c/debug.c &&
        ld -r -o "$1/$3" "$1/debug.o" "$1/tested.o" &&
        objcopy --wildcard --localize-symbol='maple_tested_*' "$1/$3"
}
