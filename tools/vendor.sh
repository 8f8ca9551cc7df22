#!/usr/bin/env bash
# Copies libraries of this repository, with all their dependencies, into another repository. Its crates.txt can then
# name them.
#
#     tools/vendor.sh CRATE.. FOLDER
#
# FOLDER is the top of the other repository. For each crate, src, specs, proofs and README.md are copied, and its line
# is added to crates.txt there; the file is created if needed. Identical crates stay as they are. If an existing crate
# or its line differs, nothing is changed at all.
set -euo pipefail
export LC_ALL=C

top=$(dirname "$(dirname "$(readlink -f "$0")")")
parts=(src specs proofs README.md)

refuse() {
    echo "vendor.sh: error: $1" >&2
    exit 1
}

[ $# -ge 2 ] && [[ $1 != -* ]] || refuse "usage: tools/vendor.sh CRATE.. FOLDER"
folder=${*: -1}
[ -d "$folder" ] || refuse "$folder is not a folder"
folder=$(readlink -f "$folder")
[ "$folder" != "$top" ] || refuse "$folder is this repository"

# Prints the line of a crate in a crates.txt, without its comment and extra spaces.
line_of() {
    [ ! -e "$2" ] || awk -v name="$1" '
        { sub(/#.*/, ""); head = $0; sub(/:.*/, "", head); split(head, words, " ") }
        /:/ && words[1] == name { $1 = $1; print; exit }' "$2"
}

# Prints the dependencies of a crate, after the colon of its line.
named_by() {
    line_of "$1" "$top/crates.txt" | sed 's/^[^:]*://'
}

# the crates with all their dependencies, the lowest first; `kit` has those of the kit
crates=() kit=() reached=" "
reach() {
    local below
    [[ $reached != *" $1 "* ]] || return 0
    reached+="$1 "
    if [ -z "$(line_of "$1" "$top/crates.txt")" ]; then
        kit+=("$1")
        return
    fi
    for below in $(named_by "$1"); do
        reach "$below"
    done
    crates+=("$1")
}
for name in "${@:1:$#-1}"; do
    [ -n "$(line_of "$name" "$top/crates.txt")" ] || refuse "no crate of this repository is named $name"
    [ -e "$top/crates/$name/src/lib.rt" ] || refuse "$name is a program, which no crate can name"
    reach "$name"
done

# Whether the other repository's copy of a crate is identical.
is_same() {
    local part
    for part in "${parts[@]}"; do
        [ -e "$top/crates/$1/$part" ] || [ -e "$folder/crates/$1/$part" ] || continue
        diff -qr "$top/crates/$1/$part" "$folder/crates/$1/$part" >/dev/null 2>&1 || return 1
    done
}

# everything is checked before anything is changed
for name in "${crates[@]}"; do
    [ ! -e "$folder/crates/$name" ] || is_same "$name" ||
        refuse "$folder/crates/$name differs: move it away to copy it again"
    there=$(line_of "$name" "$folder/crates.txt")
    [ -z "$there" ] || [ "$there" = "$(line_of "$name" "$top/crates.txt")" ] ||
        refuse "the line of $name in $folder/crates.txt differs: $there"
done

echo "avrstk $(cat "$top/VERSION") into $folder"
if [ ! -e "$folder/crates.txt" ]; then
    echo "# NAME: DEP DEP .." >"$folder/crates.txt"
    echo "made crates.txt"
fi
# (adds a missing newline at the end of the file)
[ -z "$(tail -c 1 "$folder/crates.txt")" ] || echo >>"$folder/crates.txt"
for name in "${crates[@]}"; do
    did="there already"
    if [ ! -e "$folder/crates/$name" ]; then
        mkdir -p "$folder/crates/$name"
        for part in "${parts[@]}"; do
            [ ! -e "$top/crates/$name/$part" ] || cp -R "$top/crates/$name/$part" "$folder/crates/$name/"
        done
        did="copied"
    fi
    if [ -z "$(line_of "$name" "$folder/crates.txt")" ]; then
        line_of "$name" "$top/crates.txt" >>"$folder/crates.txt"
        did+=", its line added"
    fi
    echo "$name: $did"
done
echo "of the kit: ${kit[*]:-none}"
[[ " ${crates[*]} " != *" avr_tool "* ]] ||
    echo "avr_tool uses the network: HANDLES of $folder needs the line '$(cat "$top/HANDLES")'"
