#!/usr/bin/env bash
# Installs the built program, avrstk-serial, avrstk-serve, the part file, the man pages and the completions, or removes
# them again. The program is the proved one, or else the one without proofs, and then a line reports that. But if the
# environment variable AVRSTK names another, that one is installed, and no line reports whether it is proved. The
# documents are installed as a site, if Sphinx, MyST, furo, sphinx-copybutton and mandoc are there to make it. With
# --with-c the library for C is installed too, which needs rt of Rattle's kit and ar: archive, header, pkg-config's
# file, and the shared library if there is a C compiler.
#
#     ./install.sh [--with-c] [PREFIX]      PREFIX is /usr/local by default, which mostly needs root; ~/.local doesn't
#     ./install.sh --remove [PREFIX]        removes what the manifest share/avrstk/manifest there names (all versions of
#                                           this script add to it), the folders that it names if they are empty, and it
#     ./install.sh --help                   prints this text
#
# Of other files only the manifest is replaced or removed. Nothing outside PREFIX is installed or removed: links that
# lead out of it are refused. With DESTDIR, for packages, all files go under $DESTDIR/PREFIX, without the manifest, and
# replace those there.
set -euo pipefail

top=$(dirname "$(readlink -f "$0")")

fail() {
    echo "install.sh: error: $*" >&2
    exit 1
}

usage() {
    echo "usage: install.sh [--with-c | --remove | --help] [PREFIX]" >&2
    exit 1
}

remove='' with_c=''
case ${1:-} in
    --remove) remove=yes && shift ;;
    --with-c) with_c=yes && shift ;;
    -h | --help) sed -n '2,/^set /s/^# \{0,1\}//p' "$0" && exit 0 ;;
esac
prefix=${1-/usr/local}
[ $# -le 1 ] && [[ $prefix != -* ]] || usage
[ -n "$prefix" ] || fail "the folder's name is empty"
destination=${DESTDIR:-}
given=$prefix$destination
if [ -n "$destination" ]; then
    # (symbolic links of this system may not exist on the package's target system)
    prefix=$(realpath -m -- "$destination")$(realpath -ms -- "$prefix")
else
    prefix=$(realpath -m -- "$prefix")
fi
# no link may lead out of this folder
top_folder=$prefix
[ -z "$destination" ] || top_folder=$(realpath -m -- "$destination")
# (the manifest has one name per line)
[[ $given$prefix != *$'\n'* ]] || fail "the folder's name has a newline"

# (examples/c/build.sh explains the number)
version=$(cat "$top/VERSION")
number=${version%%.*}
[ "$number" != 0 ] || number=${version%.*}
shared=libavr_records.so.$number

# the files to install: mode, source, place under the prefix
files=() places=()
add() {
    files+=("$1" "$2" "$3")
    places+=("$3")
}

# the links to make: what each leads to, place
links=()
add_link() {
    links+=("$1" "$2")
    places+=("$2")
}

# where the site is, under the prefix
html=share/doc/avrstk/html

# the names of installed files, and of the folders that were made for them (these end with a slash), under the prefix
manifest=$prefix/share/avrstk/manifest

# Fails if a link leads from the folder of one of these files out of the prefix.
check_links() {
    local folder real
    printf '%s\n' "${@%/*}" | LC_ALL=C sort -u | while IFS= read -r folder; do
        real=$(realpath -m -- "$folder")
        [[ $real/ == "${top_folder%/}"/* ]] || fail "$folder leads to $real, out of $top_folder"
    done
}

# Fails if one of these names can't be installed, before anything is written.
check() {
    local file folder known=$'\n'
    [ ! -f "$manifest" ] || known+=$(cat "$manifest")$'\n'
    for file in "$manifest" "${@/#/"$prefix/"}"; do
        [ ! -d "$file" ] || fail "$file is a folder"
        folder=$(dirname "$file")
        while [ ! -e "$folder" ] && [ ! -L "$folder" ]; do
            folder=$(dirname "$folder")
        done
        [ -d "$folder" ] || fail "$folder is no folder that can be reached"
        [ -w "$folder" ] || fail "$folder cannot be written: give another ${destination:+DESTDIR or }PREFIX"
        [ -n "$destination" ] || [ "$file" = "$manifest" ] || [[ ! -e $file && ! -L $file ]] ||
            [[ $known == *$'\n'"${file#"${prefix%/}/"}"$'\n'* ]] ||
            fail "$file is there, and $manifest doesn't name it: nothing is installed"
    done
    if [ -L "$manifest" ] || { [ -e "$manifest" ] && [ ! -f "$manifest" ]; }; then
        fail "$manifest is a link, or no regular file: nothing is installed"
    fi
    check_links "$manifest" "${@/#/"$prefix/"}"
}

# Prints the names of all folders of the files to install that aren't there yet.
lacking() {
    local folder
    for folder in share/avrstk/manifest "${places[@]}"; do
        while [ "$folder" != . ]; do
            folder=$(dirname "$folder")
            [ -d "$prefix/$folder" ] || echo "$folder/"
        done
    done
}

# Adds the names to the manifest, before any of them is there.
note() {
    local names
    names=$({ [ ! -e "$manifest" ] || cat "$manifest" && printf '%s\n' "${places[@]}" && lacking; } | LC_ALL=C sort -u)
    install -d -m 755 "$(dirname "$manifest")"
    place 644 /dev/stdin "$manifest" <<<"$names"
}

# Installs a file, whole or not at all. Its unfinished copy has a name that nobody else has.
place() {
    unfinished=$(mktemp "$(dirname "$3")/.avrstk.XXXXXX")
    install -T -m "$1" "$2" "$unfinished"
    mv -fT "$unfinished" "$3"
    unfinished=
}

# Installs all files, with their folders.
put() {
    local at
    for ((at = 0; at < ${#files[@]}; at += 3)); do
        set -- "${files[at]}" "${files[at + 1]}" "$prefix/${files[at + 2]}"
        install -d -m 755 "$(dirname "$3")"
        place "$@"
        # (of the site's many pages the first one)
        [[ ${3#"$prefix/$html"/} == @("$3"|index.html) ]] || continue
        echo "installed $3"
    done
    for ((at = 0; at < ${#links[@]}; at += 2)); do
        ln -sfT "${links[at]}" "$prefix/${links[at + 1]}"
        echo "installed $prefix/${links[at + 1]}"
    done
}

# Removes the files that the manifest names, and those of its folders that are empty then. Fails if a file is left.
remove() {
    local name status=0 names=()
    [ ! -L "$manifest" ] || fail "$manifest is a link, and no manifest of this script: nothing is removed"
    if [ ! -f "$manifest" ]; then
        [ ! -e "$prefix/bin/avrstk" ] || fail "$prefix/bin/avrstk is there, but no file $manifest was found: nothing is removed"
        echo "no file $manifest was found: nothing is removed"
        return 0
    fi
    mapfile -t names <"$manifest"
    for name in "${names[@]}"; do
        # (only names under the prefix)
        [[ $name == ./ || /${name%/}/ != */@(|.|..)/* ]] ||
            fail "$manifest: '$name' is no path of an installed file: nothing is removed"
    done
    check_links "$manifest" "${names[@]/#/"$prefix/"}" || return 1
    for name in "${names[@]}"; do
        [[ $name != */ && (-e $prefix/$name || -L $prefix/$name) ]] || continue
        { rm -f -- "$prefix/$name" && echo "removed $prefix/$name"; } || status=1
    done
    [ "$status" = 0 ] && rm -f -- "$manifest" || return 1
    # (subfolders first; a folder with other files stays)
    printf '%s\n' "${names[@]}" | LC_ALL=C sort -r | while IFS= read -r name; do
        [[ $name != */ ]] || rmdir -- "$prefix/${name#./}" 2>/dev/null || true
    done
}

if [ -n "$remove" ]; then
    remove || exit 1
    exit 0
fi

# A started command runs in a process group of its own, which ends with this script.
started='' unfinished='' front='' stamp='' site=''
finish() {
    [ -z "$started" ] || kill -- "-$started" 2>/dev/null || true
    rm -f ${unfinished:+"$unfinished"} ${front:+"$front"} ${stamp:+"$stamp"}
    rm -rf ${site:+"$site"}
}
trap finish EXIT
trap 'exit 1' INT TERM HUP
start() {
    local status=0
    set -m
    "$@" >/dev/null <&0 &
    started=$!
    set +m
    wait "$started" || status=$?
    started=
    return "$status"
}

# Prints the path of the second program, which avrstk-serve runs: beside the first one, or in its crate's folder.
session_of() {
    local folder file
    folder=$(dirname "$(readlink -f "$1")")
    for file in "$folder/avrstk_session" "$folder/../lib/avrstk/avrstk_session" \
        "$folder/../../avrstk_session/out/avrstk_session"; do
        [ ! -f "$file" ] || { echo "$file" && break; }
    done
}

# Prints the path of the program itself: ./avrstk of a clone, and an installed avrstk, are scripts that run it.
program_of() {
    local folder
    folder=$(dirname "$(readlink -f "$1")")
    if [ -e "$folder/crates.txt" ]; then
        # (if no program is built, the script reports it)
        "$folder/avrstk" --which
    elif [ -f "$folder/../lib/avrstk/avrstk" ]; then
        echo "$folder/../lib/avrstk/avrstk"
    else
        echo "$1"
    fi
}

named=${AVRSTK:-$top/avrstk}
[ -f "$named" ] || fail "$named is not a file"
built=$(program_of "$named")
session=$(session_of "$built")
if [ -z "$session" ] && [ -d "$top/crates/avrstk_session" ]; then
    echo "avrstk_session is not beside $built: avrstk-serve needs it"
fi
front=$(mktemp) stamp=$(mktemp)
"$top/avrstk" --stamp-of "$built" ${session:+"$session"} >"$stamp" || true
cat "$top/tools/hint.sh" - >"$front" <<'END'

# (to find the program, no other one is started unless this file is a link)
self=$0
[ ! -L "$self" ] || self=$(readlink -f "$self")
folder=${self%/*}
[ "$folder" != "$self" ] || folder=.
if [ "$*" = --version ]; then
    cat "$folder/../lib/avrstk/avrstk.stamp" 2>/dev/null | version "$folder/../lib/avrstk/avrstk"
    exit 0
fi
run "$folder/../lib/avrstk/avrstk" "$@"
END
add 755 "$built" lib/avrstk/avrstk
[ -z "$session" ] || add 755 "$session" lib/avrstk/avrstk_session
add 755 "$front" bin/avrstk
add 644 "$stamp" lib/avrstk/avrstk.stamp
add 755 "$top/avrstk-serial" bin/avrstk-serial
add 755 "$top/avrstk-serve" bin/avrstk-serve
for file in "$top"/lib/avrstk/*.py; do
    add 644 "$file" "lib/avrstk/${file##*/}"
done
for file in "$top"/parts/*; do
    add 644 "$file" "share/avrstk/${file##*/}"
done
for file in "$top"/docs/*.[17]; do
    add 644 "$file" "share/man/man${file##*.}/${file##*/}"
done
# (bash and fish look for a command's completions under its name)
add 644 "$top/completions/avrstk.bash" share/bash-completion/completions/avrstk
add 644 "$top/completions/_avrstk" share/zsh/site-functions/_avrstk
add 644 "$top/completions/avrstk.fish" share/fish/vendor_completions.d/avrstk.fish
for file in avrstk-serial avrstk-serve; do
    add_link avrstk "share/bash-completion/completions/$file"
    add_link avrstk.fish "share/fish/vendor_completions.d/$file.fish"
done
if [ -f "$top/tools/site.py" ]; then
    site=$(mktemp -d)
    if command -v sphinx-build >/dev/null && PYTHONDONTWRITEBYTECODE=1 start "$top/tools/site.py" "$site"; then
        while IFS= read -r file; do
            add 644 "$site/$file" "$html/$file"
        done < <(cd "$site" && find . -type f -printf '%P\n' | LC_ALL=C sort)
    else
        echo "no site of the documents was made: check python3, mandoc, Sphinx, MyST, furo and sphinx-copybutton"
    fi
fi
library=(lib/libavr_records.a include/avr_records.h lib/pkgconfig/avr_records.pc lib/libavr_records.so "lib/$shared")
check "${places[@]}" ${with_c:+"${library[@]}"}
[ -n "$destination" ] || note
put
command -v python3 >/dev/null || echo "avrstk-serial and avrstk-serve need python3, which is not on the path"
[ -n "$with_c" ] || exit 0
if ! command -v rt >/dev/null || ! command -v ar >/dev/null; then
    fail "the library for C needs rt of Rattle's kit, and ar"
fi
echo "proves and builds the library for C, if it isn't built"
start "$top/examples/c/build.sh" "$top/out/c"
files=() links=() places=()
add 644 "$top/out/c/libavr_records.a" "${library[0]}"
add 644 "$top/include/avr_records.h" "${library[1]}"
add 644 "$top/out/c/avr_records.pc" "${library[2]}"
if [ -e "$top/out/c/$shared" ]; then
    add_link "$shared" "${library[3]}"
    add 644 "$top/out/c/$shared" "${library[4]}"
else
    echo "no shared library was made, because ${CC:-cc} was not found"
fi
[ -n "$destination" ] || note
put
