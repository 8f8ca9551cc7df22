#!/usr/bin/env bash
# Makes Debian packages, and an archive for other systems, of what install.sh installs. The program is the one that
# AVRSTK names, or the built one. It is proved if its stamp says so (./avrstk --stamp-of); else its version ends with
# ~unproved, and its description states that.
#
#     tools/package.sh [--with-c] FOLDER
#
# FOLDER gets avrstk_VERSION_ARCH.deb and avrstk-VERSION-MACHINE.tar.xz. With --with-c, libavr-recordsN_VERSION_ARCH.deb
# and libavr-records-dev_VERSION_ARCH.deb contain the library for C, which is always proved.
#
# The packages are reproducible: the same commit, program, dpkg-deb and xz make the same bytes on every machine.
# Needs git, dpkg-dev, binutils, xz; the library for C needs rt of Rattle's kit.
set -euo pipefail
umask 022
export LC_ALL=C TZ=UTC

top=$(dirname "$(dirname "$(readlink -f "$0")")")

fail() {
    echo "package.sh: error: $*" >&2
    exit 1
}

with_c=""
if [ "${1:-}" = --with-c ]; then
    with_c=$1
    shift
fi
if [ $# -ne 1 ] || [[ $1 == -* ]]; then
    fail "usage: tools/package.sh [--with-c] FOLDER"
fi
for it in git ${with_c:+rt} dpkg-deb dpkg-shlibdeps strip xz; do
    command -v "$it" >/dev/null || fail "$it is not on the path"
done
mkdir -p -- "$1"
folder=$(realpath -- "$1")
named=${AVRSTK:-$("$top/avrstk" --which)}
program=$(readlink -e "$named") || fail "$named is not there"

# the commit, the kit and the version that the packages name
in_git() { git -C "$top" "$@"; }
commit=$(in_git rev-parse HEAD)
[ -z "$(in_git status --porcelain --untracked-files=no)" ] || commit+=", with changes since"
maintainer=$(in_git log -1 --format='%an <%ae>')
SOURCE_DATE_EPOCH=${SOURCE_DATE_EPOCH:-$(in_git log -1 --format=%ct)}
export SOURCE_DATE_EPOCH
release=$(cat "$top/VERSION")
# (examples/c/build.sh explains the number)
number=${release%%.*}
[ "$number" != 0 ] || number=${release%.*}
[ -z "$with_c" ] || rt=$(rt version)
proved="Its behaviour is proved, by"
programs_proved="The behaviour of avrstk and avrstk_session is proved. The scripts avrstk-serial and avrstk-serve are tested."
programs_proved+=" Proved by"
arch=$(dpkg --print-architecture)

work=$(mktemp -d)
trap 'rm -rf "$work"' EXIT
all=$work/all

# Prints a package's description: a line, and paragraphs wrapped at 76 characters.
described() {
    echo "Description: $1"
    shift
    local it between=""
    for it; do
        [ -z "$between" ] || echo " ."
        tr '\n' ' ' <<<"$it" | fold -s -w 76 | sed 's/^/ /; s/ *$//'
        echo
        between=yes
    done
}

# Writes a package's documents, with its version, proof and kit, under a folder.
document() {
    local docs=$2/usr/share/doc/$1 version=$3 proof=$4 kit=$5
    mkdir -p "$docs"
    cat >"$docs/copyright" <<END
avrstk is written by the $maintainer.

There is no licence yet. Until its authors choose one, they keep all rights:
nobody else may copy, change or pass on avrstk or its packages.

Copyright (C) $(date -d "@$SOURCE_DATE_EPOCH" +%Y) the authors of avrstk. What was compiled contains code of the
Rattle kit ($kit), which has terms of its own.
END
    cat >"$docs/changelog" <<END
avrstk ($version) unstable; urgency=medium

  * Made from commit
    $commit.

 -- $maintainer  $(date -R -d "@$SOURCE_DATE_EPOCH")
END
    gzip -9n "$docs/changelog"
    cat >"$docs/built-from" <<END
version: $version
commit: $commit
kit: $kit
proof: $proof
END
}

# Prints the packages of the shared libraries that these files are linked with, and their versions.
shared_by() {
    mkdir -p "$work/shlibs/debian"
    printf 'Source: avrstk\n\nPackage: avrstk\nArchitecture: any\n' >"$work/shlibs/debian/control"
    (cd "$work/shlibs" && dpkg-shlibdeps -O "${@/#/-e}") | sed -n 's/^shlibs:Depends=//p'
}

# Makes a package of the files under a folder. The other control fields come from standard input.
package() {
    local name=$1 root=$2 version=$3 control=$2/DEBIAN
    mkdir -p "$control"
    (cd "$root" && find usr -type f -print0 | sort -z | xargs -0 md5sum) >"$control/md5sums"
    {
        printf 'Package: %s\nVersion: %s\nArchitecture: %s\n' "$name" "$version" "$arch"
        printf 'Maintainer: %s\nSource: avrstk\nPriority: optional\n' "$maintainer"
        find "$root/usr" -printf '%y %s\n' |
            awk '{ kB += $1 == "f" ? int(($2 + 1023) / 1024) : 1 } END { print "Installed-Size: " kB }'
        cat
    } | sed "/^Source: $name\$/d" >"$control/control"
    touched "$root"
    DPKG_DEB_THREADS_MAX=1 dpkg-deb --root-owner-group -Zxz -z3 --build "$root" \
        "$folder/${name}_${version}_$arch.deb" >/dev/null
    echo "made $folder/${name}_${version}_$arch.deb"
}

# Sets the time of all files under a folder to that of the commit.
touched() {
    find "$1" -exec touch -h -d "@$SOURCE_DATE_EPOCH" {} +
}

[ -z "$with_c" ] || echo "proves and builds the library for C, if it isn't built" >&2
AVRSTK=$program DESTDIR=$all "$top/install.sh" ${with_c:+"$with_c"} /usr >/dev/null
# what the stamp says of the programs as they are installed
programs=("$all/usr/lib/avrstk/avrstk")
[ ! -e "${programs[0]}_session" ] || programs+=("${programs[0]}_session")
stamp=$("$top/avrstk" --stamp-of "${programs[@]}") || stamp="not known whether it is proved"
kit=$(sed -n 's/^kit: //p' <<<"$stamp")
kit=${kit:-an unknown kit}
version=$release
proof="$programs_proved $kit."
made="Commit $commit."
stated=$(printf '%s\ncommit: %s\nkit: %s' "${stamp%%$'\n'*}" "$commit" "$kit")
mark=""
if [[ $stamp != proved* ]]; then
    proof="UNPROVED: this build was compiled without its proofs, by $kit."
    if [[ $stamp != unproved* ]]; then
        proof="UNPROVED: no stamp says that this build was proved, or from which sources."
        made="Packaged at commit $commit." stated=$stamp
    fi
    mark=" (unproved build)"
    # (dpkg takes a proved package of the same version as newer)
    version+="~unproved"
fi
mkdir "$all/DEBIAN"
strip --remove-section=.comment --remove-section=.note "${programs[@]}"
printf '%s\n' "$stated" >"$all/usr/lib/avrstk/avrstk.stamp"
gzip -9n "$all"/usr/share/man/man[17]/*
document avrstk "$all" "$version" "$proof" "$kit"
docs=$all/usr/share/doc/avrstk
install -D -m 644 -t "$docs/examples" "$top/examples/blink.hex"
install -m 644 "$top/docs/PACKAGE.md" "$docs/README.md"
# (the commands as an installed program has them; only the text of a link to what the package doesn't have)
for it in USAGE EMULATOR TROUBLESHOOTING BOARDS WHY PART PARTS PROTOCOL FORMATS; do
    sed -E 's,^(    \$ )\./,\1,; s,examples/blink.hex,/usr/share/doc/avrstk/&,
        s,\[([^]]*)\]\((\.\.|PROOFS|PROMISES|CHECK|ARCHITECTURE|LIBRARY|DECISIONS)[^)]*\),\1,g' "$top/docs/$it.md" >"$docs/$it.md"
done
(cd "$all" && sha256sum "${programs[@]#"$all/"}") >>"$docs/built-from"

if [ -n "$with_c" ]; then
    shared=$work/shared
    dev=$work/dev
    mkdir -p "$shared/usr/lib" "$shared/DEBIAN" "$dev/usr"
    mv "$all/usr/lib/libavr_records.so.$number" "$shared/usr/lib/"
    mkdir "$dev/usr/lib"
    mv "$all"/usr/lib/{libavr_records.*,pkgconfig} "$dev/usr/lib/"
    mv "$all/usr/include" "$dev/usr/"
    strip --strip-unneeded --remove-section=.comment --remove-section=.note "$shared/usr/lib/"*
    document "libavr-records$number" "$shared" "$release" "$proved $rt." "$rt"
    echo "activate-noawait ldconfig" >"$shared/DEBIAN/triggers"
    echo "libavr_records $number libavr-records$number (>= $release)" >"$shared/DEBIAN/shlibs"
    document libavr-records-dev "$dev" "$release" "$proved $rt." "$rt"
    reads="reads Intel HEX and Motorola S-records into a memory, and writes them from one"
    depends=$(shared_by "$shared/usr/lib/libavr_records.so.$number")
    package "libavr-records$number" "$shared" "$release" <<END
Section: libs
Depends: $depends
$(described "Intel HEX and S-records for C" "The library $reads." "$proved $rt." "Commit $commit.")
END
    package libavr-records-dev "$dev" "$release" <<END
Section: libdevel
Depends: libavr-records$number (= $release)
$(described "Intel HEX and S-records for C, to develop with" \
        "The header, the archive and the file for pkg-config of a library that $reads." "$proved $rt." \
        "Commit $commit.")
END
fi

# (the archive can be unpacked under any prefix)
name=avrstk-$version-$(uname -m)
mkdir "$work/$name"
cp -a "$all/usr/." "$work/$name"
touched "$work/$name"
tar -C "$work" --sort=name --format=gnu --owner=0 --group=0 --numeric-owner -cf - "$name" |
    XZ_DEFAULTS='' XZ_OPT='' xz -3 --threads=1 >"$folder/$name.tar.xz"
echo "made $folder/$name.tar.xz"

sed -i '1s,^#!/usr/bin/env python3$,#!/usr/bin/python3,' "$all"/usr/bin/avrstk-*
# (Debian's zsh looks for completions of packages there alone)
mv "$all/usr/share/zsh/site-functions" "$all/usr/share/zsh/vendor-completions"
depends=$(shared_by "${programs[@]}")
package avrstk "$all" "$version" <<END
Section: electronics
Depends: $depends, python3 (>= 3.8)
$(described "program AVR microcontrollers through an STK500v2 programmer$mark" \
    "It takes many options of AVRDUDE and speaks STK500v2 to a programmer or a bootloader. An emulated programmer and
part are built in. avrstk-serial is for programmers and boards on a serial device, avrstk-serve is an emulated
programmer on the network." "$proof" "$made")
END
