#!/usr/bin/env bash
# Installs the Debian packages of the tools that the scripts compare with, if this is root and apt-get is installed.
# With --lacking it only prints those that are not installed.
set -u
cd "$(dirname "$(readlink -f "$0")")/.." || exit 1
packages=(
    gcc libc6-dev avrdude srecord gcc-avr binutils-avr avr-libc python3-intelhex simavr libsimavr-dev libelf-dev
    arduino-core-avr socat ser2net groff-base strace valgrind mandoc lintian dpkg-dev git xz-utils binutils
    zsh fish python3-pytest python3-jsonschema python3-fusepy xfsprogs furo
    python3-myst-parser python3-sphinx-copybutton chromium chromium-driver chromium-headless-shell black flake8 mypy
)
# the sketch ArduinoISP, in the documentation of a package that needs Java: only the sketch is taken
sketch=out/ArduinoISP.ino
lacking=()
for it in "${packages[@]}"; do
    dpkg-query -W -f '${Status}\n' "$it" 2>/dev/null | grep -q '^install ok installed$' || lacking+=("$it")
done
names=("${lacking[@]}")
[ -e "$sketch" ] || names+=("$sketch")
[ ${#names[@]} -gt 0 ] || exit 0
echo "not installed: ${names[*]}"
[ "${1:-}" != --lacking ] || exit 0
if [ "$(id -u)" != 0 ] || ! command -v apt-get >/dev/null; then
    echo "nothing was installed: that needs root and apt-get"
    exit 1
fi
export DEBIAN_FRONTEND=noninteractive
get_sketch() {
    local folder status=0
    folder=$(mktemp -d) && mkdir -p out || return
    (cd "$folder" && apt-get download -q arduino && dpkg-deb -x arduino_*.deb .) || status=1
    cp "$folder/usr/share/doc/arduino/examples/11.ArduinoISP/ArduinoISP/ArduinoISP.ino" "$sketch" || status=1
    rm -rf "$folder"
    return "$status"
}
install() {
    local status=0
    [ ${#lacking[@]} = 0 ] || apt-get install -y -q --no-install-recommends "${lacking[@]}" </dev/null || status=1
    [ -e "$sketch" ] || get_sketch || status=1
    return "$status"
}
# (the package lists may be old or missing)
install >/dev/null 2>&1 || { apt-get update -q && install; }
