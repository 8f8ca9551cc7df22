# Bash completions for avrstk, avrstk-serial and avrstk-serve: options, parts (with those of a given part file), ports,
# devices, and updates piece by piece, also if a value is joined to its option.

# Completes after a prefix that ends with a colon: with one of these words, or without words with a file's name.
_avrstk_behind() {
    local front=$1 words=${2-} file
    if [ -n "$words" ]; then
        compgen -P "$front" -W "$words" -- "${value#"$front"}"
    else
        compgen -P "$front" -f -- "${value#"$front"}" | while IFS= read -r file; do
            [ ! -d "${file#"$front"}" ] || file+=/
            printf '%s\n' "$file"
        done
    fi
}

# Completes the format after the name of an existing file, or after the values of m.
_avrstk_formats() {
    local front=$1 operation=$2 file=${value#"$1"} letters="a i s r m"
    [ "$script" != avrstk-serial ] || letters+=" e"
    [ "$operation" != r ] || letters="r i s d h o b"
    case $file in
        *:*) compgen -P "$front${file%:*}:" -W "$letters" -- "${file##*:}" ;;
        *) [ ! -f "$file" ] || compgen -P "$value:" -W "$letters" ;;
    esac
}

_avrstk_update() {
    local memories="flash: eeprom: lfuse: hfuse: efuse: lock: signature: calibration:" front operation formats
    case $value in
        *:*:*)
            front=${value%"${value#*:*:}"}
            operation=${front#*:}
            formats=$(_avrstk_formats "$front" "${operation%:}")
            if [ -n "$formats" ]; then
                echo "$formats"
            else
                _avrstk_behind "$front"
            fi ;;
        signature:* | calibration:*) _avrstk_behind "${value%%:*}:" "r: v:" ;;
        *:*) _avrstk_behind "${value%%:*}:" "r: w: v:" ;;
        # a file alone is flash:w:FILE:a
        *) _avrstk_behind "" "$memories"
            [ -z "$value" ] || _avrstk_behind "" ;;
    esac
}

# Prints the folder of the command being typed.
_avrstk_folder() {
    dirname "$(readlink -f "$(type -P "${line%%[[:blank:]]*}")" 2>/dev/null)" 2>/dev/null
}

# Completes a part: the built-in ones, and those of the given part file, or for the scripts of the one that comes with them.
_avrstk_parts() {
    local file built_in="m328p t85 m2560" found top
    file=$(sed -nE 's/.*[[:blank:]]--parts[=[:blank:]][[:blank:]]*([^[:blank:]]+).*/\1/p' <<<"$line")
    if [ -z "$file" ] && [ "$script" != avrstk ]; then
        top=$(_avrstk_folder)
        for found in "$top/parts/classic.toml" "$top/../share/avrstk/classic.toml"; do
            [ ! -f "$found" ] || { file=$found && break; }
        done
    fi
    [ ! -f "$file" ] || built_in+=" $(sed -nE 's/^\[parts\.([[:alnum:]_-]+)\].*/\1/p; s/^([[:alnum:]_-]+) = \{.*/\1/p' <"$file")"
    [ "$script" != avrstk-serial ] || built_in+=" auto"
    compgen -W "$built_in" -- "$value" | awk '!seen[$0]++'
}

# Completes the value of an option.
_avrstk_value() {
    local device
    case $1 in
        -p) _avrstk_parts ;;
        -c) _avrstk_behind "" "stk500v2$([ "$script" = avrstk ] || echo " wiring avrispv2 stk500 arduino arduino_as_isp stk500v1 avrisp")" ;;
        -P)
            [[ $script != avrstk-serial || all != "$value"* ]] || echo all
            for device in /dev/ttyACM* /dev/ttyUSB* /dev/serial/by-id/*; do
                [[ $script != avrstk-serial || ! -e $device || $device != "$value"* ]] || echo "$device"
            done
            case $value in
                emu:*) _avrstk_behind emu: ;;
                *) _avrstk_behind "" "stdio: emu: net:" ;;
            esac ;;
        -U) _avrstk_update ;;
        -b) [ "$script" = avrstk ] || _avrstk_behind "" "9600 19200 38400 57600 115200 250000" ;;
        --parts | --chip | --pty | --log | --backup | --restore | --json | --counter | --rows | -l | -C)
            _avrstk_behind "" ;;
        --late) _avrstk_behind "" "CHIP_ERASE: PROGRAM_FLASH: READ_FLASH: LOAD_ADDRESS: ENTER_PROGMODE: SIGN_ON: 1: 2%:" ;;
        --lose | --lose-reply | --corrupt | --corrupt-reply | --drop)
            _avrstk_behind "" "CHIP_ERASE PROGRAM_FLASH READ_FLASH LOAD_ADDRESS ENTER_PROGMODE SIGN_ON 1 2%" ;;
    esac
}

_avrstk() {
    local line=${COMP_LINE:0:COMP_POINT} typed value before front="" found script
    local options="-p -c -P -U -e -D -V -n -F -A -q -b -v --parts --serve --chip -h --help"
    script=${line%%[[:blank:]]*}
    script=${script##*/}
    case $script in
        avrstk-serial) options="-p -c -P -U -e -D -V -n -F -A -q -b -v -C -l --parts --wait --retry --backup --restore --try-rows --yes --json --each --counter --from --rows --version -h --help" ;;
        avrstk-serve) options="-p --chip --parts --idle --timeout --listen --pty --log --log-limit --json --lose --lose-reply --corrupt --corrupt-reply --late --drop --seed --strict --bootloader --mega --locked --no-chip --version -h --help" ;;
        *) script=avrstk ;;
    esac
    # (what comes after -- is a command of its own)
    COMPREPLY=()
    [[ $line != *[[:blank:]]--[[:blank:]]* ]] || { compopt -o default 2>/dev/null; return 0; }
    typed=${line##*[[:blank:]]}
    before=${line%"$typed"}
    before=${before%"${before##*[![:blank:]]}"}
    # in a clone, options that come first
    if [[ $before != *[[:blank:]]* ]] && [ -e "$(_avrstk_folder)/crates.txt" ]; then
        [ "$script" = avrstk-serve ] || options+=" --unproved"
        [ "$script" != avrstk ] || options+=" --build --which"
    fi
    before=${before##*[[:blank:]]}
    value=$typed
    case $before in
        -[pcPUblC] | --parts | --chip | --serve | --wait | --idle | --timeout | --retry | --backup | --restore | --json | --each | --counter | --from | --rows | --listen | --pty | --log | --log-limit | --lose | --lose-reply | --corrupt | --corrupt-reply | --late | --drop | --seed) found=$(_avrstk_value "$before") ;;
        *) case $typed in
            --parts=* | --chip=*)
                front=${typed%%=*}=
                value=${typed#*=}
                found=$(_avrstk_value "${front%=}") ;;
            -[pcPUb]?*)
                front=${typed:0:2}
                value=${typed:2}
                found=$(_avrstk_value "$front") ;;
            *) found=$(_avrstk_behind "" "$options") ;;
        esac ;;
    esac
    [ -n "$found" ] || return 0
    mapfile -t COMPREPLY <<<"$found"
    [[ $found != *[:/] ]] || compopt -o nospace 2>/dev/null
    # bash ends a word at an equals sign and at a colon, so only the text after the last one is returned
    [[ $front != --* || $COMP_WORDBREAKS == *=* ]] || COMPREPLY=("${COMPREPLY[@]/#/$front}")
    [[ $front == --* ]] || COMPREPLY=("${COMPREPLY[@]/#/$front}")
    [[ $COMP_WORDBREAKS != *:* ]] || COMPREPLY=("${COMPREPLY[@]#"${typed%"${typed##*:}"}"}")
    # bash puts a reply on the line as it is, so a name with special characters is quoted here
    mapfile -t COMPREPLY < <(printf '%q\n' "${COMPREPLY[@]}")
    # (a tilde in front stays one)
    [[ $typed != "~"* ]] || COMPREPLY=("${COMPREPLY[@]/#\\~/\~}")
}

complete -F _avrstk avrstk avrstk-serial avrstk-serve
