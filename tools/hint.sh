#!/bin/sh
# Runs avrstk's program, and hints at avrstk-serial if that takes the options; prints the version. ./avrstk of a clone
# reads this file, and install.sh makes the installed avrstk from it.

# Whether avrstk refuses one of these options but avrstk-serial takes it: a device, a part that isn't built in, another
# programmer, an option of AVRDUDE that it ignores. Such a run opens no file and sends nothing, so it can run as a
# child.
is_for_serial() {
    local letter part=m328p port= programmer=stk500v2 has_parts= ignored= OPTIND=1
    while getopts ":p:c:P:U:b:C:l:-:eDVnFAqvhsu" letter; do
        case $letter in
            # (as in clap, an equals sign may come before a value)
            p) part=${OPTARG#=} ;;
            c) programmer=${OPTARG#=} ;;
            P)
                # (of several ports avrstk takes the last, and avrstk-serial writes to each)
                [ -z "$port" ] || return 1
                port=${OPTARG#=}
                ;;
            C | l | s | u) ignored=yes ;;
            h | [:?]) return 1 ;;
            -)
                case $OPTARG in
                    serve* | chip* | help) return 1 ;;
                    parts) has_parts=yes OPTIND=$((OPTIND + 1)) ;;
                    parts=*) has_parts=yes ;;
                esac
                ;;
        esac
    done
    case $programmer in
        stk500v2) [ -z "$ignored" ] || return 0 ;;
        wiring | avrispv2 | stk500) return 0 ;;
        arduino | arduino_as_isp | stk500v1 | avrisp)
            # (these are on serial devices only)
            case $port in
                net:* | emu:* | stdio:*) return 1 ;;
                *) return 0 ;;
            esac
            ;;
        *) return 1 ;;
    esac
    case $port in
        /dev/* | tty* | COM[0-9]*) return 0 ;;
    esac
    [ -z "$has_parts" ] || return 1
    case $part in
        m328p | t85 | m2560) return 1 ;;
    esac
}

# Prints the version of the program $1, and what its stamp on standard input says: whether it is proved, its commit.
version() {
    echo "avrstk $("$1" --help | tr '\n' ' ' | sed 's/.*This is *avrstk *\([0-9.]*\)\. *$/\1/')"
    grep -v -e '^sources: ' -e '^program ' || echo "not known whether it is proved"
}

# Runs the program $1 with the other arguments.
run() {
    local program=$1 status=0
    shift
    is_for_serial "$@" || exec "$program" "$@"
    "$program" "$@" || status=$?
    [ "$status" != 1 ] ||
        echo "avrstk: hint: avrstk-serial may take these options" >&2 || true
    exit "$status"
}
