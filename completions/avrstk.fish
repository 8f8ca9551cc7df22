# fish completions for avrstk, avrstk-serial and avrstk-serve: options, parts, ports, devices, and updates piece by piece.
# fish reads this file under the name of each command.

# Prints the names of files that begin with the text after a prefix, each with that prefix.
function __avrstk_files
    for it in (__fish_complete_path (string sub -s (math (string length -- $argv[1]) + 1) -- $argv[2]))
        printf '%s%s\n' $argv[1] $it
    end
end

# Prints the built-in parts, and those of the part file that is given or, for the scripts, comes with them.
function __avrstk_parts
    set -l words (commandline -opc)
    set -l file (string match -rg -- '--parts[= ](\S+)' "$words")
    if not set -q file[1]; and test (path basename -- $words[1]) != avrstk
        set -l top (path dirname -- (path resolve -- (command -s -- $words[1])))
        set file (path filter -f -- $top/parts/classic.toml $top/../share/avrstk/classic.toml)
    end
    printf '%s\n' m328p t85 m2560
    if test -f "$file[1]"
        sed -nE 's/^\[parts\.([[:alnum:]_-]+)\].*/\1/p; s/^([[:alnum:]_-]+) = \{.*/\1/p' <$file[1]
    end
end

function __avrstk_ports
    set -l typed (string replace -r '^-P' '' -- (commandline -ct))
    printf '%s\n' stdio: emu: net: $argv
    string match -q 'emu:*' -- $typed; and __avrstk_files emu: $typed
end

function __avrstk_updates
    set -l typed (string replace -r '^-U' '' -- (commandline -ct))
    if set -l front (string match -r '^[a-z]+:r:[^:]*:' -- $typed)
        printf "$front%s\n" r i s d h o b
    else if set -l front (string match -r '^[a-z]+:[wv]:[^:]*:' -- $typed)
        set -l words (commandline -opc)
        set -l elf
        test (path basename -- $words[1]) = avrstk-serial; and set elf e
        printf "$front%s\n" a i s r m $elf
    else if set -l front (string match -r '^[a-z]+:[rwv]:' -- $typed)
        __avrstk_files $front $typed
    else if set -l front (string match -r '^(?:signature|calibration):' -- $typed)
        printf '%s\n' {$front}{r,v}:
    else if set -l front (string match -r '^[a-z]+:' -- $typed)
        printf '%s\n' {$front}{r,w,v}:
    else
        printf '%s:\n' flash eeprom lfuse hfuse efuse lock signature calibration
        # a file alone is flash:w:FILE:a
        __avrstk_files '' $typed
    end
end

for command in avrstk avrstk-serial avrstk-serve
    complete -c $command -f
    complete -c $command -s p -x -a '(__avrstk_parts)' -d part
    complete -c $command -l parts -r -F -d 'part file'
    complete -c $command -s h -l help -d 'print help'
end
for command in avrstk avrstk-serial
    complete -c $command -s U -x -a '(__avrstk_updates)' -d update
    for flag in e:'erase the chip' D:'erase it only with -e' V:"don't read back" n:"don't change the chip" \
            F:'go on despite a wrong signature' A:'keep trailing FF' q:quiet v:'no effect'
        complete -c $command -s (string split -f 1 : -- $flag) -d (string split -f 2 : -- $flag)
    end
end
complete -c avrstk -s b -x -d 'no effect'
complete -c avrstk-serial -s b -x -a '9600 19200 38400 57600 115200 250000' -d speed
complete -c avrstk -s c -x -a stk500v2 -d programmer
complete -c avrstk -s P -x -a '(__avrstk_ports)' -d port
complete -c avrstk -l serve -x -d 'serve at a port'
complete -c avrstk -l chip -r -F -d 'chip file'
complete -c avrstk-serial -s c -x -a 'stk500v2 wiring avrispv2 stk500 arduino arduino_as_isp stk500v1 avrisp' -d programmer
complete -c avrstk-serial -s P -x -a '(__avrstk_ports all (path filter -- /dev/ttyACM* /dev/ttyUSB* /dev/serial/by-id/*))' -d port
complete -c avrstk-serial -l wait -x -d 'time for a reset'
complete -c avrstk-serial -l retry -x -d 'times to run it again'
complete -c avrstk-serial -l version -d 'print the version'
complete -c avrstk-serial -s C -r -F -d ignored
complete -c avrstk-serial -s l -r -F -d 'file of messages'
complete -c avrstk-serial -l backup -r -F -d 'folder for a backup'
complete -c avrstk-serial -l restore -r -F -d 'folder of a backup'
complete -c avrstk-serial -l try-rows -d 'try what the promise asks of a programmer'
complete -c avrstk-serial -l yes -d 'for --try-rows=all, at a chip that you can lose'
complete -c avrstk-serial -l json -r -F -d 'file of a report'
complete -c avrstk-serial -l each -x -d 'text for each board'
complete -c avrstk-serial -l counter -r -F -d 'file of the next number'
complete -c avrstk-serial -l from -x -d 'first number'
complete -c avrstk-serial -l rows -r -F -d 'table of texts'
complete -c avrstk-serial -s p -x -a auto -d "the chip's part"
complete -c avrstk-serve -l chip -r -F -d 'chip file'
complete -c avrstk-serve -l idle -x -d 'idle timeout'
complete -c avrstk-serve -l timeout -x -d 'time of the command'
complete -c avrstk-serve -l listen -x -d 'address to listen at'
complete -c avrstk-serve -l pty -r -F -d 'link to a terminal'
complete -c avrstk-serve -l log -r -F -d 'file of commands'
complete -c avrstk-serve -l json -r -F -d 'file of a report'
complete -c avrstk-serve -l log-limit -x -d 'limit of the log'
for fault in lose lose-reply corrupt corrupt-reply drop
    complete -c avrstk-serve -l $fault -x -d 'fault of a frame: a command, number or share'
end
complete -c avrstk-serve -l late -x -d 'late reply: a command, number or share, then :SECONDS'
complete -c avrstk-serve -l seed -x -d 'repeat faults'
complete -c avrstk-serve -l strict -d 'fail if a fault selected no command'
complete -c avrstk-serve -l bootloader -d 'refuse as a bootloader'
complete -c avrstk-serve -l mega -d 'be a Mega bootloader'
complete -c avrstk-serve -l locked -d 'lock the chip first'
complete -c avrstk-serve -l no-chip -d 'refuse to begin'
complete -c avrstk-serve -l version -d 'print the version'
