"""avrstk-serial --backup and --restore: all memories of a chip as the files of a folder."""

from __future__ import annotations

from avrstk_common import HERE, NAME, Fault, print_line, reported_session, show
from avrstk_words import DATA, ENDS, FUSES, UNOPENED, Update, Words, parts_of, records_of

import contextlib
import copy
import os
import re
import shlex
import shutil
import sys
from pathlib import Path
from typing import Callable

# the files, in the order of the reads. (What a bootloader refuses to read comes first)
FILES = {memory: "txt:h" for memory in ["calibration", "signature", *FUSES]}
FILES.update({"flash": "hex:i", "eeprom": "hex:i"})


def text_of(folder: str, memory: str) -> str:
    return Path(folder, f"{memory}.{FILES[memory][:3]}").read_text("ascii", "replace")


def files_of(folder: str | None) -> list[str]:
    """Returns the files that --restore reads; none without a folder."""
    return [f"{folder}/{name}.{end[:3]}" for name, end in FILES.items() if folder and name != "calibration"]


def bytes_of(folder: str, memory: str) -> list[int]:
    """Returns the values of a file."""
    text = text_of(folder, memory).strip()
    if not re.fullmatch(r"0x[0-9a-f]{1,2}(,0x[0-9a-f]{1,2})*", text):
        raise Fault(f"{folder}/{memory}.txt isn't as --backup writes it")
    return [int(value, 16) for value in text.split(",")]


def back_up(words: Words, folder: str, runs: Callable[[], int]) -> int:
    """Makes the folder, reads the chip by this run, and prints the command that restores it. If the chip can't be read
    whole, the folder is removed."""
    is_whole, words.report.stage = False, "file"
    try:
        os.mkdir(folder)
    except OSError as fault:
        raise Fault(f"--backup {folder}: {fault.strerror}: {UNOPENED}")
    words.report.stage = "arguments"
    try:
        words.updates = [Update(f"{memory}:r:{folder}/{memory}.{end}") for memory, end in FILES.items()]
        status = runs()
        if not status and not bytes_of(folder, "lock")[0] & 2:
            words.report.stage = "refused"
            raise Fault("the chip reads as locked")
        is_whole = not status
    except Fault as fault:
        raise Fault(f"{fault}; no backup is kept")
    finally:
        if not is_whole:
            # (a file that another program put there stays, and the folder with it)
            with contextlib.suppress(OSError):
                for name in os.listdir(folder):
                    if name.partition(".")[0] in FILES:
                        os.unlink(f"{folder}/{name}")
                os.rmdir(folder)
    if is_whole:
        command = command_again(words, f"--restore={folder}")
        # (over `stdio:` standard output goes to the programmer)
        if (words.device or "").startswith("stdio:"):
            print_line(command)
        else:
            show(command)
    return status


def own_name() -> str:
    """Returns what the shell calls this script, which may be in no folder of PATH, as in a clone."""
    found = shutil.which(NAME)
    if found and os.path.realpath(found) == os.path.join(HERE, NAME):
        return NAME
    return sys.argv[0] if "/" in sys.argv[0] else f"./{sys.argv[0]}"


def command_again(words: Words, *more: str) -> str:
    """Returns a command for the same programmer and chip."""
    kept = [option for option in ("--parts", "-c", "-b", "--wait") if option in words.last]
    given = [word for option in kept for word in (option, words.last[option])]
    given += ["-p", words.part or "", "-P", words.device or "", *more]
    return " ".join(map(shlex.quote, [own_name(), *["--unproved"] * words.unproved, *given]))


def restored(words: Words, folder: str) -> list[Update]:
    """Returns the updates that write a backup, the lock last. The whole EEPROM is written, whatever an erase leaves."""
    signature = "".join(f"{byte:02X}" for byte in bytes_of(folder, "signature"))
    own, eeprom = words.signature(), records_of(text_of(folder, "eeprom").encode())
    if not bytes_of(folder, "lock")[0] & 2:
        raise Fault(f"{folder}/lock.txt is of a locked chip")
    if own and own != signature:
        raise Fault(f"{folder} has the signature {signature}, and {words.part} {own}")
    if sorted(eeprom) != list(range(len(eeprom))) or has_more(words, signature, len(eeprom)):
        raise Fault(f"{folder}/eeprom.hex is not the whole EEPROM")
    if not ENDS[b":"].search(text_of(folder, "flash").encode()):
        raise Fault(f"{folder}/flash.hex has no end record")
    # (if all of flash is FF, the erase restores it)
    flash = f"{folder}/flash.hex:i" if DATA.search(text_of(folder, "flash").encode()) else "0xFF:m"
    values = [f"{memory}:w:0x{bytes_of(folder, memory)[0]:02X}:m" for memory in ["efuse", "hfuse", "lfuse", "lock"]]
    return [Update(text) for text in [f"flash:w:{flash}", f"eeprom:w:{folder}/eeprom.hex:i", *values]]


def has_more(words: Words, signature: str, size: int) -> bool:
    """Whether the part has EEPROM at this address. -p auto takes the part of the chip, whose signature is compared."""
    only, past = copy.copy(words), Update("eeprom:w:past.hex:i")
    only.part = next(iter(parts_of(signature)), None) if words.part == "auto" else words.part
    past.elf, only.updates, only.flags = [(size, b"\0")], [past], []
    past.hand_on(b"")
    # (without that program it isn't known what the part has)
    return bool(reported_session()) and only.plan().frames > 0


def asking(folder: str | None) -> list[Update]:
    """Returns what only a programmer can read, and if there is a backup to restore, the comparison of its signature
    with the chip's. Neither writes anything."""
    updates = [Update("calibration:r:/dev/null:h")]
    if folder is not None:
        signature = ",".join(f"0x{byte:02X}" for byte in bytes_of(folder, "signature"))
        updates.append(Update(f"signature:v:{signature}:m"))
    return updates
