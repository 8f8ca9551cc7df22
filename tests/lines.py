#!/usr/bin/env python3
"""Makes the built program print most lines that a user can meet, and checks that each line of docs/TROUBLESHOOTING is
among them.

Not proved: No proof shows each byte of a line as a user sees it, or how many writes print a line.

    tests/lines.py [CASE ..]      needs a built program (program.py)
"""

import itertools
import re
import shlex
import shutil
import socket
import subprocess
import sys

from cases import PATIENCE, bytes_of, check, check_equal, chosen, leave_out, named, run_cases, table
from line import FrontOfReplies, frames_in
from program import REPLIES, CHIP_FILE, EMULATED, ENDS, FRAMES, SIGNATURE, STDIO, TOP, Room, Server
from program import frame, full_chip, kept_port, lines, lines_of, port_of, tracing

PART = ["-p", "m328p"]
DONE = "done"
ERASED = [SIGNATURE, "chip erased"]

IMAGE_LIMIT = 4_194_304
PART_FILE_LIMIT = 65_536

# lines there that no row here causes, and the tests that have their texts
ELSEWHERE = {
    "faults.py": ["out of memory"],
    "why.py": ["no answer"],
    "rattle/served_runs.rs": ["too many reads"],
    "hostile.py": ["link cannot be read", "link cannot be written"],
    "tables/streams.txt": ["FILE: cannot be created", "FILE: cannot be written", "FILE: cannot be read"],
    "chips.py": ["FILE: in use by another run"],
}

room = Room()
met = set()


def run(what, words, messages, status=1, output=b"", given=b"", chip=None):
    """Checks that a run prints these lines, in a folder without a chip file, or with this one."""
    room.clear()
    if chip is not None:
        room.put("chip.bin", chip)
    check_equal(what, room.run(words, given), (status, output, lines(*messages)))
    met.update(messages)


def refused(what, words, message, **more):
    """Checks that a run is refused before anything is sent: it prints one line, and creates no chip file."""
    run(what, words, [f"error: {message}"], **more)
    check_equal(f"{what}: no chip file", room.read("chip.bin"), more.get("chip"))


def settings_are_refused():
    """Command lines with wrong or missing settings are refused, each with its line."""
    for words, message in table("settings"):
        words = shlex.split(words)
        refused(f"{words}", words, message)


def help_is_printed():
    """Help goes to standard output, with status 0. It has a text for each option, and each text of its source whole."""
    source = (TOP / "crates/avr_plan/src/command.rt").read_text().replace("\\\n", "")
    texts = [text for text in re.findall(r'"([^"]*)"', source) if " " in text]
    for word in ["-h", "--help"]:
        status, output, messages = room.run([word])
        check_equal(f"{word}: status and messages", (status, messages), (0, b""))
        text = output.decode()
        check(f"{word}: begins with what it is for", text.startswith(texts[0] + "\n"), text)
        check_equal(
            f"{word}: its options", re.findall(r"^ +(--?\w+)", text, re.M), [option for option, _ in table("help")]
        )
        for option, description in table("help"):
            check(f"{word}: {option}", re.search(rf"^ +{option}\b.*  {re.escape(description)}$", text, re.M), text)
        check_equal(f"{word}: texts that are cut", [part for part in texts if part not in text], [])


def words_are_refused():
    """If `clap` refuses an argument, its message goes to standard error, with status 1."""
    for words, message in table("words"):
        status, output, messages = room.run(words.split())
        check_equal(f"{words}", (status, output), (1, b""))
        check(f"{words}: its line", messages.decode().startswith(message), messages[:80])
    run("a word that is not UTF-8", [b"-p", b"\xff"], ["error: invalid data"])


def images_are_refused():
    """Image files with a fault are refused, each with its line."""
    for update, content, message in table("images"):
        if content:
            room.keep(update.split(":")[2], bytes_of(content))
        refused(f"{update} of {content}", [*EMULATED, "-U", update], message)


def no_update_is_begun():
    """If an update's image or memory is refused, nothing is sent for the updates before it, and none of their files is
    made."""
    room.keep("bad.hex", b":0400000001020304F3\n:00000001FF\n")
    rows = [
        ("-U lfuse:r:out.h:h -U flash:w:bad.hex", "bad.hex: line 1: bad checksum"),
        ("-U lfuse:w:0xE2:m -U signature:w:1:m", "signature is read-only"),
    ]
    # (over standard streams frames would be the output)
    for (words, message), port in itertools.product(rows, [STDIO, EMULATED]):
        refused(f"{port[3]} {words}", [*port, *words.split()], message)
        check_equal(f"{port[3]} {words}: the file of the read", room.read("out.h"), None)


def images_are_taken():
    """Tests an image on standard input, one at the size limit, and end records. (What is read of an image is proved;
    tests/rattle/plans.rs has its limits by the byte.)"""
    blink = (TOP / "examples/blink.hex").read_bytes()
    flash = [*ERASED, "flash: 228 bytes written", "flash: 228 bytes verified", DONE]
    run("detected on standard input", [*EMULATED, "-U", "flash:w:-"], flash, 0, given=blink)
    nothing = [*ERASED, "flash: 0 bytes written", "flash: 0 bytes verified", DONE]
    whole = room.keep("whole.hex", b":00000001FF\n".ljust(IMAGE_LIMIT, b"\n"))
    run("an end record before four million bytes", [*EMULATED, "-U", f"flash:w:{whole}"], nothing, 0)
    rubbish = room.keep("rubbish.hex", b":00000001FF\nrubbish\n")
    run("rubbish after an end record", [*EMULATED, "-U", f"flash:w:{rubbish}"], nothing, 0)
    open_ended = room.keep("open.hex", b":0400000001020304F2\n")
    expected = [*ERASED, "flash: 4 bytes written", "flash: 4 bytes verified", DONE]
    run(
        "no end record",
        [*EMULATED, "-U", f"flash:w:{open_ended}"],
        [f"warning: {open_ended}: no end record", *expected],
        0,
    )


def part_files():
    """Part files with a fault are refused, each with its line, and the longest part file is read."""
    good = (TOP / "examples/parts.toml").read_text()
    name = re.search(r"\[parts\.(\S+)\]", good).group(1)

    def parts(text, message):
        refused(f"a part file with {text[:50]!r}", [*EMULATED, "--parts", room.keep("p.toml", text.encode())], message)

    parts("a = = 1", "p.toml: not TOML")
    parts(re.sub("flash_page.*\n", "", good), "p.toml: flash_page is missing")
    parts(re.sub("eeprom_page.*\n", "", good), "p.toml: eeprom_page is missing")
    parts(re.sub("flash_page.*\n", "flash_page = 3\n", good), "p.toml: flash_page has a bad value")
    parts(re.sub(r"eeprom_size.*\n", "eeprom_size = 1023\n", good), "p.toml: sizes do not fit")
    parts("#" * (PART_FILE_LIMIT + 1), f"p.toml: longer than {PART_FILE_LIMIT} bytes")
    longest = room.keep("q.toml", (good + "#").ljust(PART_FILE_LIMIT, "x").encode())
    expected = ["device signature = 1E 94 06", DONE]
    run("the longest part file", ["-p", name, "-P", "emu:chip.bin", "--parts", longest], expected, 0)
    refused("no name", [*EMULATED, "--parts", ""], ": cannot be opened")
    refused("no such part", ["-p", "m328", "-P", "emu:chip.bin"], "no part m328")


def chip_files():
    """Chip files that are too short or too long are refused. So is a plan that reads a memory into the chip file,
    before it erases the chip."""
    refused("a short chip file", EMULATED, f"chip.bin: 100 bytes, {CHIP_FILE} expected", chip=bytes(100))
    refused("a long chip file", EMULATED, f"chip.bin: longer than {IMAGE_LIMIT} bytes", chip=bytes(IMAGE_LIMIT + 1))
    into_chip = [*EMULATED, "-e", "-U", "signature:r:chip.bin:h", "-U", "lfuse:w:0x62:m"]
    for chip in [None, full_chip()]:
        refused(f"a read into the chip file {bool(chip)}", into_chip, "chip.bin: cannot be created", chip=chip)


def nothing_is_written():
    """With -n the program reads and compares memories, but doesn't write or erase them."""
    words = [*EMULATED, *"-n -e -U lfuse:w:0xE2:m -U lfuse:v:0xFF:m -U lfuse:r:-:h -U flash:w:empty.bin".split()]
    expected = [
        *(f"lfuse: 1 bytes {outcome}" for outcome in ["not written", "verified", "read"]),
        "flash: 0 bytes not written",
    ]
    run("-n", words, [SIGNATURE, "warning: chip not erased because of -n", *expected, DONE], 0, b"0xff\n")
    check_equal("-n: the chip is as it was", room.read("chip.bin"), b"\xff" * CHIP_FILE)
    expected = [SIGNATURE, "error: lfuse: address 00000000: E2 expected, FF found"]
    run("-n and a comparison that differs", [*EMULATED, "-n", "-U", "lfuse:v:0xE2:m"], expected)


def replies_are_bad():
    """Wrong replies, refusals and noise lead to the expected line and number of frames."""
    cases = [("4,096 bytes four times", "", bytes(4 * 4096), "error: no answer in 4096 bytes", 5)]
    for name, words, replies, message, frames in table("replies"):
        numbered = (reply.split(":") for reply in replies.split())
        replies = b"".join(frame(int(number), bytes_of(body)) for number, body in numbered)
        cases.append((name, words, REPLIES[: ENDS[0]] + replies, message, int(frames)))
    for name, words, replies, message, frames in cases:
        room.clear()
        status, output, messages = room.run([*STDIO, *words.split()], replies)
        check_equal(name, (status, messages, frames_in(output)), (int("error: " in message), lines_of(message), frames))
        met.update(message.split("; "))


class Elsewhere(FrontOfReplies):
    """Replies at another address of this machine, where no process listens at 127.0.0.1."""

    host = "127.0.0.2"


def the_named_host_is_called():
    """`net:` connects to the host that it names, and sends the frames there."""
    peer = Elsewhere(REPLIES, resets=False)
    run("another host", [*PART, "-P", f"net:127.0.0.2:{peer.port}"], [SIGNATURE, DONE], 0)
    check_equal("what it received", peer.end(), FRAMES)


def traced(call):
    """Returns the system calls that match, with the part that is in parentheses."""
    return re.findall(call, (room.read("calls") or b"").decode(), re.M)


def nobody_else_is_called():
    """Runs over `emu:` and standard streams make no connection, one over `net:` makes one, and none of them listens; a
    server does. Bytes are sent without delay."""
    if not shutil.which("strace"):
        return leave_out("which connections are made", "strace is not installed")
    peer = FrontOfReplies(REPLIES, resets=False)
    named = [("socket", "AF_INET"), ("connect", f"htons({peer.port})"), ("setsockopt", "TCP_NODELAY, [1], 4) = 0")]
    over_net = [*PART, "-P", f"net:127.0.0.1:{peer.port}"]
    calls = "socket,connect,bind,listen,accept,accept4,setsockopt"
    for words, given, wanted in [(STDIO, REPLIES, []), (EMULATED, b"", []), (over_net, b"", named)]:
        room.clear()
        started = room.start(words, subprocess.PIPE, **tracing("-e", f"trace={calls}"))
        check_equal(f"{words}", started.communicate(given, PATIENCE)[1], lines(SIGNATURE, DONE))
        timed = traced(r'SO_(RCV|SND)TIMEO\w*, "\\(\w)\\0')
        seconds = [("RCV", "1"), ("SND", "n")] if wanted else []
        check_equal(f"{words}: a read times out after 1 second, a write after 10", timed, seconds)
        found = [line for line in traced(r"^(\w+\(.*)") if "TIMEO" not in line]
        check(f"{words}: its calls", len(found) == len(wanted), found)
        for made, (call, argument) in zip(found, wanted):
            check(f"{words}: {call}", made.startswith(f"{call}(") and argument in made, made)
    check_equal("what the peer received", peer.end(), FRAMES)
    room.clear()
    with Server(room, **tracing("-e", "trace=setsockopt")) as server:
        server.call().close()
        check_equal("a caller that says nothing", server.end()[0], 0)
    check_equal("replies are sent without delay, too", len(traced(r"TCP_NODELAY, \[1\], 4\) = 0")), 1)


def ports_are_refused():
    """A port that is in use, and a port at which no process listens, give their lines."""
    with socket.create_server(("127.0.0.1", 0)) as other:
        taken = other.getsockname()[1]
        chip = ["--serve", str(taken), "--chip", "chip.bin"]
        refused("a port that is taken", [*PART, *chip], f"port {taken} cannot be opened")
    with kept_port() as kept:
        nobody = f"net:127.0.0.1:{port_of(kept)}"
        refused("a port at which no process listens", [*PART, "-P", nobody], f"port {nobody} cannot be opened")


def long_lines():
    """A long line is printed whole, even if it is longer than the buffer."""
    most = 4096 - len(lines("error: : cannot be opened"))
    for length in (most - 1, most, most + 1, 3 * most):
        name = "x" * length
        refused(f"a name of {length} bytes", [*EMULATED, "-U", f"flash:w:{name}"], f"{name}: cannot be opened")
    for length, (words, message) in itertools.product([65, 256, most], table("long_names")):
        # (a chip file may have a name of 65 bytes)
        if length > 65 or "written" not in message:
            words, message = (text.replace("NAME", "x" * length) for text in (words, message))
            refused(f"{words[:50]} of {length} bytes", words.split(), message)


def a_line_is_one_write():
    """Each line is one write, in a run that succeeds and in one that is refused for a long name."""
    if not shutil.which("strace"):
        return leave_out("how lines are written", "strace is not installed")
    good, refuses = [*EMULATED, "-e", "-n", "-U", "lfuse:w:0x62:m"], [*EMULATED, "-U", f"flash:w:{'x' * 4000}"]
    for words, count in [(good, 4), (refuses, 1)]:
        room.clear()
        started = room.start(words, **tracing("-e", "trace=write"))
        messages = started.communicate(timeout=PATIENCE)[1].splitlines(keepends=True)
        written = traced(r"^write\(2, .* = (\d+)$")
        check_equal(f"the writes of {words[4]}", [int(size) for size in written], [len(line) for line in messages])
        check_equal(f"the lines of {words[4]}", len(messages), count)


def runs_share_a_log():
    """Fifty runs at once append to one log: no line is torn."""
    room.clear()
    with open(room.folder / "log", "ab") as log:
        words = ["-U", "lfuse:w:0x62:m", "-U", "hfuse:v:0xFF:m"]
        runs = [room.start([*PART, "-P", f"emu:chip{number}.bin", *words], stderr=log) for number in range(50)]
        for started in runs:
            started.communicate(timeout=PATIENCE)
            check_equal("a run", started.returncode, 0)
    expected = [SIGNATURE, "lfuse: 1 bytes written", "lfuse: 1 bytes verified", "hfuse: 1 bytes verified", DONE]
    check_equal("the log", sorted((room.read("log") or b"").splitlines()), sorted(lines(*expected).splitlines() * 50))


def each_line_was_met():
    """Checks that this script met each line of the table of messages, or another test has it. So this case is last."""
    for name in [name for name in CASES if name not in chosen(CASES)]:
        CASES[name]()
    page = (TOP / "docs/TROUBLESHOOTING.md").read_text()
    table = page[page.index("| Line | When |") :].split("\n\n")[0]
    for row in table.splitlines()[2:]:
        if row.startswith("|"):
            for line in alternatives(re.findall(r"`([^`]+)`", row.split("|")[1])):
                file = next((name for name, ends in ELSEWHERE.items() if line.removeprefix("error: ") in ends), None)
                if file:
                    end = line.split(": ")[-1]
                    check(f"{file} has `{end}`", end in (TOP / "tests" / file).read_text())
                else:
                    check(f"the line `{line}` was met", any(re.fullmatch(pattern(line), message) for message in met))


def alternatives(texts):
    """Returns the lines of a row. A text without its own prefix replaces the end of the first line."""
    begin = texts[0][: texts[0].rfind(": ") + 2]
    return [texts[0], *(text if text.startswith(("error: ", "warning: ")) else begin + text for text in texts[1:])]


def pattern(line):
    """Returns a pattern for a line of the table."""
    words = {"XX": "[0-9A-F]{2}", "ADDR": "[0-9A-F]{8}", "N": "[0-9]+", "MEM": "[a-z]+", "FIELD": "[a-z_]+"}
    words |= {name: ".*" for name in ["FILE", "ID", "TEXT", "NAME"]}
    return re.sub(r"\b[A-Z]+\b", lambda match: words.get(match[0], match[0]), re.escape(line))


CASES = named(
    *(settings_are_refused, help_is_printed, words_are_refused, images_are_refused, no_update_is_begun),
    *(
        images_are_taken,
        part_files,
        chip_files,
        nothing_is_written,
        replies_are_bad,
        the_named_host_is_called,
        nobody_else_is_called,
    ),
    *(ports_are_refused, long_lines, a_line_is_one_write, runs_share_a_log, each_line_was_met),
)

if __name__ == "__main__":
    sys.exit(run_cases(CASES, __doc__))
