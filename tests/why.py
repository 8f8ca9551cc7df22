#!/usr/bin/env python3
"""Runs AVRDUDE and the built program, and compares their behaviour with what README and docs/WHY say. Covers the tables
of examples/lossy/compare.py, the frames, files that are no firmware, and a programmer that never replies.

Not proved: No proof covers AVRDUDE, which is not part of this project, or time.

    tests/why.py        needs a built program (program.py); rows and frames of AVRDUDE 7.1 are left out without it
"""

import os
import re
import socket
import subprocess
import sys
import time
from pathlib import Path

from cases import PATIENCE, check, check_equal, leave_out, named, pauses, put_program, run_cases
from line import BadLine
from program import CHIP_FILE, ENDS, PROGRAM, REPLIES, TOP, Room, Server, frame, has_avrdude, lines

COMMANDS = {"SIGN_ON": 0x01, "CHIP_ERASE": 0x12, "PROGRAM_FLASH": 0x13, "READ_FLASH": 0x14}
# the other commands, which set an address, a parameter or a mode: SET_PARAMETER, LOAD_ADDRESS, ENTER and LEAVE
MODES = {0x02, 0x06, 0x10, 0x11}
# a chip whose flash has only zeros
FULL = bytes(32_768) + b"\xff" * (CHIP_FILE - 32_768)
room = Room()


def rows(text):
    """Returns the rows of the table of runs."""
    return re.findall(r"^\| (?:nothing|a PROGRAM_FLASH|the CHIP_ERASE) \|.*", text, re.M)


def table_is_printed():
    """examples/lossy/compare.py prints exactly the rows of docs/WHY, and README's rows are among them."""
    wanted = rows((TOP / "docs/WHY.md").read_text())
    shown = rows((TOP / "README.md").read_text())
    check("README has rows of it", shown and set(shown) <= set(wanted), shown)
    how = {"capture_output": True, "text": True, "env": os.environ | {"AVRSTK": str(PROGRAM)}, "timeout": PATIENCE}
    ran = subprocess.run([TOP / "examples/lossy/compare.py"], **how)
    found = rows(ran.stdout)
    if not has_avrdude():
        for row in (row for row in wanted if "`avrdude" in row):
            leave_out(f"docs/WHY: {row[:60]}", "AVRDUDE 7.1 is not installed")
        wanted, found = ([row for row in table if "`avrdude" not in row] for table in (wanted, found))
    for row in wanted:
        check(f"is printed: {row}", row in found, "\n".join(found))
    check_equal("no other row is printed", [row for row in found if row not in wanted], [])
    check("the status", ran.returncode == 0, f"{ran.returncode}: {ran.stderr[-500:]}")


def avrdude_that_fails():
    """If AVRDUDE ends before it connects, for example without its configuration, compare.py ends, too."""
    room.clear()
    put_program(room.folder / "avrdude", "#!/bin/sh\nexit 1\n")
    path = f"{room.folder}:{os.environ['PATH']}"
    how = {"capture_output": True, "text": True, "env": os.environ | {"AVRSTK": str(PROGRAM), "PATH": path}}
    ran = subprocess.run([TOP / "examples/lossy/compare.py"], **how, timeout=PATIENCE)
    check_equal(
        "rows of AVRDUDE with status 1", len(re.findall(r"^\| .*`avrdude.* \| no \| 1 \|", ran.stdout, re.M)), 6
    )
    check_equal("all rows, and the status", (len(rows(ran.stdout)), ran.returncode), (12, 0))
    (room.folder / "avrdude").unlink()


def frames_are_sent():
    """A run that loses its CHIP_ERASE sends the frames that WHY shows, waits at least as long as WHY shows, and has
    status 0."""
    picture = re.search(r"^    AVRDUDE 7\.1 +avrstk\n\n((?:    .*\n)+)", (TOP / "docs/WHY.md").read_text(), re.M)[
        1
    ].splitlines()
    half = max(row.rfind("CHIP_ERASE ──") for row in picture) - 4
    firmware = ["-p", "m328p", "-U", "flash:w:blink.hex:i"]
    for tool, column, is_right in [
        (["avrdude", "-c", "stk500v2"], [row[:half] for row in picture], False),
        ([PROGRAM], [row[half:] for row in picture], True),
    ]:
        name = "avrstk" if is_right else "AVRDUDE"
        if not is_right and not has_avrdude():
            leave_out("docs/WHY: the frames of AVRDUDE", "AVRDUDE 7.1 is not installed")
            continue
        shown = [
            (int(number), COMMANDS[command]) for number, command in re.findall(r"(\d+) (\w+) ─", "\n".join(column))
        ]
        room.clear()
        old = bytearray(b"\xff" * CHIP_FILE)
        old[8192:8448] = bytes(256)
        room.put("served.bin", old)
        line = BadLine(room, {shown[0][0]: "lost command"})
        begun = time.monotonic()
        how = {
            "stdin": subprocess.DEVNULL,
            "capture_output": True,
            "text": True,
            "cwd": room.folder,
            "timeout": PATIENCE,
        }
        ran = subprocess.run([*tool, *firmware, "-P", f"net:127.0.0.1:{line.port}"], **how)
        taken = time.monotonic() - begun
        sent = [(request[1], request[5]) for request in line.end() if request[5] not in MODES]
        sent = sent[sent.index(shown[0]) :]
        check_equal(f"{name}: the frames", sent[: len(shown)], shown)
        more = "128 blocks" in "\n".join(column) and 127
        check_equal(
            f"{name}: and then", [command for _, command in sent[len(shown) :]], [COMMANDS["READ_FLASH"]] * more
        )
        check(f"{name}: the wait", taken >= int(re.search(r"waits (\d+) s", "\n".join(column))[1]), taken)
        check(f"{name}: verified, status 0", ran.returncode == 0 and "verified" in ran.stderr, ran)
        is_old = room.read("served.bin")[8192:8448] == bytes(256)
        check(f"{name}: the old firmware", is_old == (not is_right) == ("old firmware" in "\n".join(column)), is_old)


def bad_files():
    """Checks how AVRDUDE 7.1 handles bad files; README has the first of these rows."""
    if not has_avrdude():
        return leave_out("AVRDUDE's part", "AVRDUDE 7.1 is not installed")
    hexes, source = ((TOP / f"examples/blink.{suffix}").read_text() for suffix in ("hex", "c"))
    with_bad_sum = re.sub(r"(?m)^(:.*)(..)$", r"\g<1>00", hexes, count=1)
    for name, content, update, status, is_kept in [
        ("a bad checksum: it has erased the chip", with_bad_sum, "image.hex:i", 1, False),
        ("no such file: it refuses before", None, "nofile.hex:i", 1, True),
        ("a comment above Intel HEX: it reads the records", f"# a note\n{hexes}", "image.hex", 0, False),
        ("an empty file: it refuses", "", "image.hex", 1, True),
        ("C source: it refuses", source, "image.hex", 1, True),
    ]:
        room.clear()
        room.put("chip.bin", FULL)
        if content is not None:
            room.put("image.hex", content.encode())
        with Server(room, "chip.bin") as server:
            words = ["avrdude", "-qq", "-c", "stk500v2", "-p", "m328p", "-P", f"net:127.0.0.1:{server.port}"]
            words += ["-U", f"flash:w:{update}"]
            ran = subprocess.run(words, cwd=room.folder, capture_output=True, text=True, timeout=PATIENCE)
            server.end()
        chip = room.read("chip.bin")
        found = ran.returncode, chip == FULL
        check(f"AVRDUDE, {name}", found == (status, is_kept), (found, ran.stderr[-300:]))
        if status == 0:
            check("and the chip has them", chip[:2] == b"\x0c\x94", chip[:2])


def no_answer():
    """Checks how long avrstk and AVRDUDE try to reach a programmer that never replies, as README says."""
    row = re.search(r"^\| a programmer that never replies.*", (TOP / "README.md").read_text(), re.M)[0]
    patient, first, last = map(int, re.findall(r"(\d+) s", row))
    room.clear()
    with socket.create_server(("127.0.0.1", 0)) as silent:
        port = ["-p", "m328p", "-P", f"net:127.0.0.1:{silent.getsockname()[1]}"]
        begun, awake = time.monotonic(), pauses.awake()
        quiet = {"stdin": subprocess.DEVNULL, "stdout": subprocess.DEVNULL, "stderr": subprocess.DEVNULL}
        other = subprocess.Popen(["avrdude", "-c", "stk500v2", *port], **quiet) if has_avrdude() else None
        started = room.start(port)
        # (at least so long in all, and not much longer without pauses of the machine)
        line, taken, own = started.stderr.readline(), time.monotonic() - begun, pauses.awake() - awake
        is_right = line == lines("error: no answer") and first <= taken and own < first + 2
        check("`no answer`", is_right, (line, taken, own))
        started.communicate(timeout=PATIENCE)
        taken, own = time.monotonic() - begun, pauses.awake() - awake
        check("the end", started.returncode == 1 and last <= taken and own < last + 2, (taken, own))
        if other:
            time.sleep(max(0.0, patient - taken))
            check(f"AVRDUDE still waits after {patient} s", other.poll() is None, other.poll())
            other.kill()
            other.wait()
        else:
            leave_out("AVRDUDE's patience", "AVRDUDE 7.1 is not installed")
        # (one of the two that called)
        received = [silent.accept()[0].recv(4096) for _ in range(1 + bool(other))]
        wanted = b"".join(
            [*(frame(number, 0x01) for number in range(1, 5)), *(frame(number, 0x11, 1, 1) for number in range(5, 9))]
        )
        check("four attempts to sign on, four to leave", wanted in received, received)


def used_by(process):
    """Returns the hundredths of processor seconds that a process has used."""
    fields = Path(f"/proc/{process}/stat").read_text().rpartition(")")[2].split()
    return int(fields[11]) + int(fields[12])


def closed_connection():
    """Checks what avrstk and AVRDUDE do once the other side has closed the connection, as README says."""
    check(
        "README's row",
        re.search(
            r"^\| a connection that .* never ends, .* `link ended` at once", (TOP / "README.md").read_text(), re.M
        ),
    )
    quiet = {"stdin": subprocess.DEVNULL, "stdout": subprocess.DEVNULL, "stderr": subprocess.PIPE}
    with socket.create_server(("127.0.0.1", 0)) as door:
        port = ["-p", "m328p", "-P", f"net:127.0.0.1:{door.getsockname()[1]}"]
        avrdude = ["avrdude", "-qq", "-c", "stk500v2"]
        for tool, error in [([PROGRAM], "ended"), ([PROGRAM], "cannot be read"), (avrdude, "")]:
            if not error and not has_avrdude():
                leave_out("AVRDUDE at a closed connection", "AVRDUDE 7.1 is not installed")
                continue
            started = subprocess.Popen([*tool, *port], **quiet)
            client = door.accept()[0]
            client.recv(100)
            # the reply and the end arrive together, or a command that isn't read makes the close a reset
            client.setsockopt(socket.IPPROTO_TCP, socket.TCP_CORK, error != "cannot be read")
            client.sendall(REPLIES[: ENDS[0]])
            if error == "cannot be read":
                client.recv(1, socket.MSG_PEEK)
            client.close()
            begun = pauses.awake()
            if error:
                messages = started.communicate(timeout=PATIENCE)[1]
                check_equal(f"`link {error}`", (started.returncode, messages), (1, lines(f"error: link {error}")))
                check("at once", pauses.awake() - begun < 2, pauses.awake() - begun)
                continue
            time.sleep(5)
            before = used_by(started.pid)
            time.sleep(10)
            check("AVRDUDE goes on after 15 s", started.poll() is None, started.poll())
            check("and uses the processor", used_by(started.pid) - before > 10)
            started.kill()
            started.communicate()


CASES = named(table_is_printed, avrdude_that_fails, frames_are_sent, bad_files, no_answer, closed_connection)

if __name__ == "__main__":
    # (AVRDUDE's own timeouts count, too)
    sys.exit(run_cases(CASES, __doc__, timed=["frames_are_sent", "bad_files", "no_answer", "closed_connection"]))
