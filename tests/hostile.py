#!/usr/bin/env python3
"""Runs the built program in a failing environment: closed and full outputs, bad files, programmers that disconnect or
are slow, callers that send garbage, and signals.

Not proved: No proof covers time and signals, or what the system does with closed, full and broken streams, files and
sockets.

    tests/hostile.py [CASE ..]      needs a built program (program.py)
"""

import fcntl
import os
import shlex
import signal
import socket
import struct
import subprocess
import sys
import time
from concurrent.futures import ThreadPoolExecutor

from cases import PATIENCE, bytes_of, check, check_equal, named, run_cases, table
from line import FrontOfReplies, Peer, frames_of
from program import REPLIES, CHIP_FILE, EMULATED, ENDS, FRAMES, LFUSE, PROGRAM, SIGNATURE, STDIO, Room, Server
from program import end_of, frame, lines, lines_of

NEW = b"\xff" * CHIP_FILE
ENTER = FRAMES[1][5:-1]
LEAVE = 0x11

room = Room()


def output_fails():
    """Tests outputs that are full, or that no process reads."""
    read_fuse = [*EMULATED, "-U", "lfuse:r:-:h"]
    for name, target in [("full", "/dev/full"), ("closed pipe", None)]:
        unwritten = lines(SIGNATURE, "error: -: cannot be written")
        for words, message in [(STDIO, lines("error: link cannot be written")), (read_fuse, unwritten)]:
            room.clear()
            check_equal(f"output {name}: {words}", with_output(words, target), (1, message))
        check_equal("the chip file after it", len(room.read("chip.bin") or b""), CHIP_FILE)


def with_output(words, target):
    """Returns the status and messages of a run whose output is a file, or a pipe whose read end is closed."""
    if target:
        output = os.open(target, os.O_WRONLY)
    else:
        other, output = os.pipe()
        os.close(other)
    started = room.start(words, subprocess.PIPE, stdout=output)
    os.close(output)
    try:
        _, messages = started.communicate(REPLIES, timeout=PATIENCE)
    except BrokenPipeError:
        messages = started.stderr.read()
    return started.wait(), messages


def input_fails():
    """Tests a standard input that is empty, or a folder."""
    room.clear()
    check_equal("no replies", room.run(STDIO), (1, FRAMES[0], lines("error: link ended")))
    folder = os.open(room.folder, os.O_RDONLY)
    found = end_of(room.start(STDIO, folder))
    check_equal("a folder for a line", found, (1, FRAMES[0], lines("error: link cannot be read")))
    found = end_of(room.start([*EMULATED, "-U", "flash:w:-"], folder))
    check_equal("a folder for an image", found, (1, b"", lines("error: -: cannot be read")))
    os.close(folder)
    check_equal("no file was made", room.read("chip.bin"), None)


def meets(kind, run=lambda words, redirected: room.run(words, closed=redirected)):
    """Makes the runs of a kind in the table of streams; `run` takes the options and a shell's redirections."""
    for of, words, redirected, status, output, message in table("streams"):
        if of == kind:
            room.clear()
            wanted = int(status), bytes_of(output), lines_of(message)
            check_equal(f"{words} {redirected}", run(shlex.split(words), redirected), wanted)


def descriptors_are_closed():
    """Tests standard streams that were closed before the program started."""
    meets("closed")


def closed_streams_stay_closed():
    """If standard streams were closed before the start, only frames go over a `net:` link."""
    for closed, status in [("0<&-", 0), ("1>&-", 0), ("2>&-", 1), ("1>&- 2>&-", 1), ("0<&- 1>&- 2>&-", 1)]:
        peer = FrontOfReplies(REPLIES, resets=False)
        found = room.run(["-p", "m328p", "-P", f"net:127.0.0.1:{peer.port}"], closed=closed)
        frames = peer.end()
        check(f"{closed}: frames alone", frames and frames == FRAMES[: len(frames)], frames)
        check(f"{closed}: status", found[:2] == (status, b"") and len(frames) >= 5, found)


def files_fail():
    """Tests missing files, folders in their place, and files that can't be created or written."""
    (room.folder / "folder").mkdir()
    room.given.add("folder")
    meets("file")


def with_limit(kibibytes, words, redirected=""):
    """Returns the status, output and messages of a run with a file size limit in KiB and SIGXFSZ ignored. (Python
    ignores it for itself, but not for the shell.)"""
    limited = f'trap "" XFSZ; ulimit -f {kibibytes}; exec "$0" "$@"'
    return end_of(room.start(words, closed=redirected, front=["bash", "-c", limited]))


def files_are_full():
    """A write beyond a file's size limit (`ulimit -f`) fails, and the run with it."""
    chip = bytes(place % 255 for place in range(32_768)) + b"\xff" * 1_028
    for update, redirected, before, after, status, message in table("full"):
        room.clear()
        room.put("chip.bin", chip)
        room.put("out", bytes(int(before)))
        # (a log that is write-only)
        (room.folder / "out").chmod(0o200)
        found = with_limit(36, [*EMULATED, "-U", update], redirected)
        check_equal(f"{update} {redirected}", found, (int(status), b"", lines_of(message)))
        check_equal(f"{update} {redirected}: its length", (room.folder / "out").stat().st_size, int(after))
        check(f"{update} {redirected}: the chip is as it was", room.read("chip.bin") == chip)


def no_file_may_grow():
    """If the file size limit is 0, output to files fails, and other output doesn't."""
    meets("no file may grow", lambda words, redirected: with_limit(0, words, redirected))


def replies_are_cut():
    """A programmer closes or resets the connection before each byte of its replies. If a reset comes during the call,
    or before the socket's options are set, the port cannot be opened; both outcomes are right."""
    for count in range(len(REPLIES)):
        whole = sum(end <= count for end in ENDS)
        signature = [SIGNATURE] if whole >= 5 else []
        peer = FrontOfReplies(REPLIES[:count], resets=False)
        found = room.run(["-p", "m328p", "-P", f"net:127.0.0.1:{peer.port}"])
        expected = lines(*signature, "error: link ended")
        check_equal(f"{count} bytes and the end", (*found, peer.end()), (1, b"", expected, FRAMES[: whole + 1]))
        peer = FrontOfReplies(REPLIES[:count], resets=True)
        status, _, messages = room.run(["-p", "m328p", "-P", f"net:127.0.0.1:{peer.port}"])
        peer.end()
        faults = [
            lines(*front, f"error: link cannot be {verb}") for front in ([], signature) for verb in ("read", "written")
        ]
        faults.append(lines(f"error: port net:127.0.0.1:{peer.port} cannot be opened"))
        check(f"{count} bytes and a reset", status == 1 and messages in faults, f"{status}, {messages}")


def callers_are_odd():
    """Tests callers of the served emulator that send nothing, garbage or half a frame, or reset the connection."""
    command = bytes.fromhex("1B0900010E0518")
    for name, sent, wanted in [
        ("nothing", b"", b""),
        ("10 MB of rubbish", bytes(range(256)) * 40_000, None),
        ("half a frame", FRAMES[0][:4], b""),
        ("a frame that is spoiled and one of an unknown command", command, bytes.fromhex("1B0900020E05C9D2")),
    ]:
        found, answered = served(lambda caller: exchanged(caller, sent))
        check_equal(f"a caller with {name}", found, (0, b"", b""))
        if wanted is not None:
            check_equal(f"the reply to {name}", answered, wanted)
    for name, count, verbs in [("at once", 0, ["read", "written"]), ("after a reply", ENDS[0], ["read"])]:
        found, _ = served(lambda caller: resets(caller, count))
        wanted = [(1, b"", lines(f"error: link cannot be {verb}")) for verb in verbs]
        check(f"a caller that resets {name}", found in wanted, found)


def a_second_caller():
    """A second caller is refused, and the first one is still served."""
    room.clear()
    with Server(room) as server, server.call() as first:
        first.sendall(FRAMES[0])
        check("the first caller gets a reply", first.recv(1) == b"\x1b")
        try:
            with server.call():
                check("a second caller is refused", False, "a connection")
        except ConnectionRefusedError:
            check("a second caller is refused", True)
        first.sendall(FRAMES[-1])
        first.shutdown(socket.SHUT_WR)
        answered = b"".join(iter(lambda: first.recv(4096), b""))
        check("the first one is served on", answered[-8:-6] == bytes.fromhex("1B06"), answered.hex(" "))
        check_equal("how serving ends", server.end(), (0, b"", b""))


def nothing_is_read():
    """A long run ends with `link cannot be written` if the programmer sends replies but reads nothing."""
    room.clear()
    room.put("large.bin", bytes(range(1, 129)) * 2_048)
    with socket.socket() as listener:
        listener.setsockopt(socket.SOL_SOCKET, socket.SO_RCVBUF, 1)
        listener.bind(("127.0.0.1", 0))
        listener.listen()
        port = f"net:127.0.0.1:{listener.getsockname()[1]}"
        started = room.start(["-p", "m2560", "-P", port, "-q", "-V", *["-U", "flash:w:large.bin:r"] * 16])
        begin = [
            b"\x01\x00\x08STK500_2",
            b"\x10\x00",
            *(b"\x1b\x00%c\x00" % byte for byte in b"\x1e\x98\x01"),
            b"\x12\x00",
        ]
        with listener.accept()[0] as peer:
            peer.settimeout(5)
            try:
                # (they are sent ahead, so that a pause of this process is no silence)
                for number, body in enumerate([*begin, *[b"\x06\x00", b"\x13\x00"] * 16_384], 1):
                    peer.sendall(frame(number, body))
            except OSError:
                pass
            messages = started.communicate(timeout=PATIENCE)[1]
    check_equal("how the run ends", (started.returncode, messages), (1, lines("error: link cannot be written")))


def served(exchange):
    """Returns how a server ended after this exchange with its caller, and what the exchange returns."""
    room.clear()
    with Server(room) as server:
        with server.call() as caller:
            answered = exchange(caller)
        found = server.end()
    check_equal("the chip after it", room.read("served.bin"), NEW)
    return found, answered


def resets(caller, count):
    """Sends SIGN_ON, waits for so many bytes of the reply, and resets the connection."""
    caller.sendall(FRAMES[0])
    check_equal("the reply so far", caller.recv(count, socket.MSG_WAITALL) if count else b"", REPLIES[:count])
    caller.setsockopt(socket.SOL_SOCKET, socket.SO_LINGER, struct.pack("ii", 1, 0))


def exchanged(caller, sent):
    """Sends these bytes and returns all replies, up to the end."""
    with ThreadPoolExecutor(1) as beside:
        answered = beside.submit(lambda: b"".join(iter(lambda: caller.recv(65_536), b"")))
        caller.sendall(sent)
        caller.shutdown(socket.SHUT_WR)
        return answered.result()


class Trickle(Peer):
    """Sends only a byte each quarter second, for more than three seconds."""

    def serve(self, caller):
        caller.settimeout(0.25)
        for _ in range(13):
            caller.sendall(b".")
            begun = time.monotonic()
            while time.monotonic() - begun < 0.25:
                try:
                    self.received.append(caller.recv(4096))
                except TimeoutError:
                    pass


def a_silence_is_a_second_without_a_byte():
    """While a byte comes each quarter second, the first frame isn't sent again within three seconds."""
    peer = Trickle()
    started = room.start(["-p", "m328p", "-P", f"net:127.0.0.1:{peer.port}"])
    started.communicate(timeout=PATIENCE)
    received = [piece for piece in peer.end() if piece]
    check("one frame in three seconds", received[:1] == [frame(1, 1)] and len(received) == 1, received)


def standard_streams_that_do_not_block():
    """Over standard input that doesn't block, avrstk sends its eight frames at once, and ends with `no answer`."""
    here, other = os.pipe()
    fcntl.fcntl(here, fcntl.F_SETFL, fcntl.fcntl(here, fcntl.F_GETFL) | os.O_NONBLOCK)
    begun = time.monotonic()
    words = [PROGRAM, "-p", "m328p", "-P", "stdio:"]
    ran = subprocess.run(words, stdin=here, capture_output=True, timeout=PATIENCE)
    taken = time.monotonic() - begun
    os.close(here)
    os.close(other)
    wanted = b"".join(frame(number, 1) for number in range(1, 5))
    wanted += b"".join(frame(number, LEAVE, 1, 1) for number in range(5, 9))
    found = ran.returncode, ran.stderr
    check("input that doesn't block: `no answer`", found == (1, lines("error: no answer")), found)
    # with a timeout of a second for each it would take eight
    check("eight frames, at once", (ran.stdout, taken < 4) == (wanted, True), (len(ran.stdout), taken))


def standard_streams_that_block():
    """Over standard streams that block, avrstk waits longer for a reply than over other links. A command is retried if
    it was refused as damaged, or if 4,096 bytes had no reply in them."""
    started = room.start(["-p", "m328p", "-P", "stdio:"], subprocess.PIPE)
    first = started.stdout.read(7)
    try:
        started.wait(1.5)
        waits = False
    except subprocess.TimeoutExpired:
        waits = True
    check("input that blocks: it waits", first == frame(1, 1) and waits, first)
    started.stdin.write(frame(1, 0xB0, 0xC1))
    started.stdin.flush()
    check("`B0 C1`: sent again, by the next number", started.stdout.read(7) == frame(2, 1))
    started.stdin.write(bytes(4_096))
    started.stdin.flush()
    check("4,096 other bytes: sent again", started.stdout.read(7) == frame(3, 1))
    started.send_signal(signal.SIGINT)
    check_equal("Ctrl-C: no line, nothing more is sent", end_of(started), (-signal.SIGINT, b"", b""))


def replies_to(caller, *bodies):
    """Sends frames with these bodies, numbered from 1. Returns the body of each one's reply."""
    answers = frames_of(caller)
    for number, body in enumerate(bodies, 1):
        caller.sendall(frame(number, body))
        reply = next(answers)
        check_equal(f"the number of reply {number}", reply[1], number)
        yield reply[5:-1]


def ended_from_outside():
    """Ends a served run by SIGTERM and one over `emu:` by SIGINT: no chip is saved."""
    room.clear()
    with Server(room, "chip.bin") as server, server.call() as caller:
        check_equal(
            "a fuse is written", [*replies_to(caller, ENTER, bytes.fromhex("17ACA000E2"))], [b"\x10\0", b"\x17\0\0"]
        )
        server.started.send_signal(signal.SIGTERM)
        server.end()
    check("--serve that is ended saves nothing", room.read("chip.bin") is None)
    room.clear()
    os.mkfifo(room.folder / "pipe")
    started = room.start([*EMULATED, "-U", "lfuse:w:0xE2:m", "-U", "lfuse:r:pipe:h"])
    # the run blocks at the second update, because no process reads the pipe
    check("the first update is done", any(b"verified" in line for line in started.stderr))
    started.send_signal(signal.SIGINT)
    started.communicate(timeout=PATIENCE)
    check("emu: that is ended saves nothing", (started.returncode, room.read("chip.bin")) == (-signal.SIGINT, None))


def loaded_for_its_caller():
    """The server serves the chip that a run over `emu:` saved before the client connected. If the chip is refused at
    that time, that is reported, and the chip stays as it is."""
    room.clear()
    with Server(room, "chip.bin") as server:
        expected = [SIGNATURE, "lfuse: 1 bytes written", "lfuse: 1 bytes verified", "done"]
        check_equal(
            "a run before a caller comes", room.run([*EMULATED, "-U", "lfuse:w:0xE2:m"]), (0, b"", lines(*expected))
        )
        with server.call() as caller:
            found = [*replies_to(caller, ENTER, bytes.fromhex("180450000000"))]
            check_equal("its fuse is served", found, [b"\x10\0", b"\x18\0\xe2\0"])
        check_equal("the caller has gone", server.end(), (0, b"", b""))
    check("and the fuse is kept", room.read("chip.bin") == NEW[:LFUSE] + b"\xe2" + NEW[LFUSE + 1 :])
    room.clear()
    with Server(room, "chip.bin") as server:
        room.put("chip.bin", b"abc")
        with server.call() as caller:
            check("a bad chip by then: the connection is closed", caller.recv(1) == b"")
        wanted = f"error: chip.bin: 3 bytes, {CHIP_FILE} expected"
        check_equal("and it is reported", server.end(), (1, b"", lines(wanted)))
    check("the file is left as it is", room.read("chip.bin") == b"abc")


TIMED = named(nothing_is_read, a_silence_is_a_second_without_a_byte)
TIMED |= named(standard_streams_that_do_not_block, standard_streams_that_block)
CASES = TIMED | named(
    *(output_fails, input_fails, descriptors_are_closed, closed_streams_stay_closed, files_fail, files_are_full),
    *(no_file_may_grow, replies_are_cut, callers_are_odd, a_second_caller, ended_from_outside, loaded_for_its_caller),
)

if __name__ == "__main__":
    sys.exit(run_cases(CASES, __doc__, timed=TIMED))
