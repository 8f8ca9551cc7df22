#!/usr/bin/env python3
"""Tests avrstk-serve with clients one after another, and with clients that send nothing, reset the connection or are
idle. Also a device in place of a port, the log, what fails in a session, and how it ends.

Not proved: No proof covers avrstk-serve, which is Python, and sockets and terminals.

    tests/serve.py [CASE ..]        needs a built program (program.py)
"""

import ast
import json
import os
import pty
import resource
import select
import shlex
import shutil
import signal
import socket
import struct
import subprocess
import sys
import tempfile
import time
from pathlib import Path

from cases import PATIENCE, VERSION, attempts, check, check_equal, leave_out, named, put_program
from cases import run_cases, table, wait_until
from program import REPLIES, CHIP_FILE, EEPROM, ENDS, FRAMES, LFUSE, NAMED, PROGRAM, SESSION, TOP, Room
from program import frame, has_avrdude, kept_port, lines, port_of, read_whole
from records import image_of

SCRIPT = TOP / "avrstk-serve"
M328P = ["-p", "m328p", "--chip", "chip.bin"]
room = Room()


def ran(words, script=SCRIPT, before=None, timeout=PATIENCE, **own):
    """Returns the status, the messages and the output of the script. `own` are variables of its environment."""
    how = {"cwd": room.folder, "env": environment() | own, "preexec_fn": before, "timeout": timeout}
    done = subprocess.run([script, *words], **how, capture_output=True, text=True)
    return done.returncode, done.stderr, done.stdout


class Serving:
    """The script with these options at a port of its own, once it listens. Its messages are in a file."""

    def __init__(self, *words, port="0", chip=M328P, program=PROGRAM, before=None):
        self.messages = room.folder / "messages"
        with self.messages.open("wb") as messages:
            how = {"stdin": subprocess.DEVNULL, "stdout": subprocess.PIPE, "stderr": messages, "cwd": room.folder}
            # (a process group of its own, as from a shell)
            how |= {"env": environment(program), "start_new_session": True, "preexec_fn": before}
            self.started = subprocess.Popen([SCRIPT, *([port] if port else []), *chip, *words], **how)
        self.printed = self.started.stdout.readline()
        self.port = int(self.printed.rpartition(b":")[2] or 0) if port and b" at " in self.printed else None

    def call(self):
        return socket.create_connection(("127.0.0.1", self.port), PATIENCE)

    def writes_fuse(self, value, address="127.0.0.1"):
        """Returns the status of a client that writes the low fuse. It waits four seconds for a first reply: one that
        fails is run again if a pause was measured."""
        words = ["-p", "m328p", "-P", f"net:{address}:{self.port}", "-U", f"lfuse:w:{value}:m"]
        return attempts(lambda: room.run(words)[0], lambda status: status == 0)[-1]

    def end(self, *numbers, group=False):
        """Sends these signals and returns its status and messages. Checks that no run is left."""
        for number in numbers or [signal.SIGTERM]:
            (os.killpg if group else os.kill)(self.started.pid, number)
        status = self.started.wait(timeout=PATIENCE)
        self.started.stdout.close()
        check_equal("no run is left", runs(), [])
        return status, self.messages.read_text()

    def __enter__(self):
        return self

    def __exit__(self, *_):
        if self.started.poll() is None:
            self.started.kill()
            self.started.wait()
        self.started.stdout.close()


def environment(program=PROGRAM):
    return os.environ | {"AVRSTK": str(program)}


def runs(name=b"avrstk_session"):
    """Returns the numbers of the runs in the room, or of other programs."""
    found = []
    for process in Path("/proc").glob("[0-9]*"):
        try:
            folder = (process / "cwd").resolve()
            if room.folder.resolve() in [folder, *folder.parents] and name in (process / "cmdline").read_bytes():
                found.append(int(process.name))
        except OSError:
            pass
    return found


def fuse():
    """Returns the low fuse of the chip file; None if there is no file."""
    chip = room.read("chip.bin")
    return chip[LFUSE] if chip else None


def received(client, count):
    """Returns `count` bytes from a connection, or fewer at its end."""
    found = b""
    while len(found) < count and (piece := client.recv(count - len(found))):
        found += piece
    return found


def begins(client):
    """Sends SIGN_ON, and returns whether its reply came."""
    client.sendall(FRAMES[0])
    return received(client, ENDS[0]) == REPLIES[: ENDS[0]]


def listens():
    """The server prints its port: the given one, or any free one. A second server at the port ends with a line."""
    with Serving() as server:
        check_equal("its line", server.printed, f"serving at 127.0.0.1:{server.port}\n".encode())
        for value in [0x60, 0x61, 0x62]:
            check_equal(f"fuse {value}", server.writes_fuse(value), 0)
            wait_until(lambda: fuse() == value)
        taken = f"avrstk-serve: 127.0.0.1, port {server.port}: Address already in use\n"
        check_equal("a port that is taken", ran([str(server.port), *M328P]), (1, taken, ""))
        check_equal("it ends", server.end(), (0, ""))
    kept = kept_port()
    port = str(port_of(kept))
    for part, given in [("m328p", port), ("atmega328p", port), ("ATmega328P", port.zfill(12))]:
        with Serving(port=given, chip=["-p", part, "--chip", "chip.bin"]) as server:
            check_equal("a port that is given", server.printed, f"serving at 127.0.0.1:{port}\n".encode())
            check_equal(f"the part {part}", server.writes_fuse(0x63), 0)
            check_equal("it ends too", server.end(), (0, ""))
    kept.close()


def clients_that_send_nothing():
    """A client that only connects starts no run and delays no other client, before, while or after that one is served.
    It needs few open files for them: of nine that have sent nothing the oldest is hung up on."""
    with Serving(before=lambda: resource.setrlimit(resource.RLIMIT_NOFILE, (20, 20))) as server:
        for _ in range(100):
            server.call().close()
        silent = [server.call() for _ in range(100)]
        # (a later client is served only after the server has seen these)
        check_equal("a client after them", server.writes_fuse(0x60), 0)
        ended = [client for client in silent if select.select([client], [], [], 0)[0]]
        check_equal("those that are hung up on", ended, silent[: len(ended)])
        check("and the others are eight, or seven beside that client", len(silent) - len(ended) in (7, 8), len(ended))
        wait_until(lambda: fuse() == 0x60)
        with server.call() as client:
            check("a session", begins(client))
            for _ in range(10):
                server.call().close()
            silent += [server.call() for _ in range(10)]
        check_equal("the next client", server.writes_fuse(0x61), 0)
        for client in silent:
            client.close()
        wait_until(lambda: fuse() == 0x61)
        before = (room.folder / "chip.bin").stat().st_mtime_ns
        for _ in range(10):
            server.call().close()
        check_equal("it ends", server.end(), (0, ""))
        check_equal("the chip is not written again", (room.folder / "chip.bin").stat().st_mtime_ns, before)


def one_after_another():
    """A client waits until the one that is served has disconnected, and then is served."""
    with Serving() as server:
        first = server.call()
        check("the first session", begins(first))
        second = server.call()
        second.sendall(FRAMES[0])
        check_equal("the second one waits", select.select([second], [], [], 0.3)[0], [])
        first.close()
        check_equal("and then is served", received(second, ENDS[0]), REPLIES[: ENDS[0]])
        second.close()
        check_equal("the messages", server.end(), (0, ""))


def half_closed():
    """A client that has closed its sending side gets all replies."""
    with Serving() as server, server.call() as client:
        client.sendall(b"".join(FRAMES))
        client.shutdown(socket.SHUT_WR)
        check_equal("the replies", received(client, 1000), REPLIES)
        wait_until(lambda: room.read("chip.bin") is not None)
        check_equal("the messages", server.end(), (0, ""))


def clients_that_reset():
    """Each second client resets the connection in the middle of a session, and the others are served."""
    with Serving() as server:
        for value in range(0x60, 0x68):
            check_equal(f"fuse {value}", server.writes_fuse(value), 0)
            with server.call() as client:
                check("a session", begins(client))
                client.setsockopt(socket.SOL_SOCKET, socket.SO_LINGER, struct.pack("ii", 1, 0))
        check_equal("it ends", server.end(), (0, ""))
        check_equal("the last one's fuse is there", fuse(), 0x67)


def failed(how):
    return f"avrstk-serve: a session failed ({how}): its chip may not be saved\n"


def a_chip_in_use():
    """If another run holds the chip, the client's connection is closed; once that run has ended, the next client is
    served. A fault that selected no command is reported also then."""
    os.mkfifo(room.folder / "pipe")
    with Serving("--lose", "1000") as server:
        holder = room.start(["-p", "m328p", "-P", "emu:chip.bin", "-U", "eeprom:r:pipe:r"])
        holder.stderr.readline()
        with server.call() as client:
            client.sendall(FRAMES[0])
            check_equal("the connection is closed", received(client, 1), b"")
        holder.kill()
        holder.communicate()
        check_equal("the next client", server.writes_fuse(0x65), 0)
        expected = lines("error: chip.bin: in use by another run").decode() + failed("status 1")
        expected += "avrstk-serve: --lose 1000 selected no command\n"
        check_equal("the messages", server.end(), (1, expected))


def idle_clients():
    """With --idle the server disconnects a client that becomes idle in its session, and saves the chip."""
    with Serving("--idle", "1.5") as server:
        with server.call() as silent, server.call() as client:
            check("a session", begins(client))
            for _ in range(5):
                time.sleep(0.4)
                check("one that isn't idle is served on", begins(client))
            check_equal("the connection of an idle one is closed", client.recv(1), b"")
            check_equal("and one that has sent nothing", silent.recv(1), b"")
        check("the chip is saved", len(room.read("chip.bin") or b"") == CHIP_FILE)
        check_equal("the next client", server.writes_fuse(0x60), 0)
        expected = "avrstk-serve: a client is disconnected after 1.5 seconds without a byte\n"
        check_equal("the messages", server.end(), (0, expected))
    with Serving() as server, server.call() as client:
        check("a session", begins(client))
        time.sleep(1)
        check("without the option it is served on", begins(client))
        # (its run saves the chip before the next case begins)
        server.end()


def changes_fuse(server, value):
    """Writes the low fuse as AVRDUDE does, and returns the connection, whose session goes on, and the run."""
    client = server.call()
    for sent in [*FRAMES[:2], frame(3, 0x1D, 4, 4, 0, 0xAC, 0xA0, 0, value)]:
        client.sendall(sent)
        check("a reply", received(client, 6)[:1] == b"\x1b")
        client.recv(100)
    (run,) = runs()
    return client, run


def ends_at_a_signal():
    """Without a command and --strict the server ends with status 0 at SIGTERM, SIGINT or SIGHUP, also in a session, if
    no session has failed. Its client's changes are saved, and no run is left."""
    # (a terminal sends Ctrl-C to the whole group)
    for number, group in [(signal.SIGTERM, False), (signal.SIGINT, True), (signal.SIGHUP, False)]:
        name = number.name
        room.clear()
        with Serving() as server:
            check_equal(f"{name}: no client is there", server.end(number, group=group), (0, ""))
        with Serving() as server, server.call():
            check_equal(f"{name}: a silent client", server.end(number, group=group), (0, ""))
        check_equal(f"{name}: no chip is made", room.read("chip.bin"), None)
        with Serving() as server:
            client, _ = changes_fuse(server, 0x63)
            check_equal(f"{name}: a session", server.end(number, group=group), (0, ""))
            check_equal(f"{name}: its client's connection is closed", client.recv(1), b"")
        check_equal(f"{name}: its chip is saved", fuse(), 0x63)
        with Serving() as server, server.call() as client:
            client.sendall(FRAMES[0] * 2_000)
            check_equal(f"{name}: a client that takes no replies", server.end(number, group=group)[0], 0)
    # (a module in place of one that it loads)
    room.put("getopt.py", b"import os, signal, time\nos.kill(os.getpid(), signal.SIGTERM)\ntime.sleep(60)")
    for words, status in [(["0", *M328P], 0), (["0", *M328P, "--", "true"], 143)]:
        check_equal(f"{words}: SIGTERM while it is loaded", ran(words, PYTHONPATH=str(room.folder)), (status, "", ""))
    (room.folder / "getopt.py").unlink()
    with Serving() as server, server.call() as client:
        check("a session", begins(client))
        check_equal("three signals at once", server.end(signal.SIGINT, signal.SIGTERM, signal.SIGHUP, group=True)[0], 0)


def refused():
    """The server reports wrong options and files before it listens, and ends with status 1."""
    os.mkfifo(room.folder / "pipe")
    taken = kept_port()
    taken.listen()
    port = str(port_of(taken))
    rows = [
        (shlex.split(words.replace("TAKEN", port)), 1, message.replace("TAKEN", port))
        for words, message in table("serve")
    ]
    rows += [
        ([], 0, None),
        (["--help"], 0, None),
        (["0", "-p", "m328p", "--chip", "\udcff"], 1, "avrstk-serve: --chip \\xff: the name is not UTF-8"),
        (["0", *M328P, "--listen", "\udcff" * 100], 1, ""),
        (["\x1b[31m\udcff", *M328P], 1, "avrstk-serve: \\x1b[31m\\xff: not a port from 0 to 65535"),
    ]
    for words, status, message in rows:
        found, messages, output = ran(words)
        check_equal(f"{words}: the status", found, status)
        wanted = "" if message is None else f"{message or messages.partition(chr(10))[0]}\n"
        check_equal(f"{words}: its messages", messages, wanted)
        check(f"{words}: it doesn't serve", "serving at 127.0.0.1:" not in output, output)
    taken.close()
    # (Python 3.6 gets as far as the line that names the version it needs)
    for script in [SCRIPT, TOP / "avrstk-serial"]:
        ast.parse(script.read_text(), feature_version=(3, 6))
    # (Python keeps no docstrings then)
    check("--help without docstrings", "avrstk-serve PORT" in ran(["--help"], PYTHONOPTIMIZE="2")[2])
    for closed, status in [(">&-", 1), (">/dev/full", 1), ("<&- 2>&-", 0)]:
        how = {"program": [SCRIPT], "env": environment(), "stderr": subprocess.DEVNULL}
        started = room.start(["0", *M328P], closed=closed, **how)
        if status == 0:
            check(f"{closed}: it serves", started.stdout.readline().startswith(b"serving at "))
            started.terminate()
        check_equal(f"{closed}: the status", started.wait(timeout=PATIENCE), status)
        started.stdout.close()
    # (a module in place of one that it loads: an error that names no file)
    room.put("getopt.py", b"class GetoptError(Exception): ...\ndef gnu_getopt(*_): raise OSError(24, 'Too many')\n")
    unnamed = ran(["0", *M328P], PYTHONPATH=str(room.folder))
    (room.folder / "getopt.py").unlink()
    check_equal("an error without a file", unnamed, (1, "avrstk-serve: Too many\n", ""))
    status, messages, output = ran(["0", *M328P], AVRSTK="/nowhere/avrstk")
    check_equal("no program", (status, messages.count("\n"), output), (1, 1, ""))


def installed():
    """An installed server finds the program, the part file and the stamp of the build, as one in a clone does."""
    with tempfile.TemporaryDirectory() as folder, tempfile.TemporaryDirectory() as tools:
        # (without the site, which takes time)
        put_program(Path(tools, "sphinx-build"), "#!/bin/sh\nexit 1\n")
        own = environment() | {"PATH": f"{tools}:{os.environ['PATH']}"}
        printed = subprocess.run(
            [TOP / "install.sh", folder], env=own, capture_output=True, text=True, check=True
        ).stdout
        # (as tools/site.py needs them)
        needs = "python3, mandoc, Sphinx, MyST, furo and sphinx-copybutton"
        check("what the site needs", f"no site of the documents was made: check {needs}\n" in printed)
        script = Path(folder, "bin/avrstk-serve")
        served = ran(["0", "-p", "atmega32u4", "--chip", "chip.bin", "--", "true"], script, AVRSTK="")
        check_equal("it serves", served, (0, "", ""))
        scripts = [SCRIPT, script, script.with_name("avrstk"), TOP / "avrstk"]
        shown = [ran(["--version"], script, AVRSTK="")[2].splitlines() for script in scripts]
        stamp = ran(["--stamp-of", PROGRAM], TOP / "avrstk", AVRSTK="")[2].splitlines()
        rows = [row for row in stamp if not row.startswith(("sources", "program"))] or [
            "not known whether it is proved"
        ]
        wanted = [f"avrstk {VERSION}", *rows]
        check_equal("--version, installed", shown[1], wanted)
        check_equal("--version, in the clone", NAMED or shown[0], NAMED or wanted)
        check_equal("--version of avrstk", [shown[2], NAMED or shown[3]], [wanted, NAMED or wanted])
        Path(folder, "lib/avrstk/avrstk.stamp").unlink()
        for unstamped in scripts[1:3]:
            shown_now = ran(["--version"], unstamped, AVRSTK="")
            check_equal("without a stamp", shown_now, (0, "", f"avrstk {VERSION}\nnot known whether it is proved\n"))


def status_of_sessions():
    """Status 0 means that the chip of each session was saved, however the server ended. Otherwise a line reports it."""
    for name, acts, how in table("ends"):
        room.clear()
        check_equal("a chip", room.run(["-p", "m328p", "-P", "emu:chip.bin", "-q", "-U", "lfuse:w:0x11:m"])[0], 0)
        with Serving() as server:
            client, run = changes_fuse(server, 0x22)
            for whom, number, pause in map(str.split, acts.split(", ")):
                os.kill(run if whom == "run" else server.started.pid, signal.Signals[f"SIG{number}"])
                time.sleep(float(pause))
            check_equal(f"{name}: its client is hung up on", client.recv(1), b"")
            check_equal(f"{name}: the status", server.started.wait(timeout=PATIENCE), int(how != ""))
            client.close()
        check_equal(f"{name}: its messages", server.messages.read_text(), failed(how) if how else "")
        check_equal(f"{name}: the fuse", fuse(), 0x11 if how else 0x22)
        check_equal(f"{name}: no run is left", runs(), [])


def a_command():
    """A command after -- is run as the client. Its end ends the server, whose status it is, or 1 if a chip was not
    saved."""
    client = [str(PROGRAM), "-p", "m328p", "-P", "net:{}", "-q", "-U", "lfuse:w:0x60:m"]
    check_equal("a client", ran(["0", *M328P, "--", *client]), (0, "", ""))
    check_equal("its fuse", fuse(), 0x60)
    plain = {"LC_ALL": "C", "PYTHONUTF8": "0", "PYTHONCOERCECLOCALE": "0"}
    words = ["--chip", "\u00e9.bin", "--json", "report.json", "--", "true", "\udcff"]
    served, named_in = ran(["0", "-p", "m328p", *words], **plain), report()
    check_equal("a chip named in UTF-8, where Python takes names as ASCII", served, (0, "", ""))
    check_equal("names in its report", (named_in["chip"], named_in["command"]), ("\u00e9.bin", ["true", "\ufffd"]))
    rows = [
        (["sh", "-c", "[ {} = $AVRSTK_PORT ] && exit 7"], 7, ""),
        (["sh", "-c", "kill -9 $$"], 137, ""),
        (["/nowhere/it"], 1, "avrstk-serve: /nowhere/it: No such file or directory\n"),
        ([], 1, "avrstk-serve: no command after --\n"),
        (["sh", "-c", 'rm chip.bin; mkdir chip.bin; "$@"; exit 0', "sh", *client], 1, None),
        (["sh", "-c", 'rm chip.bin; mkdir chip.bin; "$@"; exit 3', "sh", *client], 3, None),
        (["false"], 1, None),
    ]
    for words, status, message in rows:
        found = ran(["0", *M328P, "--", *words])
        check_equal(f"{words}: the status, and no run is left", (found[0], runs()), (status, []))
        check(f"{words}: its messages", message is None or found[1:] == (message, ""), found)
        shutil.rmtree(room.folder / "chip.bin", ignore_errors=True)
    # (a child, one that has lost its parent, one that ignores the signal)
    rows = [("exec sleep 600", 143, "TERM"), ("sleep 600; true", 143, "INT")]
    rows += [("(sleep 600 & sleep 600 &); sleep 600; true", 143, "HUP")]
    for command, status, name in [*rows, ("trap '' TERM; while :; do sleep 600; done", 137, "TERM")]:
        with Serving("--", "sh", "-c", f"echo begun; {command}") as server:
            check_equal(f"{command}: its output", server.printed, b"begun\n")
            check_equal(f"{command}: SIG{name} ends it too", server.end(signal.Signals[f"SIG{name}"]), (status, ""))
            check_equal(f"{command}: and all that it started", runs(b"sleep"), [])
    message = "avrstk-serve: ending sh: --timeout\n"
    check_equal(
        "--timeout", ran(["0", *M328P, "--timeout", "0.5", "--", "sh", "-c", "sleep 600; true"]), (124, message, "")
    )
    for seconds in ("0.3", "0.4", "0.45", "0.48"):
        status, *_ = ran(["0", *M328P, "--timeout", "0.5", "--", "sleep", seconds])
        check(f"a command that ends just before its time: {seconds}", status in (0, 124), status)
    check_equal("all is ended", runs(b"sleep"), [])


# a client that goes on once it was hung up on, as AVRDUDE does: at a port or a device, with a child
GOES_ON = """
case $1 in *:*) exec 3<>"/dev/tcp/${1%:*}/${1#*:}" ;; *) exec 3<>"$1" ;; esac
printf "\\33\\1\\0\\1\\16\\1\\24" >&3
sleep ${PAUSE:-600}; true
"""


def a_job_ends():
    """If a session fails, or --idle ends it, the command has ten seconds to end, or to begin a session that ends well.
    Then the command is ended with all that it has started."""
    begun, held = time.monotonic(), {}
    why = "a session failed or was idle"
    for options, before, after, status, message in table("jobs"):
        folder = Path(tempfile.mkdtemp(dir=room.folder))
        (folder / "sub").mkdir()
        client = f"{before}; (eval '{GOES_ON}') {after}"
        words = [*options.split(), "-p", "m328p", "--chip", "sub/chip.bin", "--", "bash", "-c", client, "bash", "{}"]
        how = {"cwd": folder, "env": environment(), "stderr": subprocess.PIPE, "text": True}
        held[options, before] = subprocess.Popen([SCRIPT, *words], **how), int(status), message
    try:
        for name, (started, status, message) in held.items():
            found = started.communicate(timeout=PATIENCE)[1]
            check_equal(f"{name}: the status", started.returncode, status)
            check(
                f"{name}: its messages",
                message in found and (f"ending bash: {why}\n" in found) == status,
                found,
            )
        check("ten seconds", 10 <= time.monotonic() - begun, time.monotonic() - begun)
        check_equal("nothing is left", runs(b"sleep") + runs(), [])
    finally:
        for process in runs(b"sleep") + runs(b"avrstk-serve"):
            os.kill(process, signal.SIGKILL)
        for made in room.folder.glob("tmp*"):
            shutil.rmtree(made)


def at_a_terminal():
    """A command reads the terminal at which the server was started, and Ctrl-C there ends both."""
    for keys, status in [(b"7\n", 7), (b"\x03", 130)]:
        child, terminal = pty.fork()
        if child == 0:
            words = [SCRIPT, "0", *M328P, "--", "sh", "-c", 'echo begun; read status </dev/tty; exit "$status"']
            os.chdir(room.folder)
            os.execve(SCRIPT, list(map(str, words)), environment())
        shown = b""
        while b"begun" not in shown:
            shown += os.read(terminal, 100)
        os.write(terminal, keys)
        wait_until(lambda: os.waitid(os.P_PID, child, os.WEXITED | os.WNOHANG | os.WNOWAIT))
        check_equal(f"{keys}: the status", os.WEXITSTATUS(os.waitpid(child, 0)[1]), status)
        os.close(terminal)


def no_inner_port():
    """A client's run listens at no port, so no other program can connect to it."""
    with Serving() as server:
        client, run = changes_fuse(server, 0x60)
        rows = "".join(Path(f"/proc/net/{name}").read_text() for name in ["tcp", "tcp6", "udp", "udp6"])
        network = {row.split()[9] for row in rows.splitlines() if row.split()[0] != "sl"}
        held = [os.readlink(file) for file in Path(f"/proc/{run}/fd").iterdir()]
        sockets = [name for name in held if name.startswith("socket:")]
        check("its client is a socket", sockets)
        check_equal("none is of the network", [name for name in sockets if name[8:-1] in network], [])
        client.close()
        check_equal("its status", server.end(), (0, ""))


USAGE = "avrstk: error: usage: avrstk_session --serve|--check -p PART [--parts FILE] -P emu:CHIPFILE, or "
USAGE += "--outline AVRSTK'S OPTIONS\n"


def modes_of_a_session():
    """avrstk_session serves, checks or prints an outline, as its first argument names. With -h, an unknown option, or a
    port that the mode doesn't take, it only prints its usage."""

    def session(*words):
        how = {"cwd": room.folder, "stdin": subprocess.DEVNULL, "capture_output": True, "text": True}
        found = subprocess.run([SESSION, *words], **how, timeout=PATIENCE)
        return found.returncode, found.stdout, found.stderr

    part = ["-p", "m328p"]
    words = [*part, "-P", "emu:unmade.bin"]
    for wrong in [
        words,
        [*words, "--serve"],
        ["--serve", *part, "-P", "stdio:"],
        ["--check", *words, "-P", "net:a:1"],
    ]:
        check_equal(f"{wrong}: is refused", session(*wrong), (1, "", USAGE))
    for asked in [["--help"], ["--serve", "-h"]]:
        check_equal(f"{asked}: prints the usage", session(*asked), (0, "", USAGE))
    check_equal("--check, without the file", session("--check", *words), (0, "", ""))
    room.put("short.bin", b"avrstk")
    refused = session("--check", *part, "-P", "emu:short.bin")
    check("--check refuses another file", refused[0] == 1 and "short.bin" in refused[2], refused)
    # (a session alone sends six frames)
    for port in ["stdio:", "emu:unmade.bin", "net:127.0.0.1:1"]:
        check_equal(f"--outline over {port}", session("--outline", *part, "-P", port), (0, "frames 6\n", ""))
    check("no chip file is made", not (room.folder / "unmade.bin").exists())


def errors_end_one_session():
    """If a run can't be started, the server disconnects the client and serves the next one."""
    for program in [PROGRAM, SESSION]:
        shutil.copy(program, room.folder / program.name)
    copy = room.folder / "avrstk_session"
    with Serving(program=room.folder / PROGRAM.name) as server:
        check_equal("a client", server.writes_fuse(0x60), 0)
        copy.rename(room.folder / "moved")
        with server.call() as client:
            client.sendall(FRAMES[0])
            check_equal("one without a program is hung up on", client.recv(1), b"")
        (room.folder / "moved").rename(copy)
        check_equal("the next client", server.writes_fuse(0x61), 0)
        expected = "avrstk-serve: a client can't be served: No such file or directory\n"
        check_equal("it ends", server.end(), (1, expected))
    check_equal("its chip", fuse(), 0x61)


def signals_that_are_ignored():
    """Signals that were ignored when the server began don't end it, or change its status."""
    found = ran(["0", "-p", "none", "--chip", "chip.bin"], before=lambda: signal.signal(signal.SIGCHLD, signal.SIG_IGN))
    check_equal("SIGCHLD", found, (1, lines("error: no part none").decode(), ""))
    with Serving(before=lambda: signal.signal(signal.SIGTERM, signal.SIG_IGN)) as server:
        server.started.terminate()
        check_equal("SIGTERM", server.writes_fuse(0x60), 0)
        check_equal("another signal ends it", server.end(signal.SIGINT), (0, ""))


def link_addresses():
    """Returns an address of one link (IPv6), with its interface; none if this machine has none."""
    file = Path("/proc/net/if_inet6")
    rows = [row.split() for row in file.read_text().splitlines()] if file.exists() else []
    found = [(socket.inet_ntop(socket.AF_INET6, bytes.fromhex(row[0])), row[5]) for row in rows if row[3] == "20"]
    return [f"{address}%{name}" for address, name in found[:1]]


def other_addresses():
    """With --listen the server serves at the given address of this machine: at 127.0.0.2, not at 127.0.0.1."""
    for address in link_addresses():
        with Serving("--listen", address) as server:
            check_equal(f"{address}: its line", server.printed, f"serving at [{address}]:{server.port}\n".encode())
            check_equal(f"{address}: it ends", server.end(), (0, ""))
    for address, shown in [("127.0.0.2", "127.0.0.2"), ("0.0.0.0", "0.0.0.0"), ("::1", "[::1]"), ("localhost", None)]:
        room.clear()
        with Serving("--listen", address) as server:
            if address == "::1" and not server.printed:
                leave_out("::1", "this machine has no such address")
                continue
            if shown:
                check_equal(f"{address}: its line", server.printed, f"serving at {shown}:{server.port}\n".encode())
            place = shown if shown and shown != "0.0.0.0" else "127.0.0.1"
            check_equal(f"{address}: a client", server.writes_fuse(0x60, place), 0)
            if address == "127.0.0.2":
                check_equal(f"{address}: nobody listens elsewhere", server.writes_fuse(0x61), 1)
            check_equal(f"{address}: it ends", server.end(), (0, ""))
        check_equal(f"{address}: the fuse", fuse(), 0x60)


def devices():
    """With --pty a client opens a link to a terminal, and is served as at a port."""
    link = room.folder / "device"
    # (a run under load takes a while until its first reply)
    with Serving("--pty", "device", "--idle", "3", port=None) as server:
        check_equal("its line", server.printed, b"serving at device\n")
        os.close(os.open(link, os.O_RDWR | os.O_NOCTTY))
        words = ["-p", "m328p", "-P", link, "--wait", "0", "-q"]
        for name in ["blink.hex:i", "whole.bin:r"]:
            found = ran([*words, "-U", f"flash:w:{name}"], TOP / "avrstk-serial")
            check_equal(f"{name}: a client", found, (0, "", ""))
            wait_until(lambda: not runs() and link.is_symlink())
        check_equal("the chip", room.read("chip.bin")[:1024], room.read("whole.bin"))
        idle = os.open(link, os.O_RDWR | os.O_NOCTTY)
        os.write(idle, FRAMES[0])
        check_equal("an idle client is hung up on after its reply", read_whole(idle), REPLIES[: ENDS[0]])
        os.close(idle)
        expected = "avrstk-serve: a client is disconnected after 3 seconds without a byte\n"
        check_equal("it ends", server.end(), (0, expected))
        check("its link is removed", not link.is_symlink())
    with Serving("--pty", "device", port=None) as server:
        first = os.open(link, os.O_RDWR | os.O_NOCTTY)
        os.write(first, FRAMES[0])
        check_equal("a first client", os.read(first, 100), REPLIES[: ENDS[0]])
        (run,) = runs()
        os.kill(run, signal.SIGSTOP)
        os.close(first)
        time.sleep(0.2)
        # (the first one's chip isn't saved yet)
        second = os.open(link, os.O_RDWR | os.O_NOCTTY)
        os.write(second, FRAMES[0])
        os.kill(run, signal.SIGCONT)
        check_equal("a second client at once", os.read(second, 100), REPLIES[: ENDS[0]])
        os.close(second)
        check_equal("it ends", server.end(), (0, ""))
    check_equal("nothing is left", [file.name for file in room.folder.glob("device*")], [])
    with Serving("--pty", "device", port=None) as server:
        client = os.open(link, os.O_RDWR | os.O_NOCTTY)
        (room.folder / f"device.avrstk-{server.started.pid}").write_text("somebody's")
        os.write(client, FRAMES[0])
        check_equal("a client beside a file with such a name", os.read(client, 100), REPLIES[: ENDS[0]])
        os.close(client)
        wait_until(lambda: not runs())
        client = os.open(link, os.O_RDWR | os.O_NOCTTY)
        link.unlink()
        link.symlink_to("blink.hex")
        os.write(client, FRAMES[0])
        check_equal("one that waits when another link is in its place", os.read(client, 100), REPLIES[: ENDS[0]])
        os.close(client)
        check_equal("the server ends", server.started.wait(timeout=PATIENCE), 1)
        check_equal("the messages", server.messages.read_text(), "avrstk-serve: device: File exists\n")
        check_equal("the other link stays", os.readlink(link), "blink.hex")
    link.unlink()
    words = ["--pty", "device", *M328P, "--", "sh", "-c", 'cd / && [ -e {} ] && [ {} = "$AVRSTK_PORT" ]']
    check_equal("a command in another folder", ran(words), (0, "", ""))


def avrdudes_in_a_row():
    """Many runs of AVRDUDE at one device, one right after the other, all end."""
    if not has_avrdude():
        return leave_out("AVRDUDE at a device", "AVRDUDE 7.1 is not installed")
    command = (
        'for _ in $(seq 25); do timeout 60 avrdude -qq -c stk500v2 -p m2560 -P "$0" -U lfuse:v:0xff:m || exit; done'
    )
    chip = ["-p", "m2560", "--chip", "chip.bin"]
    check_equal("all end", ran([*chip, "--pty", "device", "--", "bash", "-c", command, "{}"])[0], 0)


def has_read_all_of(client):
    """Returns whether the server has read all that a client sent."""
    ends = [f"0100007F:{port:04X}" for port in (client.getpeername()[1], client.getsockname()[1])]
    rows = map(str.split, Path("/proc/net/tcp").read_text().splitlines())
    return next(row[4] for row in rows if row[1:3] == ends).endswith(":00000000")


def marks():
    """Returns the lines of the log, without the times."""
    return [row.partition(" client ")[2] for row in room.read("log").decode().splitlines()]


def logged():
    """With --log each command of a client has a line, with what became of it; noise and bad headers have none."""
    spoiled = bytearray(frame(3, 0x12, 9, 0, 0xAC, 0x80, 0, 0))
    spoiled[-1] ^= 1
    with Serving("--log", "log") as server:
        with server.call() as client:
            # (a bad header whose second byte looks like the start of a frame)
            client.sendall(b"noise" + FRAMES[0] + b"\x1b" + FRAMES[0] + FRAMES[1] + spoiled + frame(4, 0x12))
            replies = REPLIES[: ENDS[1]] + frame(3, 0xB0, 0xC1) + frame(4, 0x12, 0xC0)
            check_equal("the replies", received(client, len(replies)), replies)
        with server.call() as client:
            check("another client", begins(client))
        wait_until(lambda: len(room.read("log").splitlines()) == 5)
        with server.call() as client:
            check("one whose run is killed", begins(client))
            (run,) = runs()
            os.kill(run, signal.SIGSTOP)
            client.sendall(FRAMES[1])
            wait_until(lambda: has_read_all_of(client))
            os.kill(run, signal.SIGKILL)
            check_equal("it is hung up on", client.recv(1), b"")
        server.end()
    check_equal("its lines", marks(), [row for row, in table("log")])
    with Serving("--log", "other", "--lose", "unknown") as server, server.call() as client:
        client.sendall(frame(1, 0x55) + frame(2, 0x01))
        begin = frame(2, 0x01, 0)[:1]
        check_equal("a command without a name is lost", received(client, 2), begin + b"\2")
        server.end()
    check("its mark", b"client 1, 1: unknown 55: lost\n" in room.read("other"), room.read("other"))


def logs_that_take_no_more():
    """A log that takes no more doesn't stop the server (a pipe whose reader stops, a full disk, --log-limit); a pipe
    that nobody reads is refused. A message reports that once, and a line in the log the lines that are missing."""
    pipe = room.folder / "pipe"
    os.mkfifo(pipe)
    expected = "avrstk-serve: pipe: nobody reads this pipe\n"
    check_equal("nobody reads it", ran(["0", *M328P, "--log", "pipe"]), (1, expected, ""))
    expected = "avrstk-serve: /dev/tty: No such device or address\n"
    check_equal("no terminal", ran(["0", *M328P, "--log", "/dev/tty"], before=os.setsid), (1, expected, ""))
    reader = os.open(pipe, os.O_RDONLY | os.O_NONBLOCK)
    with Serving("--log", "pipe") as server, server.call() as client:
        client.settimeout(PATIENCE)
        for _ in range(1_500):
            check("a reply", begins(client))
        held = os.read(reader, 1 << 20)
        check("whole lines", held.endswith(b"\n") and held.count(b": SIGN_ON 01\n") == held.count(b"\n"), held[-200:])
        check("a reply", begins(client))
        missing = b"%d lines are missing" % (1_500 - held.count(b"\n"))
        check_equal("what is missing", os.read(reader, 1 << 20).partition(b"\n")[0], missing)
        check_equal("it ends", server.end(), (0, "avrstk-serve: --log: lines are missing: it is full\n"))
    os.close(reader)
    room.put("log", b"x" * 10)
    rows = [
        ("/dev/full", [], "No space left on device"),
        ("log", ["--log-limit", "100"], "it is full"),
    ]
    for name, words, why in rows:
        with Serving("--log", name, *words) as server, server.call() as client:
            for _ in range(10):
                check("a reply", begins(client))
            check_equal(f"{name}: it ends", server.end(), (0, f"avrstk-serve: --log: lines are missing: {why}\n"))
    log = room.read("log")
    check("the log within its limit", log.endswith(b": SIGN_ON 01\n") and len(log) <= 100, log)


def a_log_of_two():
    """What another program appends to the log counts for --log-limit, too."""
    with Serving("--log", "log", "--log-limit", "200") as server, server.call() as client:
        with (room.folder / "log").open("ab") as other:
            other.write(b"x" * 99 + b"\n")
        for _ in range(10):
            check("a reply", begins(client))
        server.end()
    check("the log within its limit", 100 < len(room.read("log")) <= 200, room.read("log"))


def state_of(memory, old):
    """Returns what a memory holds: the old bytes, none, the new image, or a mixture."""
    image = bytes(image_of(room.read("blink.hex")).values())
    kinds = {old: "old", b"\xff" * len(old): "erased", image + memory[len(image) :]: "new"}
    return kinds.get(memory, "mixed")


def faults():
    """Runs clients over links with each fault that the server's options can make, but --mega. Each client gets as far
    as it can."""
    emulated = ["-p", "m328p", "-P", "emu:chip.bin", "-qq", "-U", "flash:w:whole.bin:r", "-U", "eeprom:w:whole.bin:r"]
    clients = [[str(PROGRAM)], ["avrdude", "-c", "stk500v2"] if has_avrdude() else None]
    old = room.read("whole.bin")
    for options, mark, *ends in table("faults"):
        own = [option for option in options.split() if option != "-D"]
        for client, wanted in zip(clients, ends):
            if not client or not wanted:
                continue
            room.clear()
            check_equal("an old firmware", room.run(emulated)[0], 0)
            words = [
                *client,
                "-p",
                "m328p",
                "-P",
                "net:{}",
                "-qq",
                *(["-D"] if "-D" in options else []),
                "-U",
                "flash:w:blink.hex:i",
            ]
            status, messages, _ = ran(["0", *M328P, "--log", "log", *own, "--", *words])
            chip = room.read("chip.bin")
            found = f"{status}, {state_of(chip[:1024], old)}, {state_of(chip[EEPROM:LFUSE], old)}"
            check_equal(f"{options}: {client[0]}: status, flash, EEPROM", found, wanted)
            check(f"{options}: {client[0]}: the log", any(mark in row for row in marks()), marks())
            check(
                f"{options}: the seed is printed",
                ("faults are drawn with --seed 7\n" in messages) == ("%" in options),
                messages,
            )
    for words, command, status, count in [
        (["--lose", "1000"], "true", 0, 1),
        (["--lose", "1000"], "false", 1, 1),
        (["--lose", "1000", "--strict"], "true", 1, 1),
        (["--lose", "1000", "--strict"], "exit 7", 7, 1),
        (["--lose", "unknown"], "true", 0, 1),
        (["--lose", "unknown#2"], "true", 0, 1),
        (["--strict"], "true", 0, 0),
    ]:
        found, messages, _ = ran(["0", *M328P, "--log", "log", *words, "--", "sh", "-c", command])
        expected = status, f"avrstk-serve: {' '.join(words[:2])} selected no command\n" * count
        check_equal(f"{words} {command}: it selected no command", (found, messages), expected)
    if not clients[1]:
        leave_out("faults with AVRDUDE", "AVRDUDE 7.1 is not installed")


def of_an_old_chip():
    """--locked clears two bits of any lock. With --bootloader the first page that is written clears the rest of the
    chip, also after a page that was refused because the session hadn't entered programming mode."""
    used = bytes(range(256)) * 133
    room.put("chip.bin", used[: CHIP_FILE - 1] + b"\xf3")
    found = ran(["0", *M328P, "--locked", "--", "true"])
    check_equal("a lock with other bits at 0", (found[:2], room.read("chip.bin")[-1:].hex()), ((0, ""), "f0"))
    page = [0x13, 0, 2, 0xC1, 10, 0x40, 0x4C, 0x20, 0xFF, 0xFF, 0x12, 0x34]
    address = frame(2, 6, 0, 0, 0, 0)
    sent = [FRAMES[0], address, frame(3, bytes(page)), frame(4, FRAMES[1][5:-1]), frame(5, 6, 0, 0, 0, 0)]
    sent += [frame(6, bytes(page)), frame(7, 0x11, 1, 1)]
    room.put("chip.bin", used[:CHIP_FILE])
    with Serving("--bootloader") as server:
        with server.call() as client:
            for request in sent:
                client.sendall(request)
                head = received(client, 5)
                received(client, int.from_bytes(head[2:4], "big") + 1)
        server.end()
    check_equal("the page, and the rest", room.read("chip.bin")[:4].hex(), "1234ffff")
    room.put("chip.bin", used[:CHIP_FILE])
    client = [PROGRAM, "-D", "-p", "m328p", "-P", "net:{}", "-U", "flash:w:0x12,0x34:m"]
    found = ran(["0", *M328P, "--bootloader", "--corrupt", "PROGRAM_FLASH", "--", *client])
    check_equal("no page arrives whole", (found[0], room.read("chip.bin") == used[:CHIP_FILE]), (1, True))


def reports():
    """--json writes each session: commands, faults, and whether the chip was saved; also for refused values of
    options."""
    with Serving("--json", "report.json", "--lose-reply", "SIGN_ON#2", "--lose", "CHIP_ERASE") as server:
        with server.call() as client:
            check("a session", begins(client))
            client.sendall(FRAMES[0] + FRAMES[1])
            check_equal(
                "the reply to its third command", received(client, ENDS[1] - ENDS[0]), REPLIES[ENDS[0] : ENDS[1]]
            )
        with server.call() as client:
            check("one whose run is killed", begins(client))
            (run,) = runs()
            os.kill(run, signal.SIGKILL)
            check_equal("it is hung up on", client.recv(1), b"")
        check_equal("its status", server.end()[0], 1)
    # (- is a file for --log, and standard output for --json)
    words = ["0", "-p", "m328p", "--chip", "chip.bin", "--log", "-", "--json", "-", "--", "true"]
    check_equal("a log named -, and a report", (ran(words)[0], room.read("-")), (0, b""))
    # (a log in the file of standard output)
    client = [str(PROGRAM), "-p", "m328p", "-P", "net:{}", "-q"]
    words = [SCRIPT, "0", "-p", "m328p", "--chip", "chip.bin", "--log", "/dev/stdout", "--json", "-", "--", *client]
    with (room.folder / "all").open("wb") as output:
        subprocess.run(words, cwd=room.folder, env=environment(), stdout=output, check=True)
    *lines, last = room.read("all").decode().splitlines()
    check_equal("both are whole", (len(lines), json.loads(last)["sessions"][0]["commands"]), (6, 6))
    held = report()
    faults = [{"fault": "--lose-reply SIGN_ON#2", "struck": 1}, {"fault": "--lose CHIP_ERASE", "struck": 0}]
    check_equal("the faults", (held["status"], held["faults"], held["seed"]), (1, faults, None))
    sessions = [
        (session["commands"], len(session["faults"]), session["idle"], session["saved"]) for session in held["sessions"]
    ]
    check_equal("the sessions", sessions, [(3, 1, False, True), (1, 0, False, False)])
    with Serving("--json", "report.json", "--lose", "SIGN_ON", "--idle", "1", "--log-limit", "1") as server:
        with server.call() as client:
            client.sendall(FRAMES[0])
            check_equal("an idle one ends", received(client, 1), b"")
        expected = "avrstk-serve: a client is disconnected after 1 seconds without a byte\n"
        check_equal("no log is given, so none lacks a line", server.end(), (0, expected))
    (session,) = report()["sessions"]
    check_equal("it is idle", (session["commands"], session["idle"], session["saved"]), (1, True, True))
    (room.folder / "gone").mkdir()
    with Serving("--json", "report.json", "--idle", "1", "--chip", "gone/chip.bin") as server:
        with server.call() as client:
            check("one whose chip can't be saved", begins(client))
            shutil.rmtree(room.folder / "gone")
            check_equal("it is hung up on", client.recv(1), b"")
        server.end()
    (session,) = report()["sessions"]
    check_equal("it was idle", (session["idle"], session["saved"]), (True, False))
    words = ["--json", "report.json", "--seed", "007", "--drop", "2%", "--lose", ".5%"]
    found, messages, _ = ran(["0", *M328P, *words, "--", "sh", "-c", "exit 7"])
    check_equal("a command's status", (found, report()["status"], report()["seed"]), (7, 7, 7))
    check("its seed, without zeros in front", "faults are drawn with --seed 7\n" in messages, messages)
    found, messages, _ = ran(["0", "-p", "m328p", "--json", "report.json"])
    check_equal("refused", (found, report()["error"]), (1, messages[len("avrstk-serve: ") : -1]))
    room.put("chip.bin", b"no chip")
    check_equal("its own chip", ran(["0", *M328P, "--json", "./chip.bin"])[0], 1)
    check_equal("the chip stays", room.read("chip.bin"), b"no chip")


def mega():
    """With --mega the lock and the EEPROM stay when pages are erased, and of the lock only the boot lock bits can be
    written. A corrupt frame gets no reply. (tests/mega.py has the replies.)"""
    flash, eeprom, rest = bytes(range(256)) * 1024, bytes(range(255, -1, -1)) * 16, b"\x62\xd9\xfd\xfc"
    room.put("chip.bin", flash + eeprom + rest)
    room.put("new.bin", bytes(1_000))
    double, client = ["0", "-p", "m2560", "--chip", "chip.bin", "--mega"], [str(PROGRAM), "-p", "m2560", "-P", "net:{}"]
    found, *_ = ran([*double, "--corrupt", "READ_LOCK", "--", *client, "-q", "-U", "lock:r:/dev/null:h"])
    check_equal("a corrupt frame", found, 1)
    found, *_ = ran([*double, "--log", "log", "--corrupt", "SIGN_ON#1", "--", *client, "-q"])
    check_equal("and one", (found, marks()[0]), (0, "1, 1: SIGN_ON 01: corrupted, no reply"))
    found, *_ = ran([*double, "--", *client, "-q", "-D", "-U", "flash:w:new.bin:r"])
    wanted = bytes(1_000) + b"\xff" * 24 + flash[1_024:]
    check_equal("a locked chip is written", (found, room.read("chip.bin") == wanted + eeprom + rest), (0, True))
    found, *_ = ran([*double, "--", *client, "-q", "-D", "-V", "-U", "lock:w:0x00:m"])
    check_equal("the lock", (found, room.read("chip.bin")[-1:].hex()), (0, "c0"))
    page, address = frame(2, 0x13, 0, 4, *[0] * 7, *b"abcd"), frame(1, 6, 0x80, 0, 0, 0)
    with Serving("--mega", chip=["-p", "m2560", "--chip", "long.bin"]) as server:
        with server.call() as client:
            client.sendall(address + page + address + frame(3, 0x14, 0xFF, 0xFF, 0x20))
            head = received(client, 3 * 8 + 5)[-5:]
            received(client, int.from_bytes(head[2:4], "big") + 1)
        wait_until(lambda: room.read("long.bin") is not None)
        check_equal("a read that is too long", (server.end(), room.read("long.bin")[:4]), ((0, ""), b"abcd"))
    # (the bit that a fault changes)
    damaged = bytearray(frame(1, 1))
    damaged[-2] ^= 1
    with Serving("--mega", "--log", "log", chip=["-p", "m2560", "--chip", "long.bin"]) as server:
        with server.call() as client:
            client.sendall(damaged + frame(2, 1))
            check_equal("a damaged frame of the client gets no reply", received(client, 17)[1], 2)
        server.end()


def report():
    """Returns the report, which has to fit its schema."""
    held = json.loads(room.read("report.json"))
    try:
        import jsonschema
    except ModuleNotFoundError:
        leave_out("the schema of reports", "python3-jsonschema is not installed")
        return held
    jsonschema.validate(held, json.loads((TOP / "docs/report.schema.json").read_text()))
    return held


CASES = named(
    *(listens, clients_that_send_nothing, one_after_another, half_closed, clients_that_reset, a_chip_in_use),
    *(idle_clients, ends_at_a_signal, refused, installed, status_of_sessions, a_command),
    *(
        no_inner_port,
        modes_of_a_session,
        errors_end_one_session,
        signals_that_are_ignored,
        other_addresses,
        devices,
        logged,
    ),
    *(avrdudes_in_a_row, faults, of_an_old_chip, a_job_ends, at_a_terminal, logs_that_take_no_more),
    *(a_log_of_two, reports, mega),
)

# an idle time, or AVRDUDE's own timeouts
TIMED = [
    "idle_clients",
    "listens",
    "mega",
    "devices",
    "logged",
    "avrdudes_in_a_row",
    "faults",
    "a_command",
    "a_job_ends",
]

if __name__ == "__main__":
    sys.exit(
        run_cases(
            {name: lambda case=case: (room.clear(), case()) for name, case in CASES.items()}, __doc__, timed=TIMED
        )
    )
