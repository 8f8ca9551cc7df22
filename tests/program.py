"""Runs the built program in a folder of its own, or serves it at a port, for the scripts beside this one. AVRSTK names
the program; the default is the one that ./avrstk runs: the proved one, or else the one without proofs."""

import operator
import os
import shutil
import socket
import subprocess
import sys
import tempfile
import threading
from functools import reduce
from pathlib import Path

from cases import PATIENCE, TOP, wait_until

NAMED = os.environ.get("AVRSTK")
# a child that is forked while a terminal is made holds it open until it has become its program
forks = threading.Lock()


def program():
    """Returns the program to run: the one that AVRSTK names, or else the one that ./avrstk runs, and prints which it
    is."""
    if NAMED:
        return Path(NAMED).resolve()
    which = subprocess.run([TOP / "avrstk", "--which"], stdout=subprocess.PIPE, text=True)
    if which.returncode:
        sys.exit(which.returncode)
    found = Path(which.stdout.strip())
    print(f"over {found.relative_to(TOP)}", flush=True)
    return found


PROGRAM = program()
# the program of avrstk-serve and of plans: beside it, or in a folder of its own
FOLDERS = [PROGRAM.parent, PROGRAM.parent.parent.parent / "avrstk_session/out"]
SESSION = next((folder / "avrstk_session" for folder in FOLDERS if (folder / "avrstk_session").exists()), None)

# the replies of a session that does nothing, and the number of bytes up to the end of each
REPLIES = (TOP / "crates/avrstk/stdin").read_bytes()
ENDS = [17, 25, 35, 45, 55, 63]

# the six frames of that session
FRAMES = [
    bytes.fromhex(digits)
    for digits in [
        "1B0100010E0114",
        "1B02000C0E10C8641920005303AC53000031",
        "1B0300060E1B04300000003F",
        "1B0400060E1B043000010039",
        "1B0500060E1B04300002003B",
        "1B0600030E11010101",
    ]
]

# the row of /proc/net/tcp of a port of 127.0.0.1 at which a process listens (state 0A)
LISTENS = " 0100007F:{:04X} 00000000:0000 0A "

# the length of the chip file of an ATmega328P, the places of its EEPROM and low fuse, and the first line of its runs
CHIP_FILE, EEPROM, LFUSE = 33_796, 32_768, 33_792
SIGNATURE = "device signature = 1E 95 0F"

# the options of a session over `emu:`, and over standard streams
EMULATED, STDIO = "-p m328p -P emu:chip.bin".split(), "-p m328p -P stdio:".split()


def has_avrdude():
    """Returns whether AVRDUDE is installed, in the version that README and docs describe."""
    found = shutil.which("avrdude")
    return bool(found) and "version 7.1," in subprocess.run([found, "-?"], capture_output=True, text=True).stderr


class Room:
    """A temporary folder with a few given files."""

    def __init__(self):
        self.held = tempfile.TemporaryDirectory()
        self.folder = Path(self.held.name)
        self.put("empty.bin", b"")
        self.put("whole.bin", bytes(place % 256 for place in range(1024)))
        for name in ["blink.hex", "blink.srec", "parts.toml"]:
            self.put(name, (TOP / "examples" / name).read_bytes())
        self.given = {file.name for file in self.folder.iterdir()}

    def put(self, name, content):
        (self.folder / name).write_bytes(content)

    def keep(self, name, content):
        """Writes a file that `clear` leaves, and returns its name."""
        self.put(name, content)
        self.given.add(name)
        return name

    def read(self, name):
        """Returns the content of a file; None if there is none."""
        file = self.folder / name
        return file.read_bytes() if file.is_file() else None

    def clear(self):
        """Removes the files and folders that runs have made."""
        for file in self.folder.iterdir():
            if file.name not in self.given:
                shutil.rmtree(file) if file.is_dir() and not file.is_symlink() else file.unlink()

    def start(self, words, given=subprocess.DEVNULL, closed="", front=(), program=(PROGRAM,), **more):
        """Starts a run of the program with these options. `front` is a command that runs it, and `closed` has shell
        redirections."""
        how = {"stdin": given, "stdout": subprocess.PIPE, "stderr": subprocess.PIPE, "cwd": self.folder} | more
        shell = ["sh", "-c", f'exec "$0" "$@" {closed}'] if closed else []
        with forks:
            return subprocess.Popen([*shell, *front, *map(str, program), *words], **how)

    def run(self, words, given=b"", environment=None, closed=""):
        """Returns the status, the output and the messages of a run. `closed` has shell redirections that close
        streams."""
        return end_of(self.start(words, subprocess.PIPE, closed, env=os.environ | (environment or {})), given)


def full_chip(flash=EEPROM, eeprom=LFUSE - EEPROM):
    """Returns a chip with a program, data and fuses of its own, which isn't locked."""
    program, data = bytes(place % 241 for place in range(flash)), bytes(place % 239 for place in range(eeprom))
    return program + data + b"\xe2\xd9\xfd\xff"


def end_of(started, given=None):
    """Waits until a run has ended. Returns its status, its output and its messages."""
    output, messages = started.communicate(given, timeout=PATIENCE)
    return started.returncode, output, messages


def lines(*texts):
    """Returns messages as lines, each with the program's name in front."""
    return "".join(f"avrstk: {text}\n" for text in texts).encode()


def lines_of(cell):
    """Returns the messages that a cell of a table has, with a semicolon between two."""
    return lines(*filter(None, cell.split("; ")))


def tracing(*words):
    """Returns how to start a run whose system calls strace writes to the file `calls`, with these options of strace.
    (The unproved program's leak detector can't run there.)"""
    return {"front": ["strace", "-o", "calls", *words], "env": os.environ | {"ASAN_OPTIONS": "detect_leaks=0"}}


def frame(number, *body):
    """Returns the frame of a sequence number, modulo 256, and a body, given as bytes and lists of bytes."""
    body = b"".join(bytes([part]) if isinstance(part, int) else part for part in body)
    whole = bytes([0x1B, number % 256]) + len(body).to_bytes(2, "big") + b"\x0e" + body
    return whole + bytes([xor(whole)])


def xor(held):
    """Returns the XOR of all bytes: a frame's last byte is that of the others."""
    return reduce(operator.xor, held, 0)


def kept_port():
    """Returns a socket that keeps a port of 127.0.0.1 while it is open. The system gives the port to no other process.
    A process can listen there only if it asks for that number with SO_REUSEADDR, as this program does when it
    serves."""
    kept = socket.socket()
    kept.setsockopt(socket.SOL_SOCKET, socket.SO_REUSEADDR, 1)
    kept.bind(("127.0.0.1", 0))
    return kept


def port_of(kept):
    return kept.getsockname()[1]


def read_whole(terminal):
    """Returns all that comes from a terminal until its other side is closed."""
    got = b""
    try:
        while piece := os.read(terminal, 65_536):
            got += piece
    except OSError:
        # (the other side was closed)
        pass
    return got


def listens_at(port):
    """Returns whether a process listens at this port of 127.0.0.1. It doesn't call: the first caller is served."""
    return LISTENS.format(port) in Path("/proc/net/tcp").read_text()


class Server:
    """The program as the emulated programmer of a part, at a port that is kept for it. At the end of a `with` it is
    ended if it still runs."""

    def __init__(self, room, chip="served.bin", part="m328p", words=(), waits=True, **more):
        self.kept = kept_port()
        self.port = port_of(self.kept)
        serving = ["-p", part, "--serve", str(self.port), "--chip", chip]
        self.started = room.start([*words, *serving], **more)
        if waits:
            # (the system's table of connections is long)
            wait_until(lambda: listens_at(self.port) or self.started.poll() is not None, 0.02)
        if waits and self.started.poll() is not None:
            raise ConnectionRefusedError(f"nobody serves at port {self.port}: {self.stop()}")

    def call(self):
        """Returns a connection to it."""
        return socket.create_connection(("127.0.0.1", self.port), PATIENCE)

    def end(self):
        """Returns its status, output and messages, once its caller has gone."""
        found = end_of(self.started)
        self.kept.close()
        return found

    def stop(self):
        """Ends it if it still runs."""
        if self.started.poll() is None:
            self.started.kill()
        return self.end()

    def __enter__(self):
        return self

    def __exit__(self, *_):
        if self.started.returncode is None:
            self.stop()
        self.kept.close()
