"""avrstk-serve: the clients at a port or a terminal, and the runs of avrstk_session for them."""

from __future__ import annotations

from avrstk_common import ENDING, READ, Fault, Source, Way, brief, built, came, ended_by, heed_signals, part_words
from avrstk_common import name_of_signal, print_line, readable, ready, session_program, show, text_of, unchanged
from avrstk_common import version, wait
from avrstk_faults import FAULTS, REFUSED, Traffic, seconds
from avrstk_mega import Mega
from avrstk_report import build, fault_of, write

import atexit
import contextlib
import getopt
import os
import re
import select
import shutil
import signal
import socket
import stat
import subprocess
import sys
import tempfile
import threading
import time
import tty
from typing import IO, Mapping, Protocol, Sequence, Union

# the most clients kept that have sent nothing; beyond that the oldest is hung up on. (So few open files are enough)
MOST_SILENT = 8

# the most seconds that a run has to save its chip once its client is gone, and a command to end after SIGTERM. With
# --mega a whole chip may be written then
PATIENCE, PATIENCE_OF_MEGA = 8, 40

# the seconds that a command has to end, or to begin a session that ends well, after one that did not
GRACE = 10


LONG = ["parts=", "chip=", "idle=", "listen=", "pty=", "timeout=", "log=", "log-limit=", "seed=", "locked"]
LONG += ["strict", "json=", "mega", "version", "help"]
LONG += [option[2:] + "=" for option in FAULTS] + [option[2:] for option in REFUSED]

# a client: its connection, or its terminal
Client = Union[socket.socket, IO[bytes]]


class Door(Protocol):
    """What clients call: a port or a link."""

    def open(self) -> str:
        """Lets clients call, and returns where."""

    def next_client(self, until: float | None) -> Client | None:
        """Returns the first client that has sent a byte; None after a signal or `until`."""


def ignore_signals() -> None:
    """Ignores the signals that end the server."""
    for number in ENDING:
        signal.signal(number, signal.SIG_IGN)


class Port:
    """A TCP port and its clients that have sent nothing so far, each with its time limit."""

    def __init__(self, address: str, port: int, idle: float | None) -> None:
        self.address, self.port, self.idle = address, port, idle
        self.silent: dict[socket.socket, float] = {}
        self.door: socket.socket | None = None

    def open(self) -> str:
        """Lets clients call, and returns where."""
        try:
            host = os.fsencode(self.address)
            family, _, _, _, place = socket.getaddrinfo(host, self.port, type=socket.SOCK_STREAM)[0]
            self.door = socket.create_server(place, family=family)
        except OSError as fault:
            # (Python adds the address in brackets)
            raise Fault(f"{self.address}, port {self.port}: {str(fault.strerror).partition(' (')[0]}")
        self.door.setblocking(False)
        # (an address of one link has its interface's name after it)
        address, port = socket.getnameinfo(self.door.getsockname(), socket.NI_NUMERICHOST | socket.NI_NUMERICSERV)
        return f"[{address}]:{port}" if ":" in address else f"{address}:{port}"

    def next_client(self, until: float | None) -> Client | None:
        """Returns the first client that has sent a byte; None after a signal or `until`. Ends the oldest silent one."""
        assert self.door
        while True:
            oldest = next(iter(self.silent), None)
            limits = [until, self.silent[oldest] if self.idle and oldest else None]
            watched: dict[Source, int] = dict.fromkeys([came, self.door, *self.silent], READ)
            found = ready(watched, min((limit for limit in limits if limit), default=None))
            if came in found or is_past(until):
                return None
            client = next((silent for silent in self.silent if silent in found), None)
            if client:
                del self.silent[client]
                if has_sent(client):
                    return client
                close(client)
            elif oldest and (not found or len(self.silent) == MOST_SILENT):
                del self.silent[oldest]
                close(oldest)
            if self.door in found:
                self.accept(self.door)

    def accept(self, door: socket.socket) -> None:
        # (a client may have gone meanwhile)
        with contextlib.suppress(OSError):
            client, _ = door.accept()
            client.setblocking(False)
            client.setsockopt(socket.IPPROTO_TCP, socket.TCP_NODELAY, 1)
            self.silent[client] = time.monotonic() + (self.idle or 0)


class Link:
    """A link to the pseudo terminal of the next session. Closing the terminal of a session hangs up on its client."""

    def __init__(self, link: str) -> None:
        self.link = link
        self.terminal: IO[bytes] | None = None
        self.device: str | None = None
        self.fault: Fault | None = None
        atexit.register(self.remove)

    def remove(self) -> None:
        if self.is_here():
            os.unlink(self.link)

    def open(self) -> str:
        """Lets the next client call, and returns where. The link is never missing, nor another program's."""
        try:
            number, device = os.openpty()
            tty.setraw(device)
            leads_to, name = os.ttyname(device), self.link
            # (once it was closed, the end of a client is seen)
            os.close(device)
            if self.is_here():
                # (nobody can guess this name, and no link is made where one is)
                name = tempfile.mktemp(".avrstk", f"{os.path.basename(self.link)}-", os.path.dirname(self.link) or ".")
            os.symlink(leads_to, name)
            os.rename(name, self.link)
        except OSError as fault:
            raise Fault(f"{self.link}: {fault.strerror}")
        os.set_blocking(number, False)
        self.terminal, self.device = os.fdopen(number, "r+b", 0), leads_to
        return self.link

    def is_here(self) -> bool:
        """Whether the link is still the one made here."""
        return self.device is not None and os.path.islink(self.link) and os.readlink(self.link) == self.device

    def next_client(self, until: float | None) -> Client | None:
        """Returns the terminal whose client has sent a byte; None after a signal or `until`. If there can be no
        terminal for the client after that one, the next call fails."""
        if self.fault:
            raise self.fault
        assert self.terminal
        with_input = select.poll()
        with_input.register(self.terminal, select.POLLIN)
        # (while no client has it open, a terminal is always ready, with its end)
        while not any(events & select.POLLIN for _, events in with_input.poll(0)):
            if ready({came: READ}, time.monotonic() + 0.02) or is_past(until):
                return None
        client = self.terminal
        try:
            self.open()
        except Fault as fault:
            self.fault = fault
        return client


class Job:
    """A command that runs as the client. It stays in the server's process group, so it can read the terminal, and
    Ctrl-C reaches both."""

    def __init__(self, command: Sequence[str], where: str, limit: float | None) -> None:
        with contextlib.suppress(ImportError, AttributeError):
            # (PR_SET_CHILD_SUBREAPER: what has lost its parent becomes a child of this process)
            import ctypes

            ctypes.CDLL(None).prctl(36, 1, 0, 0, 0)
        words = [word.replace("{}", where) for word in command]
        self.process = subprocess.Popen(words, env={**os.environ, "AVRSTK_PORT": where})
        # its end ends the server, as a signal does, and so does the end of its time
        came.heed(signal.SIGALRM)
        threading.Thread(target=self.note_end, daemon=True).start()
        signal.setitimer(signal.ITIMER_REAL, limit or 0)

    def note_end(self) -> None:
        self.process.wait()
        came.note(signal.SIGCHLD)

    def end(self) -> None:
        """Ends it with all that it has started: by SIGTERM, and what is left after PATIENCE by SIGKILL."""
        late = time.monotonic() + PATIENCE
        asked: set[int] = set()
        # (a process of another user may stay)
        while started() and not is_past(late + 1):
            for process in started():
                with contextlib.suppress(OSError):
                    if is_past(late):
                        os.kill(process, signal.SIGKILL)
                    elif process not in asked:
                        os.kill(process, signal.SIGTERM)
                asked.add(process)
            time.sleep(0.02)

    def status(self) -> int:
        """Returns its status, which is that of a shell if a signal has ended it, and 1 if it can't be ended."""
        with contextlib.suppress(subprocess.TimeoutExpired):
            self.process.wait(1)
        status = 1 if self.process.returncode is None else self.process.returncode
        return 128 - status if status < 0 else status


def started() -> list[int]:
    """Returns the processes that this one has started, or one of those, and that have not ended. Each comes before what
    it has started: so a shell that gets a signal first runs no further command."""
    rows: list[tuple[int, int]] = []
    for process in filter(str.isdigit, os.listdir("/proc")):
        # (it may have ended meanwhile)
        with contextlib.suppress(OSError), open(f"/proc/{process}/stat", "rb") as file:
            state, parent = file.read().rpartition(b")")[2].split()[:2]
            if state not in b"ZX":
                rows.append((int(process), int(parent)))
    found = [os.getpid()]
    for ancestor in found:
        found += [child for child, parent in rows if parent == ancestor]
    return found[1:]


class Server:
    """The clients at a door, and the runs of a program for them."""

    def __init__(self, door: Door, program: list[str], idle: float | None, traffic: Traffic | None) -> None:
        self.door, self.program, self.idle, self.traffic, self.has_failed = door, program, idle, traffic, False
        # whether clients get a Mega's bootloader, and what --json has of each session
        self.is_mega = False
        self.sessions: list[dict[str, object]] = []

    def serve_all(self, command: list[str], limit: float | None) -> int:
        """Serves while this command runs, for at most `limit` seconds, or until a signal comes. Returns the status."""
        where = self.door.open()
        if self.traffic:
            self.traffic.report_seed()
        if not command:
            show(f"serving at {readable(where)}")
            self.serve_clients(None)
            return int(self.report_unstruck_faults() or self.has_failed)
        job, ended = Job(command, where, limit), None
        try:
            self.serve_clients(GRACE)
            ended = ended_by()
            if ended in (None, signal.SIGALRM):
                why = "--timeout" if ended else "a session failed or was idle"
                print_line(f"ending {command[0]}: {why}")
        finally:
            if ended != signal.SIGCHLD:
                job.end()
        status = 1 if ended is None else 124 if ended == signal.SIGALRM else job.status()
        # (these are reported also if the command has failed)
        counts = self.report_unstruck_faults()
        return status or int(counts or self.has_failed)

    def report_unstruck_faults(self) -> bool:
        """Reports the faults that selected no command, and returns whether the status depends on them."""
        if not self.traffic:
            return False
        lacking = self.traffic.unstruck()
        for fault in lacking:
            print_line(f"{fault} selected no command")
        return bool(lacking) and self.traffic.is_strict

    def serve_clients(self, grace: int | None) -> None:
        """Serves clients until a signal comes. With `grace`, it ends so many seconds after a session that did not end
        well, unless one does that has begun before."""
        until: float | None = None
        while True:
            client = self.door.next_client(until)
            if client is None:
                return
            is_well = False
            try:
                is_well = self.serve(client)
            except OSError as fault:
                self.has_failed = True
                print_line(f"a client can't be served: {fault.strerror}")
            close(client)
            if is_well:
                until = None
            elif grace and until is None:
                until = time.monotonic() + grace

    def serve(self, client: Client) -> bool:
        """Serves one client, and notes the session for a report. Returns whether the client ended it, and its chip was
        saved."""
        traffic, begun = self.traffic, time.monotonic()
        count, struck = (traffic.count, traffic.struck.copy()) if traffic else (0, None)
        is_well, is_saved = True, False
        try:
            is_well, is_saved = self.run_for(client)
        finally:
            if traffic and struck is not None:
                new = {fault: traffic.struck[fault] - struck[fault] for fault in traffic.given}
                faults = [{"fault": fault, "struck": times} for fault, times in new.items() if times]
                session: dict[str, object] = {"commands": traffic.count - count, "faults": faults}
                session["seconds"] = round(time.monotonic() - begun, 3)
                self.sessions.append({**session, "idle": not is_well, "saved": is_saved})
        return is_well and is_saved

    def run_for(self, client: Client) -> tuple[bool, bool]:
        """Serves one client by a run of its own. On return the run has ended and saved the chip. Returns whether the
        client was not idle, and whether its chip was saved."""
        line, other = socket.socketpair()
        with line:
            run = self.start(other)
            try:
                line.setblocking(False)
                is_well = self.pass_on(client, line)
            finally:
                hang_up(line, run, PATIENCE_OF_MEGA if self.is_mega else PATIENCE)
                if self.traffic:
                    self.traffic.end()
        if run.returncode:
            how = f"status {run.returncode}" if run.returncode > 0 else name_of_signal(-run.returncode)
            self.has_failed = True
            print_line(f"a session failed ({how}): its chip may not be saved")
        return is_well, not run.returncode

    def start(self, other: socket.socket) -> subprocess.Popen[bytes]:
        """Starts a run with this end of a connection, or with --mega a bootloader there, and its run."""
        programmer, own = socket.socketpair() if self.is_mega else (None, other)
        with own:
            # (it saves its chip even if all processes of a service are sent a signal)
            run = subprocess.Popen(
                self.program,
                stdin=own.fileno(),
                stdout=own.fileno(),
                start_new_session=True,
                preexec_fn=ignore_signals,
            )
        if programmer:
            threading.Thread(target=Mega(other, programmer).live, daemon=True).start()
        return run

    def pass_on(self, client: Client, line: socket.socket) -> bool:
        """Passes bytes between a client and its run until either has gone, the client is idle, or a signal comes.
        Returns whether the client was not idle."""
        changes = self.traffic.begin() if self.traffic else (unchanged, unchanged)
        there, back = ways = Way(client, line, changes[0]), Way(line, client, changes[1])
        moved = time.monotonic()
        while not back.has_ended:
            found = wait(ways, {came: READ}, moved + self.idle if self.idle else None)
            if came in found:
                break
            if not found:
                print_line(f"a client is disconnected after {self.idle:.12g} seconds without a byte")
                return False
            try:
                if any([way.go_on(found) for way in ways]):
                    moved = time.monotonic()
                if there.has_ended:
                    line.shutdown(socket.SHUT_WR)
            except OSError:
                # (the client has reset the connection, or the run has ended)
                break
        return True


def hang_up(line: socket.socket, run: subprocess.Popen[bytes], patience: float) -> None:
    """Ends what a run receives, and returns once it has saved the chip and ended, or was killed after too long."""
    until = time.monotonic() + patience
    # (if the run has ended, that is an error)
    with contextlib.suppress(OSError):
        line.shutdown(socket.SHUT_WR)
        while ready({line: READ}, until) and line.recv(65_536):
            pass
    end(run, max(0, until - time.monotonic()))


def end(run: subprocess.Popen[bytes], seconds: float) -> None:
    """Waits until a run has ended, and kills it if it hasn't after some seconds."""
    try:
        run.wait(seconds)
    except subprocess.TimeoutExpired:
        run.kill()
        run.wait()


def close(client: Client) -> None:
    """Hangs up on a client. Reads its unread bytes first, so that the client sees the end and not a reset."""
    with contextlib.suppress(OSError):
        # (a terminal can't be closed in one direction)
        if isinstance(client, socket.socket):
            client.shutdown(socket.SHUT_WR)
        for _ in range(16):
            os.read(client.fileno(), 65_536)
    client.close()


def door_of(places: list[str], options: Mapping[str, str], idle: float | None, command: list[str]) -> Door:
    """Returns what clients call: a port or a link."""
    if "--pty" in options:
        if places or "--listen" in options:
            raise Fault("--pty takes no port and no --listen")
        # (a command may look for it in another folder)
        return Link(os.path.abspath(options["--pty"]) if command else options["--pty"])
    if len(places) != 1:
        raise Fault("give one PORT, or --pty LINK")
    if not re.fullmatch("0{0,90}[0-9]{1,9}", places[0]) or int(places[0]) > 65_535:
        raise Fault(f"{places[0]}: not a port from 0 to 65535")
    return Port(options.get("--listen", "127.0.0.1"), int(places[0]), idle)


def has_sent(client: socket.socket) -> bool:
    with contextlib.suppress(OSError):
        return bool(client.recv(1, socket.MSG_PEEK))
    return False


def is_past(until: float | None) -> bool:
    return until is not None and time.monotonic() >= until


def stray(words: list[str]) -> str | None:
    """Returns the first word that is no option or its value, but names a program; None if there is none."""
    takes_value = ["-p", *(f"--{option[:-1]}" for option in LONG if option.endswith("="))]
    # (a long option may be cut short)
    values = [before[:1] == "-" and any(name.startswith(before) for name in takes_value) for before in ["", *words]]
    others = (word for is_value, word in zip(values, words) if not is_value and word[:1] != "-")
    return next(filter(shutil.which, others), None)


def fails(*command: str) -> bool:
    """Runs a program that gets no input, and whose output is not shown."""
    return subprocess.run(command, stdin=subprocess.DEVNULL, stdout=subprocess.DEVNULL).returncode != 0


def main(help_text: str) -> int:
    at = sys.argv.index("--") if "--" in sys.argv else len(sys.argv)
    client, program = sys.argv[at + 1 :], stray(sys.argv[1:at])
    if sys.argv[at:] == ["--"]:
        raise Fault("no command after --")
    if program and not client:
        raise Fault(f"{program}: give a command after --")
    given, places = getopt.gnu_getopt(sys.argv[1:at], "p:h", LONG)
    options = dict(given)
    if {"-h", "--help", "--version"} & set(options) or not sys.argv[1:]:
        show(version() if "--version" in options else help_text if "--help" in options else brief(help_text))
        return 0
    if "--json" not in options:
        return serve(given, places, client)
    judge_output(options, "--json", "--chip", "--parts", "--log")
    why = fault_of(options["--json"])
    if why:
        raise Fault(f"--json {options['--json'] or repr('')} {why}")
    report: dict[str, object] = {"status": 1, "error": None, "part": options.get("-p"), "chip": options.get("--chip")}
    report.update({"command": client or None, "seed": None, "seconds": 0.0, "faults": [], "sessions": []})
    status = 1
    try:
        status = serve(given, places, client, report)
    except (Fault, OSError) as fault:
        report["error"] = text_of(fault)
        raise
    finally:
        if not write(options["--json"], {**build(), **report}):
            status = status or 1
    return status


def judge_output(options: Mapping[str, str], output: str, *others: str) -> None:
    """Refuses the file of an output that another option has, too. (`-` is a file, but for --json.)"""
    is_file = output in options and (output, options[output]) != ("--json", "-")
    for other in others if is_file else []:
        if other in options and os.path.realpath(options[other]) == os.path.realpath(options[output]):
            raise Fault(f"{output} {options[output]}: this is the file of {other}")


def judge(options: Mapping[str, str], client: list[str]) -> str:
    """Refuses options that don't fit each other. Returns the name of the chip file."""
    chip, parts = options.get("--chip"), options.get("--parts")
    if not chip:
        raise Fault("no chip file given (--chip)")
    try:
        # (Python may decode names as another character set)
        os.fsencode(chip).decode()
    except UnicodeDecodeError:
        raise Fault(f"--chip {chip}: the name is not UTF-8")
    if parts is not None and not stat.S_ISREG(os.stat(parts).st_mode):
        raise Fault(f"--parts {parts}: not a regular file")
    if "--timeout" in options and not client:
        raise Fault("--timeout is for COMMAND: give one after --")
    excluded = [option for option in ("--parts", *REFUSED) if option in options]
    if "--mega" in options and options.get("-p", "").lower() not in ("m2560", "atmega2560"):
        raise Fault("--mega needs -p m2560")
    if "--mega" in options and excluded:
        raise Fault(f"--mega takes no {' or '.join(excluded)}")
    judge_output(options, "--log", "--chip", "--parts")
    return chip


def serve(
    given: list[tuple[str, str]], places: list[str], client: list[str], report: dict[str, object] | None = None
) -> int:
    """Serves by these options until a signal or the client's end. `report` gets its fields, if one is asked for.
    Returns the status."""
    options, begun = dict(given), time.monotonic()
    idle, limit = (seconds(name, options[name]) if name in options else None for name in ("--idle", "--timeout"))
    door = door_of(places, options, idle, client)
    traffic = Traffic(given) if {"--log", "--json", *FAULTS, *REFUSED} & set(options) else None
    chip = judge(options, client)
    # (avrstk_session itself reports a missing part)
    words = [*part_words(options.get("-p"), options.get("--parts")), "-P", f"emu:{chip}"]
    session = session_program()
    # runs that serve nobody check the options and set the lock. They report why they fail
    if fails(session, "--check", *words):
        return 1
    if traffic:
        traffic.open()
    # (a lock with other bits at 0 keeps them, so the byte isn't compared)
    if "--locked" in options and fails(built(), *words, "-q", "-q", "-V", "-U", "lock:w:0xFC:m"):
        return 1
    heed_signals()
    server, status = Server(door, [session, "--serve", *words], idle, traffic), 1
    server.is_mega = "--mega" in options
    try:
        status = server.serve_all(client, limit)
        return status
    finally:
        # (while Python ends, another signal would end it by that signal)
        signal.setitimer(signal.ITIMER_REAL, 0)
        ignore_signals()
        if report is not None and traffic:
            faults = [{"fault": fault, "struck": traffic.struck[fault]} for fault in traffic.given]
            report.update({"status": status, "seed": traffic.seed, "faults": faults, "sessions": server.sessions})
            report["seconds"] = round(time.monotonic() - begun, 3)
