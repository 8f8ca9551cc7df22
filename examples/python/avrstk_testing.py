"""A double of a programmer and its chip, for tests of a client: a with statement around avrstk-serve.

    with Double("--lose", "CHIP_ERASE", part="m328p", chip=bytes(33_796)) as double:
        subprocess.run(["avrdude", "-c", "stk500v2", "-p", "m328p", "-P", double.port, "-U", "flash:w:firmware.hex:i"])
    assert double.commands[-1].name == "LEAVE_PROGMODE"

The chip is bytes, as in a chip file (docs/PART). `chip` and `commands` can be read once the with statement has
ended. AVRSTK_SERVE names the script avrstk-serve; the default is that of the clone, or the installed one. Needs Python
3.8 or later."""

import os
import re
import signal
import subprocess
import tempfile
from dataclasses import dataclass
from pathlib import Path
from typing import List, Optional

LINE = re.compile(r"\S+ \S+ client (\d+), (\d+): (\w+) ([0-9a-f ]+?)( \.\.)?(?:: (.*))?")


@dataclass(frozen=True)
class Command:
    """A command that a client sent: the client's number, the command's sequence number and name, the first 16 bytes of
    its body, and what became of it, such as `lost`."""

    client: int
    number: int
    name: str
    body: bytes
    marks: List[str]


def program(variable: str, name: str) -> str:
    """Returns the program that a variable names. The default is that of the clone, or the installed one."""
    own = Path(__file__).resolve().parent / "../.." / name
    return os.environ.get(variable, str(own) if own.is_file() else name)


class Double:
    """Serves at a free port until the with statement ends. `options` are those of avrstk-serve."""

    def __init__(self, *options: str, part: str = "m328p", chip: Optional[bytes] = None, seconds: float = 60):
        self.options, self.part, self.given, self.seconds = options, part, chip, seconds
        self.port = ""
        self.chip: Optional[bytes] = None
        self.commands: List[Command] = []

    def __enter__(self) -> "Double":
        self.folder = tempfile.TemporaryDirectory()
        self.file, self.log = (Path(self.folder.name) / name for name in ("chip.bin", "log"))
        if self.given is not None:
            self.file.write_bytes(self.given)
        script = program("AVRSTK_SERVE", "avrstk-serve")
        words = [script, "0", "-p", self.part, "--chip", self.file, "--log", self.log, *self.options]
        self.server = subprocess.Popen([*map(str, words)], stdout=subprocess.PIPE, text=True)
        assert self.server.stdout is not None
        line = self.server.stdout.readline()
        if not line.startswith("serving at "):
            self.end()
            raise RuntimeError(f"avrstk-serve does not serve: status {self.server.returncode}")
        self.port = "net:" + line.split()[-1]
        return self

    def __exit__(self, *_) -> None:
        self.end()
        if self.server.returncode:
            raise RuntimeError(f"avrstk-serve failed: status {self.server.returncode}")

    def end(self) -> None:
        """Ends the server, which saves the chip, and takes what it leaves."""
        self.server.send_signal(signal.SIGTERM)
        try:
            self.server.communicate(timeout=self.seconds)
        except subprocess.TimeoutExpired:
            self.server.kill()
            self.server.communicate()
        self.chip = self.file.read_bytes() if self.file.exists() else None
        rows = self.log.read_text().splitlines() if self.log.exists() else []
        self.commands = [command_of(row) for row in rows]
        self.folder.cleanup()


def command_of(row: str) -> Command:
    """Returns the command of a line of the log."""
    found = LINE.fullmatch(row)
    if not found:
        raise ValueError(f"no line of a log: {row}")
    client, number, name, body, _, marks = found.groups()
    return Command(int(client), int(number), name, bytes.fromhex(body), marks.split(", ") if marks else [])
