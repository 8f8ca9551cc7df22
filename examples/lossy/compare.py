#!/usr/bin/env python3
"""Flashes one firmware over a link that loses at most one frame, with avrstk, and with AVRDUDE if it is installed. Then
checks the chip.

    compare.py          AVRSTK names the program; the default is this repository's built one, proved or not

The programmer and the ATmega328P are the emulated ones of `avrstk --serve`. The chip has an older firmware above the
new one, so that a lost erase is seen. Prints a row for each run. The status is 1 if a run of avrstk ended with status 0
and a wrong chip.
"""

import contextlib
import os
import shutil
import socket
import subprocess
import sys
import tempfile
import time
from pathlib import Path

HERE = Path(__file__).resolve().parent
FIRMWARE = HERE.parent / "blink.hex"
FLASH, CHIP = 32_768, 33_796
OLD = slice(8192, 8448)

# the lost frame: its name, its command, and which frame with that command
LOST = [("nothing", "00", 1), ("a PROGRAM_FLASH", "13", 2), ("the CHIP_ERASE", "12", 1)]


def program():
    """Returns the program that AVRSTK names, or else this repository's built one."""
    named = os.environ.get("AVRSTK")
    if named:
        return named
    found = subprocess.run([HERE.parent.parent / "avrstk", "--which"], stdout=subprocess.PIPE, text=True)
    # (if there is none, ./avrstk has reported why)
    return found.stdout.rstrip("\n") or sys.exit(1)


AVRSTK = program()


def tools():
    """Yields the name of each tool with its options, and its command up to the port."""
    update = ["-U", f"flash:w:{FIRMWARE}:i"]
    for options in [[], ["-V"]]:
        if shutil.which("avrdude"):
            yield " ".join(["avrdude", *options]), ["avrdude", "-c", "stk500v2", "-p", "m328p", *options, *update, "-P"]
        yield " ".join(["avrstk", *options]), [AVRSTK, "-p", "m328p", *options, *update, "-P"]


def free_ports(count):
    held = [socket.create_server(("127.0.0.1", 0)) for _ in range(count)]
    ports = [listener.getsockname()[1] for listener in held]
    for listener in held:
        listener.close()
    return ports


def listens(port):
    """Waits until a process listens at the port, without a call."""
    mark = f" 0100007F:{port:04X} 00000000:0000 0A "
    for _ in range(500):
        if mark in Path("/proc/net/tcp").read_text():
            return
        time.sleep(0.02)
    sys.exit(f"nobody listens at port {port}")


def flashed(command, lost, nth, folder):
    """Runs a command over a link that loses this frame. Returns the status, the messages and the chip's flash."""
    chip = folder / "chip.bin"
    blank = bytearray(b"\xff" * CHIP)
    blank[OLD] = bytes(256)
    chip.write_bytes(blank)
    near, far = free_ports(2)
    server = subprocess.Popen([AVRSTK, "-p", "m328p", "--serve", str(far), "--chip", str(chip)])
    listens(far)
    line = subprocess.Popen([sys.executable, HERE / "line.py", str(near), str(far), lost, str(nth)])
    listens(near)
    ran = subprocess.run([*command, f"net:127.0.0.1:{near}"], stdin=subprocess.DEVNULL, capture_output=True, text=True)
    # (a command that never connected would leave the line waiting)
    with contextlib.suppress(OSError), socket.create_connection(("127.0.0.1", near)):
        pass
    line.wait()
    server.wait()
    return ran.returncode, ran.stderr, chip.read_bytes()[:FLASH]


def wanted(folder):
    """Returns the expected flash: the firmware, and FF elsewhere."""
    file = folder / "wanted.bin"
    file.unlink(missing_ok=True)
    words = ["-qq", "-p", "m328p", "-P", f"emu:{file}", "-U", f"flash:w:{FIRMWARE}:i"]
    subprocess.run([AVRSTK, *words], check=True, stdin=subprocess.DEVNULL)
    return file.read_bytes()[:FLASH]


def verdict(flash, right):
    """Describes the chip's flash."""
    if flash == right:
        return "right"
    page = next((at for at in range(0, 256, 128) if flash[at : at + 128] != right[at : at + 128]), None)
    faults = [f"page {page // 128} is missing"] if page is not None else []
    faults += ["the old firmware is still there"] if flash[OLD] != right[OLD] else []
    return f"WRONG: {', '.join(faults) or 'other bytes'}"


def main():
    is_kept = True
    print("| The link loses | Run | Verified | Status | The chip |")
    print("| --- | --- | --- | --- | --- |")
    with tempfile.TemporaryDirectory() as name:
        folder = Path(name)
        right = wanted(folder)
        for what, lost, nth in LOST:
            for tool, command in tools():
                status, messages, flash = flashed(command, lost, nth, folder)
                verified = "yes" if "bytes verified" in messages or "bytes of flash verified" in messages else "no"
                print(f"| {what} | `{tool}` | {verified} | {status} | {verdict(flash, right)} |", flush=True)
                is_kept = is_kept and not (tool.startswith("avrstk") and status == 0 and flash != right)
    sys.exit(not is_kept)


if __name__ == "__main__":
    main()
