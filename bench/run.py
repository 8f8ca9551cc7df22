#!/usr/bin/env python3
"""Measures the tool on large images, beside avr-objcopy and srec_cat if they are installed.

    (cd crates/avrstk && rt run < stdin > /dev/null)    builds crates/avrstk/out/avrstk
    bench/run.py [RUNS]             the best of RUNS runs of each command (default 5), in milliseconds
    bench/run.py --count            instructions, the same on every machine (needs valgrind); fails if a figure is more
                                    than 2 % above the one in bench/figures.json
    bench/run.py --count --write    also writes these figures into the file
    bench/run.py --calls            sends and receipts of frames, on both sides of a link (needs strace); fails if a
                                    frame takes more than one of each

Times are those of whole processes. The images are the same in each run of this script.
"""

import json
import os
import random
import re
import shutil
import subprocess
import sys
import time
from pathlib import Path

TOP = Path(__file__).resolve().parent.parent
sys.path.insert(0, str(TOP / "tests"))

from cases import check, check_equal, ended, leave_out  # noqa: E402
from line import BadLine  # noqa: E402
from program import PROGRAM, Room, Server  # noqa: E402

KILO = 1024
SIZES = [32, 64, 128, 256]
FIGURES = TOP / "bench/figures.json"


def image_of(size):
    """Returns `size` bytes without FF, the same each time."""
    source = random.Random(size)
    return bytes(source.randrange(255) for _ in range(size))


def ihex(image):
    def record(address, kind, body):
        line = bytes([len(body)]) + address.to_bytes(2, "big") + bytes([kind]) + body
        return f":{line.hex().upper()}{-sum(line) & 255:02X}\n"

    lines = []
    for at in range(0, len(image), 16):
        if at % 65536 == 0 and at:
            lines.append(record(0, 4, (at >> 16).to_bytes(2, "big")))
        lines.append(record(at & 65535, 0, image[at : at + 16]))
    return "".join(lines) + record(0, 1, b"")


def srec(image):
    def record(kind, address, body):
        line = bytes([len(body) + 4]) + address.to_bytes(3, "big") + body
        return f"S{kind}{line.hex().upper()}{~sum(line) & 255:02X}\n"

    rows = [record(2, at, image[at : at + 16]) for at in range(0, len(image), 16)]
    return "".join(rows) + record(8, 0, b"")


def reads(file):
    """Returns a run that only reads a file: standard input is at its end, so it ends once its plan is made."""
    return [str(PROGRAM), "-p", "m2560", "-P", "stdio:", "-q", "-q", "-U", f"flash:w:{file}"]


def own_commands():
    """Yields the name of each measure of the tool, its command, and its status."""
    ours = str(PROGRAM)
    emulated = [ours, "-P", "emu:chip.bin", "-q", "-q", "-p"]
    yield "help", [ours, "-h"], 0
    yield "a session of six frames", [*emulated, "m328p"], 0
    yield "256 kB of Intel HEX read", reads("256.hex"), 1
    yield "256 kB of S-records read", reads("256.srec"), 1
    yield "32 kB written and verified, m328p", [*emulated, "m328p", "-U", "flash:w:32.hex"], 0
    for size in SIZES:
        yield f"{size} kB written and verified, m2560", [*emulated, "m2560", "-U", f"flash:w:{size}.hex"], 0


def other_commands():
    """Yields the same for other programs if they are installed, with the measure to compare each with."""
    read = "256 kB of Intel HEX read"
    for tool, words, beside in [
        ("true", [], "help"),
        ("avr-objcopy", ["-I", "ihex", "-O", "binary", "256.hex", "other.out"], read),
        ("srec_cat", ["256.hex", "-Intel", "-o", "other.out", "-Binary"], read),
        ("srec_cat", ["256.srec", "-o", "other.out", "-Binary"], "256 kB of S-records read"),
    ]:
        if shutil.which(tool):
            yield f"{tool} {' '.join(words[:3])}".strip(), [tool, *words], beside
        else:
            print(f"          {tool} is not installed")


def done(command, room, wanted):
    """Makes one run in a folder without a chip file. Returns its time in milliseconds."""
    begin = time.perf_counter()
    ran = subprocess.run(command, cwd=room.folder, stdin=subprocess.DEVNULL, capture_output=True)
    taken = 1000 * (time.perf_counter() - begin)
    if ran.returncode != wanted:
        sys.exit(f"{command}: status {ran.returncode}: {ran.stderr.decode()}")
    return taken


def best(runs, command, room, wanted):
    """Returns the time of the fastest of `runs` runs."""
    times = []
    for _ in range(runs):
        room.clear()
        times.append(done(command, room, wanted))
    return min(times)


def peak(command, room):
    """Returns the peak memory of a run, by GNU time; nothing if that isn't installed."""
    if not shutil.which("time"):
        return ""
    room.clear()
    ran = subprocess.run(
        ["time", "-q", "-f", "%M", *command], cwd=room.folder, stdin=subprocess.DEVNULL, capture_output=True, text=True
    )
    return f"{int(ran.stderr.split()[-1]):6} kB"


def time_all(room, runs):
    times = {}
    for label, command, wanted in own_commands():
        times[label] = best(runs, command, room, wanted)
        print(f"{times[label]:9.1f} ms  {peak(command, room):9}  {label}")
    for label, command, beside in other_commands():
        taken = best(runs, command, room, 0)
        print(f"{taken:9.1f} ms  {peak(command, room):9}  {label} ({taken / times[beside]:.1f} times {beside})")
    time_line(room, runs)


# ---- over a link


def session_over(port, part="m328p", size=32):
    return [str(PROGRAM), "-p", part, "-P", f"net:127.0.0.1:{port}", "-q", "-q", "-U", f"flash:w:{size}.hex"]


def frames_sent(room):
    """Returns the frames of a session that writes and verifies 32 kB."""
    room.clear()
    peer = BadLine(room, {})
    done(session_over(peer.port), room, 0)
    return peer.end()


def best_over_line(room, runs, command_for):
    times = []
    for _ in range(runs):
        room.clear()
        with Server(room, "chip.bin") as served:
            times.append(done(command_for(served.port), room, 0))
            served.end()
    return min(times)


def time_line(room, runs):
    """Times a session over TCP on this machine, beside the smallest client that sends the same frames."""
    frames = frames_sent(room)
    taken = best_over_line(room, runs, session_over)
    print(f"{taken:9.1f} ms  {'':9}  32 kB written and verified over a link, {len(frames)} frames")
    if not shutil.which("cc"):
        print("          cc is not installed")
        return
    room.put("frames", b"".join(frames))
    client = room.folder / "least_client"
    subprocess.run(["cc", "-O2", "-o", str(client), str(TOP / "bench/least_client.c")], check=True)
    room.given |= {"frames", "least_client"}
    least = best_over_line(room, runs, lambda port: [str(client), str(port), "frames"])
    print(f"{least:9.1f} ms  {'':9}  the smallest client, same frames (the tool takes {taken / least:.2f} times this)")


# ---- counts


def instructions(command, room, wanted):
    """Returns the instructions of a run, by callgrind."""
    front = ["valgrind", "--tool=callgrind", "--callgrind-out-file=/dev/null"]
    ran = subprocess.run([*front, *command], cwd=room.folder, stdin=subprocess.DEVNULL, capture_output=True, text=True)
    collected = re.search(r"Collected : (\d+)", ran.stderr)
    if ran.returncode != wanted or not collected:
        sys.exit(f"{command}: status {ran.returncode}: {ran.stderr}\n(valgrind runs only the proved program)")
    return int(collected[1])


def count_all(room):
    """Prints the instructions of each command, and returns them by its name."""
    counts = {}
    sizes = {"256 kB of Intel HEX read": "256.hex", "256 kB of S-records read": "256.srec"}
    for label, command, wanted in own_commands():
        room.clear()
        count = counts[label] = instructions(command, room, wanted)
        share = f", {count / len(room.read(sizes[label])):.1f} for each byte of text" if label in sizes else ""
        written = re.match(r"(\d+) kB written", label)
        share = f", {count / KILO / int(written[1]):.0f} for each byte of flash" if written else share
        print(f"{count:12}  {label}{share}")
    return counts


def calls_of_installed_help(room):
    """Returns the system calls of `avrstk --help` as install.sh installs it."""
    prefix, traced = room.folder / "installed", room.folder / "help.trace"
    subprocess.run(
        [TOP / "install.sh", prefix], env=os.environ | {"AVRSTK": str(PROGRAM)}, check=True, stdout=subprocess.DEVNULL
    )
    subprocess.run(
        ["strace", "-f", "-o", traced, prefix / "bin/avrstk", "--help"], check=True, stdout=subprocess.DEVNULL
    )
    shutil.rmtree(prefix)
    return len(re.findall(r"^\d+ +\w+\(", traced.read_text(), re.M))


def figures(room, counts):
    """Yields each figure for bench/figures.json, with its name."""
    whole = "256 kB written and verified, m2560"
    yield f"{whole}: instructions for each byte of flash", counts[whole] / KILO / 256
    with Server(room, "chip.bin", part="m2560") as served:
        yield f"{whole}, over a link: instructions", instructions(session_over(served.port, "m2560", 256), room, 0)
    more = counts["256 kB of Intel HEX read"] - instructions(reads("128.hex"), room, 1)
    yield "Intel HEX read: instructions for each more byte of text", more / (
        len(room.read("256.hex")) - len(room.read("128.hex"))
    )
    if shutil.which("strace"):
        yield "avrstk --help, installed: system calls", calls_of_installed_help(room)
    else:
        leave_out("the calls of --help", "strace is not installed")


def hold(found):
    """Checks that no figure is more than 2 % above the one in the file. With --write, writes these figures there."""
    held = json.loads(FIGURES.read_text()) if FIGURES.exists() else {}
    for name, figure in found.items():
        print(f"{figure:12}  {name}")
        if name in held:
            check(f"{name}: at most 2 % above {held[name]}", figure <= 1.02 * held[name], figure)
    if "--write" in sys.argv:
        FIGURES.write_text(json.dumps(found, indent=4) + "\n")


CALLS = "trace=read,recvfrom,recvmsg,write,sendto,sendmsg"


def calls_of(traced):
    """Returns the numbers of sends and receipts of frames in a trace; strace prints a frame's start byte in octal."""
    text = traced.read_text()
    sends = len(re.findall(r'^\d+ +(?:sendto|write)\(\d+, "\\0?33', text, re.M))
    receipts = len(re.findall(r'^\d+ +(?:recvfrom|read)\(\d+, "\\0?33', text, re.M))
    return sends, receipts


def count_calls(room):
    """Counts system calls that move a frame, on both sides of a link. Fails if a frame takes more than one of each."""
    if not shutil.which("strace"):
        return leave_out("the calls for each frame", "strace is not installed")
    frames = len(frames_sent(room))
    room.clear()
    front = ["strace", "-f", "-e", CALLS, "-s", "4", "-o"]
    with Server(room, "chip.bin", front=[*front, "served.trace"]) as served:
        done([*front, "tool.trace", *session_over(served.port)], room, 0)
        served.end()
    for side in ["tool", "served"]:
        sends, receipts = calls_of(room.folder / f"{side}.trace")
        print(f"{side:>8}: {sends} sends and {receipts} receipts for {frames} frames")
        check_equal(f"{side}: sends and receipts for {frames} frames", (sends, receipts), (frames, frames))


def main():
    room = Room()
    for size in SIZES:
        image = image_of(size * KILO)
        room.put(f"{size}.hex", ihex(image).encode())
        room.put(f"{size}.srec", srec(image).encode())
        room.given |= {f"{size}.hex", f"{size}.srec"}
    if "--count" in sys.argv:
        if not shutil.which("valgrind"):
            leave_out("the instructions", "valgrind is not installed")
        else:
            counts = count_all(room)
            room.clear()
            hold({name: round(figure, 1) for name, figure in figures(room, counts)})
        return ended()
    elif "--calls" in sys.argv:
        count_calls(room)
        return ended()
    else:
        time_all(room, int(sys.argv[1]) if len(sys.argv) > 1 else 5)
    return 0


if __name__ == "__main__":
    sys.exit(main())
