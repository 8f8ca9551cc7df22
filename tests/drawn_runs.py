#!/usr/bin/env python3
"""Compares drawn runs of the built program with a small model of a run, which was written from docs/ (model.py): the
frames, output, messages, files and status. Command lines, part files, images, chips and replies are drawn, mostly good
ones.

Not proved: A law can't show that its definitions are what docs/ mean, and no proof covers the compiled program.

    tests/drawn_runs.py [CASE ..]       needs a built program (program.py)

With SAMPLE=SEED a tenth of the runs is drawn by it; else the seed of runs without a port is a new one. A failed run is
named by its seed and number: RUN=SEED:NUMBER makes this run alone.
"""

import os
import random
import socket
import sys
import traceback
from concurrent.futures import ThreadPoolExecutor

from cases import attempts, check, named, pauses, run_cases
from line import Peer, frames_of
from model import BUILT_IN, MEMORIES, READ_ONLY, Ended, Part, Programmer, Run, size_of
from program import Room, frame, lines
from records import hex_of, runs_of

AT_ONCE = 8

OWN = Part("own-1", b"\x1e\xaa\x01", 2048, 32, 96, 16, 6)
PART_FILE = """[parts.own-1]
signature = "1EaA01"
flash_size = 2048
flash_page = 32
eeprom_size = 96
eeprom_page = 16
eesave_bit = 6
[parts.t85]
signature = "1E930B"
flash_size = 8192
flash_page = 64
eeprom_size = 512
eeprom_page = 4
eesave_bit = 3
"""

# ---- links

# what may become of a command and its reply; over standard streams there are no silences
SILENT = ("lose", "lose reply", "late")
REPLIED = ("refuse", "spoil", "noise", "babble", "status", "last", "other", "short", "long", "number", "twice", "end")
NOISE = [bytes.fromhex(digits) for digits in ["0700", "1B", "1B1B1B", "1B0100000E", "1B0501140E", "1B0100010D0117"]]


class Link:
    """A link to a programmer. `fates` says what becomes of the frames of some numbers."""

    def __init__(self, programmer, fates=(), seed="", is_silent=False):
        self.programmer, self.fates, self.seed, self.is_silent = programmer, dict(fates), seed, is_silent
        self.sent, self.tape, self.at, self.late, self.has_ended = [], bytearray(), 0, b"", False

    def send(self, sent):
        self.tape += self.replies(sent)

    def byte(self):
        if self.at < len(self.tape):
            self.at += 1
            return self.tape[self.at - 1]
        if self.has_ended or not self.is_silent:
            raise Ended
        return None

    def replies(self, sent):
        """Returns the bytes that come after a frame is sent."""
        self.sent.append(sent)
        fate, number, body = self.fates.get(len(self.sent)), sent[1], sent[5:-1]
        if fate == "lose":
            return b""
        refusals = {"status": bytes([body[0], 0xC0]), "other": bytes([body[0] ^ 1, 0]), "short": body[:1]}
        given = {"refuse": b"\xb0\xc1", **refusals}
        if fate in given:
            return frame(number, given[fate])
        reply = self.programmer.reply(body)
        came, self.late = self.late + frame(number, reply), b""
        return self.changed(fate, number, reply, came)

    def changed(self, fate, number, reply, came):
        draw = random.Random(f"{self.seed} {len(self.sent)}")
        if fate in ("lose reply", "late"):
            self.late = came if fate == "late" else b""
            return b""
        if fate == "spoil":
            at = draw.randrange(len(came))
            return came[:at] + bytes([came[at] ^ 1 << draw.randrange(8)]) + came[at + 1 :]
        if fate == "noise":
            return b"".join(draw.choices(NOISE, k=draw.randint(1, 3))) + came
        if fate == "babble":
            last = 4096 - len(came)
            return draw.choice([b"\x1b", b"\x00"]) * draw.choice([last, last, last + 1, 4096, 8200]) + came
        if fate == "end":
            self.has_ended = True
            return came[: draw.randrange(len(came))]
        bodies = {"last": reply[:-1] + b"\x81", "long": reply + b"\x00"}
        if fate in ("last", "long", "number"):
            return frame(number + (fate == "number"), bodies.get(fate, reply))
        return came * (2 if fate == "twice" else 1)


class Double(Peer):
    """A programmer at a port. `late` has the numbers of frames whose reply may have come late, because a pause was
    measured meanwhile."""

    def __init__(self, link):
        self.link, self.late = link, set()
        super().__init__()

    def serve(self, caller):
        # the pauses before the last reply was sent: the next frame may be there as soon as that is sent
        before = pauses.so_far()
        try:
            for request in frames_of(caller):
                reply, now = self.link.replies(request), pauses.so_far()
                caller.sendall(reply)
                if pauses.so_far() > before:
                    self.late.add(len(self.link.sent))
                before = now
                if self.link.has_ended:
                    caller.shutdown(socket.SHUT_WR)
        except OSError:
            # (the caller has gone)
            pass


# ---- draws


def image_in(draw, size):
    """Returns an image with gaps for a memory of this size."""
    image = {}
    for _ in range(draw.choice([0, 1, 1, 2, 3])):
        start = draw.choice([0, draw.randrange(size), size - 1, draw.randrange(size) & ~255])
        for at in range(start, min(size, start + draw.choice([1, 2, 5, 40, 300]))):
            image[at] = draw.choice([0xFF, draw.randrange(256), draw.randrange(256)])
    return image


def srec_file(image, draw):
    """Returns an S-record file with this image."""
    kind = draw.choice([1, 2, 3] if max(image, default=0) < 65_536 else [2, 3])
    rows = [bytes([0, 3, 0, 0])] if draw.random() < 0.3 else []
    held = [
        (at + offset, part[offset : offset + 20])
        for at, part in runs_of(image, draw)
        for offset in range(0, len(part), 20)
    ]
    for at, part in held:
        rows.append(bytes([kind, len(part) + kind + 2]) + at.to_bytes(kind + 1, "big") + part)
    count = len(held) + (draw.random() < 0.1)
    rows += [bytes([5, 3]) + count.to_bytes(2, "big")] if draw.random() < 0.4 else []
    rows.append(bytes([10 - kind, kind + 2]) + bytes(kind + 1))
    return "".join(f"S{row[0]}{row[1:].hex().upper()}{~sum(row[1:]) & 255:02X}\n" for row in rows).encode()


def segment_file(image):
    """Returns an Intel HEX file with segments. Above 64 KiB the address wraps inside of many records."""
    rows = []
    for at, part in runs_of(image):
        for offset in range(0, len(part), 16):
            data, before = bytes(part[offset : offset + 16]), max(0, at + offset - 0xFFF0) // 16
            segment = before or (at + offset) // 16 & 0xF000
            rows += [bytes([2, 0, 0, 2]) + segment.to_bytes(2, "big")]
            rows += [bytes([len(data)]) + (at + offset - segment * 16 & 0xFFFF).to_bytes(2, "big") + b"\x00" + data]
    return "".join(f":{(row + bytes([-sum(row) & 255])).hex()}\n" for row in [*rows, bytes([0, 0, 0, 1])]).encode()


def damaged(text, draw):
    """Returns a text with one small fault, or an odd form."""
    at, rows = draw.randrange(len(text) + 1), text.splitlines(keepends=True)
    digit = draw.choice([b"0", b"F", b"a", b"G", b":", b"S", b" ", b"\n", b"7", b"\t\n"])
    row = draw.randrange(len(rows) + 1)
    faults = [text[:at] + digit + text[at + 1 :], text[:at] + text[at + 1 :], text[:at] + digit + text[at:], text[:at]]
    moved = [b"".join(order) for order in (rows[:-1], rows[:row] + rows[row + 1 :], rows[:row] + rows[row:][::-1])]
    ends = [text.replace(b"\n", ending) for ending in (b"\r\n", b" \t\n\n", b" " * 560 + b"\n", b" " * 600 + b"\n")]
    return draw.choice([*faults, *faults[:2], *moved, *ends, text.lower(), text + b"rubbish\n"])


def image_file(draw, size):
    """Returns a format, and a file to write."""
    image = image_in(draw, size)
    if draw.random() < 0.1:
        image = {at + draw.choice([size - 1, size, 65_536]): byte for at, byte in image.items()}
    kind = draw.choice("iisrw" + "wwww" * (size > 65_536))
    if kind == "r":
        at = draw.choice([0, 1, 2, size - 1, size, size + 1, draw.randrange(size)]) % 5000
        text = draw.choice([b"", b"", b"\x7fELF", b":0400000001", b" :0"]) + bytes(draw.choices(range(256), k=at))
    else:
        runs = [(at, bytes(part)) for at, part in runs_of(image)]
        files = {"i": lambda: hex_of(runs, draw.choice([1, 16, 32, 255])), "w": lambda: segment_file(image)}
        text = files.get(kind, lambda: srec_file(image, draw))()
        text = damaged(text, draw) if draw.random() < 0.25 else text
    return draw.choice(["a", "", kind.replace("w", "i")] + ["i", "s", "r"] * (draw.random() < 0.1)), text


def values(draw, size):
    """Returns values of format m, most often good ones."""
    good = ["0x%X" % draw.randrange(256), str(draw.randrange(256)), "0b1011", "017", "0", "0XfE"]
    odd = ["256", "08", "0x", "-1", "0x100", "twelve", "0b2", "+1", "1_0", "0o17", "4294967297"]
    taken = draw.choices(good, k=draw.choice([1, 1, 1, 1, min(3, size), 2]))
    taken += [draw.choice(odd)] * (draw.random() < 0.05)
    front, between, end = (
        draw.choice(choices) for choices in (["", "", ",", " "], [",", " ", ", ", "\t"], ["", "", ","])
    )
    return front + between.join(taken) + end


def update(draw, part, files, streams):
    """Returns the text of an update, for which it may add a file. `streams` says how often it names standard ones."""
    often = ["flash"] * (2 if part.flash_size <= 65_536 else 12) + ["eeprom", "eeprom", "lfuse"]
    memory, op = draw.choice([*MEMORIES, *often]), draw.choice("rwwwv")
    if memory in READ_ONLY and draw.random() < 0.9:
        op = "r"
    odd = "boot:w:a flash flash:x:a lfuse:w: lfuse:w::m flash:w:a:h flash:r:x:m missing.hex :w:a lfuse:w a:w::".split()
    if draw.random() < 0.02:
        return draw.choice(odd)
    if op == "r":
        form = draw.choice(["", *"isrdhob"])
        file = draw.choice([f"out{draw.randrange(9)}.txt"] * 6 + ["a:b", "c:d:", "chip.bin"] + ["-"] * streams)
        return f"{memory}:r:{file}" + (f":{form or 'r'}" if form or ":" in file else "")
    size = size_of(part, memory)
    if size == 1 and draw.random() < 0.8 or draw.random() < 0.15:
        return f"{memory}:{op}:{values(draw, size)}:m"
    form, text = image_file(draw, size)
    file = draw.choice([f"in{len(files)}.hex"] * 15 + ["-"] * streams)
    files.setdefault(file, text)
    return f"{memory}:{op}:{file}" + (f":{form}" if form else "")


def part_file(draw):
    """Returns a part file, most often a good one."""
    rows = PART_FILE.splitlines()
    at = draw.randrange(len(rows))
    odd = ["= =", "flash_size = 1", "flash_size = 262145", "flash_page = 3", "eeprom_page = 512", "eesave_bit = 8"]
    odd += ['signature = "1E"', "own = 5", "eeprom_size = 95"]
    rows[at : at + (draw.random() < 0.7)] = draw.choice([[], [draw.choice(odd)], [rows[at]]])
    return "".join(f"{row}\n" for row in (rows if draw.random() < 0.2 else PART_FILE.splitlines()))


def chip_file(draw, part):
    """Returns a chip, or nothing for a new one."""
    length = part.flash_size + part.eeprom_size
    chip = bytearray(b"\xff" * length)
    for at, byte in {**image_in(draw, length), **image_in(draw, length)}.items():
        chip[at] = byte
    fuses = bytes(draw.choice([0xFF, 0xD9, 0xD1, 0x62, draw.randrange(256)]) for _ in range(3))
    return draw.choice([None, *[bytes(chip) + fuses + draw.choice([b"\xff"] * 3 + [b"\xfe", b"\xfc"])] * 3])


def words_of(draw, part, port, updates):
    """Returns a command line."""
    asked = [["-p", part.id]] * (draw.random() < 0.99) + [["-P", port], *(["-U", text] for text in updates)]
    if part is OWN or draw.random() < 0.1:
        asked.append(["--parts", "p.toml"])
    asked += [["-" + letter] for letter in "eDVFAnqv" if draw.random() < (0.15 if letter in "nqv" else 0.3)]
    more = [["-q"], ["-c", "stk500v2"], ["-b", "115200"], ["-P", port], ["-ev"], ["-p", part.id]]
    asked += [option for option in more if draw.random() < 0.06]
    if draw.random() < 0.03:
        wrong = "-c arduino|-P usb|-P net:h:0|-P emu:-|-p m9|--parts none.toml|--parts=-|--chip -"
        asked.append(draw.choice(wrong.split("|")).split())
    fixed = draw.random() < 0.5

    def joined(words):
        return ["".join(words)] if len(words) == 2 and len(words[0]) == 2 and draw.random() < 0.2 else words

    return [word for option in (asked if fixed else draw.sample(asked, len(asked))) for word in joined(option)]


class Drawn:
    """A drawn run: its words (with PORT for a port), its files, and the link's programmer and fates."""

    def __init__(self, seed, kinds):
        draw = random.Random(seed)
        self.seed, self.files, self.kind = seed, {}, draw.choice(kinds)
        part = draw.choices([*BUILT_IN, OWN], [10, 6, *[3] * (len(BUILT_IN) - 1)])[0]
        count = draw.choice([0, 1, 1, 1, 2, 2, 3, 17 if draw.random() < 0.1 else 5])
        streams = draw.choice([0, 0, 0, 0, 0, 1] if self.kind == "stdio:" else [0, 0, 1, 1, 1, 20])
        updates = [update(draw, part, self.files, streams) for _ in range(count)]
        self.words = words_of(draw, part, self.kind, updates)
        self.files["p.toml"] = part_file(draw).encode()
        chip = chip_file(draw, part)
        if self.kind.startswith("emu:") and chip is not None:
            self.files["chip.bin"] = chip if draw.random() < 0.97 else chip[: draw.choice([0, 100, len(chip) - 1])]
        self.part, self.chip = part, chip
        if draw.random() < 0.05:
            self.part, self.chip = BUILT_IN[part is BUILT_IN[0]], None
        self.is_silent = self.kind.startswith("net:")
        kinds = [*REPLIED, *SILENT] if self.is_silent else REPLIED
        count = draw.choice([0, 0, 0, 1, 1, 2, 3, 8])
        places = [draw.choice([draw.randint(1, 12), draw.randint(1, 300)]) for _ in range(count)]
        self.fates = {place: draw.choice(kinds) for place in places}
        if draw.random() < 0.1:
            first, kind = draw.randint(1, 12), draw.choice(["refuse", "babble", "spoil", "noise"])
            self.fates.update(dict.fromkeys(range(first, first + draw.randint(3, 5)), kind))

    def link(self, late=()):
        fates = self.fates | dict.fromkeys(late, "late")
        return Link(Programmer(self.part, self.chip), fates, self.seed, self.is_silent)

    def words_at(self, port):
        return [word.replace("PORT", str(port)) for word in self.words]


def model_of(drawn, words, late=()):
    """Returns the model of a run. The replies to these frames come late, beside what was drawn."""
    over_emulator = drawn.kind.startswith("emu:")
    return Run(
        words, drawn.files, lambda part, chip: Link(Programmer(part, chip)) if over_emulator else drawn.link(late)
    )


def late_replies(drawn, peer):
    """Returns the frames whose replies came late because of pauses: a pause was measured, and then the program repeated
    the frame, or the two frames of which it was the second."""
    bodies = [request[5:-1] for request in peer.link.sent]
    measured = [number for number in peer.late - drawn.fates.keys() if number < len(bodies)]
    return [number for number in measured if bodies[number] in bodies[max(0, number - 2) : number]]


def made(drawn):
    """Makes a drawn run. Returns what the model and the program send, print, write and end with."""
    room, peer = Room(), Double(drawn.link()) if drawn.is_silent else None
    words = drawn.words_at(peer.port if peer else 0)
    model = model_of(drawn, words)
    for name, content in drawn.files.items():
        if name != "-":
            room.put(name, content)
    given = drawn.files.get("-", b"")
    if drawn.kind == "stdio:":
        frames = b"".join(model.link.sent) if model.link else b""
        given, model.output = bytes(model.link.tape) if model.link else b"", frames
    status, output, messages = room.run(words, given)
    if peer:
        peer.end()
        late = late_replies(drawn, peer)
        model = model_of(drawn, words, late) if late and model.link else model
    wanted = {"status": model.status, "messages": lines(*model.lines), "output": model.output}
    found = {"status": status, "messages": messages, "output": output}
    wanted.update({name: content for name, content in model.files.items() if name != "-"})
    found.update({file.name: room.read(file.name) for file in room.folder.iterdir() if file.name not in room.given})
    if peer:
        wanted["frames"] = b"".join(model.link.sent) if model.link else b""
        found["frames"] = b"".join(peer.link.sent)
    return wanted, found


def difference(seed, kinds):
    """Makes the run of this seed. Returns how model and program differ, and the model's status. The first line has the
    seed and what differs."""
    try:
        drawn = Drawn(seed, kinds)
        wanted, found = made(drawn)
    except Exception:
        return f"{seed}: an exception\n{traceback.format_exc()}", 1
    differing = [name for name in {**wanted, **found} if wanted.get(name) != found.get(name)]
    details = [
        f"{name}\n  model:   {wanted.get(name)!r:.600}\n  program: {found.get(name)!r:.600}" for name in differing
    ]
    head = f"{seed}: {', '.join(differing)}\n{drawn.words} {drawn.fates}"
    return "\n".join([head, *details]) if details else "", wanted["status"]


def compared(seed, count, kinds):
    """Compares as many drawn runs, and checks that many end with status 0."""

    def outcome(drawn_by):
        return attempts(lambda: difference(drawn_by, kinds), lambda found: not found[0])[-1]

    seed = os.environ.get("SAMPLE") or seed
    seeds = [f"{seed}:{number}" for number in range(count // 10 if "SAMPLE" in os.environ else count)]
    seeds = [os.environ["RUN"]] if "RUN" in os.environ else seeds
    print(f"{len(seeds)} runs are drawn by {seed}", flush=True)
    with ThreadPoolExecutor(AT_ONCE) as pool:
        done = list(pool.map(outcome, seeds))
    for report, _ in done:
        which, _, how = report.partition("\n")
        check(f"a run that the model makes otherwise: {which}", not report, how)
    good = sum(status == 0 for _, status in done)
    check("a quarter of the runs or more ends with status 0", good * 4 >= len(seeds) or len(seeds) < 50, good)


def over_emulator_and_streams():
    """Compares runs over the emulator with the model, and so runs over replies on standard input."""
    compared(random.randrange(10_000), 900, ["emu:chip.bin", "stdio:"])


def over_a_port():
    """Compares runs over a port with the model; replies may be lost or late. In a pause of this machine the program
    repeats a command; the reply to it is then late in the model, too."""
    compared(0, 100, ["net:127.0.0.1:PORT"])


if __name__ == "__main__":
    sys.exit(run_cases(named(over_emulator_and_streams, over_a_port), __doc__, timed=["over_a_port"]))
