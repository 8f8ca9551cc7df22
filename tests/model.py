"""A small model of a run of avrstk, for tests/drawn_runs.py: from words, files and replies to frames, lines, files and
status. It was written from docs/ (USAGE, FORMATS, PROTOCOL, PART, EMULATOR, TROUBLESHOOTING) and not from the sources,
as a second opinion. It has no server, no option that `clap` refuses, and no failing files."""

import re
from collections import namedtuple
from contextlib import suppress

from program import frame, xor

Part = namedtuple("Part", "id signature flash_size flash_page eeprom_size eeprom_page eesave_bit")
BUILT_IN = [
    Part("m328p", b"\x1e\x95\x0f", 32_768, 128, 1024, 4, 3),
    Part("t85", b"\x1e\x93\x0b", 8192, 64, 512, 4, 3),
    Part("m2560", b"\x1e\x98\x01", 262_144, 256, 4096, 8, 3),
]
# each memory, with the bodies that read and write it if it is one byte
MEMORIES = {
    "flash": (),
    "eeprom": (),
    "lfuse": ("18 04 50 00 00 00", "17 AC A0 00"),
    "hfuse": ("18 04 58 08 00 00", "17 AC A8 00"),
    "efuse": ("18 04 50 08 00 00", "17 AC A4 00"),
    "lock": ("1A 04 58 00 00 00", "19 AC E0 00"),
    "signature": (),
    "calibration": ("1C 04 38 00 00 00",),
}
READ_ONLY = ("signature", "calibration")


class Refused(Exception):
    """An error whose line is its text."""


def about(name, call, *given):
    """Returns what a call returns; its error is that of a file, a memory, an update or a line."""
    try:
        return call(*given)
    except Refused as why:
        raise Refused(f"{name}: {why}") from None


def size_of(part, memory):
    return {"flash": part.flash_size, "eeprom": part.eeprom_size, "signature": 3}.get(memory, 1)


Update = namedtuple("Update", "memory op file format")
Settings = namedtuple("Settings", "part port parts updates flags")


def options_of(words):
    """Returns the last value of each option, the number of times each flag was given, and all updates."""
    values, flags, updates, words = {"c": "stk500v2"}, dict.fromkeys("eDVnFAqv", 0), [], list(words)
    while words:
        word = words.pop(0)
        if word.startswith("--"):
            name, equals, value = word[2:].partition("=")
            values[name] = value if equals else words.pop(0)
            continue
        letters = word[1:]
        while letters:
            letter, letters = letters[0], letters[1:]
            if letter in flags:
                flags[letter] += 1
                continue
            value, letters = letters or words.pop(0), ""
            values[letter] = value
            updates += [value] if letter == "U" else []
    return values, flags, updates


def update_of(text):
    """Returns the update that a text asks for."""
    memory, op, rest = "flash", "w", text
    if ":" in text:
        memory, _, rest = text.partition(":")
        op, _, rest = rest.partition(":")
    if memory not in MEMORIES:
        raise Refused("no such memory")
    if op not in ("r", "w", "v"):
        raise Refused("no such operation")
    file, format = rest, "r" if op == "r" else "a"
    if ":" in text and rest[-2:-1] == ":":
        file, format = rest[:-2], rest[-1]
    if not file:
        raise Refused("no file named")
    if format not in ("isrdhob" if op == "r" else "isrma"):
        raise Refused("no such format here")
    return Update(memory, op, file, format)


def is_port(text):
    net = re.fullmatch("net:.+:([0-9]+)", text)
    return text == "stdio:" or text.startswith("emu:") and text != "emu:" or bool(net) and 0 < int(net[1]) < 65_536


def settings_of(words):
    values, flags, texts = options_of(words)
    if "p" not in values:
        raise Refused("no part given (-p)")
    if values["c"] != "stk500v2":
        raise Refused(f"programmer {values['c']} is not known")
    port = values.get("P")
    if port is None or not is_port(port):
        raise Refused("no port given (-P)" if port is None else f"port {port} is not known")
    if len(texts) > 16:
        raise Refused("more than 16 updates")
    updates = [about(f"update {number}", update_of, text) for number, text in enumerate(texts, 1)]
    streams = [update for update in updates if update.file == "-" and update.format != "m"]
    inputs = [update for update in streams if update.op != "r"]
    taken = [
        values.get("parts"),
        values.get("chip"),
        port[4:],
        *(update.file for update in streams if port == "stdio:"),
    ]
    if "-" in taken or len(inputs) > 1:
        raise Refused("standard streams are taken")
    return Settings(values["p"], port, values.get("parts"), updates, flags)


FIELDS = Part._fields[1:]
LIMITS = dict(zip(FIELDS[1:], [(2, 262_144), (2, 256), (1, 4096), (1, 256), (0, 7)]))


def tables_of(text):
    """Returns the tables of a part file: only lines KEY = VALUE and [parts.ID], decimal numbers and plain texts."""
    found, table = {}, {}
    for line in text.splitlines():
        head, pair = re.fullmatch(r"\[parts\.([\w-]+)\]", line), re.fullmatch(r'(\w+) = (?:(\d+)|"([^"]*)")', line)
        if head and head[1] not in found:
            table = found[head[1]] = {}
        elif pair and pair[1] not in table:
            table[pair[1]] = int(pair[2]) if pair[2] else pair[3]
        else:
            raise Refused("not TOML")
    return found


def is_good(field, value):
    if field == "signature" or isinstance(value, str):
        return field == "signature" and isinstance(value, str) and re.fullmatch("[0-9A-Fa-f]{6}", value)
    least, most = LIMITS[field]
    return least <= value <= most and (not field.endswith("page") or value & value - 1 == 0)


def parts_of(text):
    """Returns the parts of a part file."""
    tables = tables_of(text)
    if not tables:
        raise Refused("parts is missing")
    parts = []
    for name in sorted(tables):
        if len(name) > 31:
            raise Refused("id has a bad value")
        for field in FIELDS:
            if field not in tables[name]:
                raise Refused(f"{field} is missing")
            if not is_good(field, tables[name][field]):
                raise Refused(f"{field} has a bad value")
        signature, *sizes = (tables[name][field] for field in FIELDS)
        part = Part(name, bytes.fromhex(signature), *sizes)
        if part.flash_size % part.flash_page or part.eeprom_size % part.eeprom_page:
            raise Refused("sizes do not fit")
        parts.append(part)
    return parts


def outside(addresses, size):
    for address in addresses:
        if address >= size:
            raise Refused(f"address {address:08X} out of range")


def bytes_of_line(line, digits):
    if re.search(rb"[^0-9a-fA-F]", digits):
        raise Refused("bad digit")
    if len(digits) % 2 or not digits:
        raise Refused("bad length")
    return bytes.fromhex(digits.decode())


class Ihex:
    """The records of an Intel HEX file."""

    def __init__(self, size):
        self.size, self.image, self.base, self.wraps = size, {}, 0, False

    def take(self, line):
        if line[:1] != b":":
            raise Refused("no record mark")
        record = bytes_of_line(line, line[1:])
        if len(record) < 5 or len(record) != record[0] + 5:
            raise Refused("bad length")
        if sum(record) % 256:
            raise Refused("bad checksum")
        kind, data, offset = record[3], record[4:-1], int.from_bytes(record[1:3], "big")
        if kind > 5:
            raise Refused("bad record type")
        if kind and len(data) != {1: 0, 2: 2, 3: 4, 4: 2, 5: 4}[kind]:
            raise Refused("bad length")
        if kind == 0:
            end = 65_536 if self.wraps else 1 << 40
            places = [self.base + (offset + at) % end for at in range(len(data))]
            outside(places, self.size)
            self.image.update(zip(places, data))
        if kind in (2, 4):
            self.base, self.wraps = int.from_bytes(data, "big") * (16 if kind == 2 else 65_536), kind == 2
        return kind == 1


class Srec:
    """The records of an S-record file."""

    def __init__(self, size):
        self.size, self.image, self.count = size, {}, 0

    def take(self, line):
        if line[:1] != b"S" or not line[1:2].isdigit():
            raise Refused("no record mark")
        record = bytes_of_line(line, line[2:])
        if record[0] == 0 or len(record) != record[0] + 1:
            raise Refused("bad length")
        if (sum(record) + 1) % 256:
            raise Refused("bad checksum")
        kind, wide = int(line[1:2]), {0: 2, 1: 2, 2: 3, 3: 4, 5: 2, 6: 3, 7: 4, 8: 3, 9: 2}
        if kind == 4:
            raise Refused("bad record type")
        if record[0] < wide[kind] + 1 or kind > 3 and record[0] != wide[kind] + 1:
            raise Refused("bad length")
        address, data = int.from_bytes(record[1 : wide[kind] + 1], "big"), record[wide[kind] + 1 : -1]
        if kind in (1, 2, 3):
            places = range(address, address + len(data))
            outside(places, self.size)
            self.image.update(zip(places, data))
            self.count += 1
        if kind in (5, 6) and address != self.count:
            raise Refused("bad record count")
        return kind in (7, 8, 9)


def is_end(records, line):
    """Takes a line of a file, and returns whether the file ends with it."""
    if len(line) > 600:
        raise Refused("line too long")
    line = line.rstrip(b" \t\r")
    return bool(line) and records.take(line)


def detected(content):
    """Returns the format of a file."""
    if content[:4] == b"\x7fELF":
        raise Refused("ELF is not read")
    first = next((line for line in content[:1024].split(b"\n") if line.strip(b" \t\r")), b"")
    if re.match(rb":[0-9A-Fa-f]{10}", first):
        return "i"
    return "s" if re.match(rb"S[0-9][0-9A-Fa-f]{8}", first) else "r"


def image_of(content, format, size):
    """Returns the image of a file, and whether it lacks an end record."""
    format = detected(content) if format == "a" else format
    if format == "r":
        outside(range(size, len(content)), size)
        return dict(enumerate(content)), False
    records = (Ihex if format == "i" else Srec)(size)
    lines = enumerate(content.split(b"\n"), 1)
    is_ended = any(about(f"line {number}", is_end, records, line) for number, line in lines)
    return records.image, not is_ended


def number_of(text):
    for pattern, base in [("0[xX]([0-9a-fA-F]+)", 16), ("0[bB]([01]+)", 2), ("0([0-7]*)", 8), ("([1-9][0-9]*)", 10)]:
        if found := re.fullmatch(pattern, text):
            return int(found[1] or "0", base)


def values_of(text, size):
    """Returns the image of values in the command line."""
    image = {}
    for place, value in enumerate(re.split("[, \t]+", text.strip(", \t")), 1):
        number = number_of(value)
        if number is None:
            raise Refused(f"value {place}: not a number")
        if number > 255:
            raise Refused(f"value {place}: above 255")
        outside([place - 1], size)
        image[place - 1] = number
    return image


def ihex_of(content):
    rows = []
    for at in range(0, len(content), 32):
        rows += [b"\x02\x00\x00\x04" + (at >> 16).to_bytes(2, "big")] if at and at % 65_536 == 0 else []
        data = content[at : at + 32]
        rows.append(bytes([len(data)]) + (at % 65_536).to_bytes(2, "big") + b"\x00" + data)
    return [f":{row.hex()}{-sum(row) % 256:02x}" for row in [*rows, b"\x00\x00\x00\x01"]]


def srec_of(content):
    wide = 2 if len(content) <= 65_536 else 3
    rows = [(wide - 1, at.to_bytes(wide, "big") + content[at : at + 32]) for at in range(0, len(content), 32)]
    held = [(kind, bytes([len(body) + 1]) + body) for kind, body in [*rows, (11 - wide, bytes(wide))]]
    return [f"S{kind}{record.hex()}{~sum(record) & 255:02x}" for kind, record in held]


def text_of(format, content):
    """Returns the file of a memory's bytes."""
    if format == "r":
        return content
    if format in "is":
        return "".join(f"{record.upper()}\n" for record in (ihex_of if format == "i" else srec_of)(content)).encode()
    shown = {"d": str, "h": hex, "b": bin, "o": lambda byte: f"0{byte:o}" if byte > 7 else str(byte)}[format]
    return (",".join(map(shown, content)) + "\n").encode()


def trimmed(content):
    """Drops trailing FF, down to an even length."""
    kept = len(content.rstrip(b"\xff"))
    return content[: kept + kept % 2]


class Programmer:
    """An emulated programmer, as far as the host's commands go. The file of its chip has this content."""

    def __init__(self, part, content=None):
        self.part, self.address, self.is_on = part, 0, False
        content = content or b"\xff" * (part.flash_size + part.eeprom_size + 4)
        self.flash, rest = bytearray(content[: part.flash_size]), content[part.flash_size :]
        self.eeprom, self.bytes = bytearray(rest[:-4]), bytearray(rest[-4:])

    def file(self):
        return bytes(self.flash + self.eeprom + self.bytes)

    def reply(self, body):
        """Returns the body of the reply to a command."""
        code = body[0]
        if code >= 0x12 and not self.is_on:
            return bytes([code, 0xC0])
        self.is_on = code == 0x10 or self.is_on and code != 0x11
        if code == 0x06:
            # (the host loads each address, so it doesn't matter how an address grows)
            self.address = int.from_bytes(body[1:], "big") % (1 << 31)
        if code in (0x14, 0x16, 0x18, 0x1A, 0x1B, 0x1C):
            return bytes([code, 0, *self.read(code, body), 0])
        self.change(code, body)
        return bytes([code, 0]) + (b"\x08STK500_2" if code == 1 else b"\x00" if code in (0x17, 0x19) else b"")

    def read(self, code, body):
        if code in (0x14, 0x16):
            held, at = (self.flash, 2 * self.address) if code == 0x14 else (self.eeprom, self.address)
            return bytes(held[(at + offset) % len(held)] for offset in range(int.from_bytes(body[1:3], "big")))
        if code in (0x1B, 0x1C):
            return self.part.signature[body[4] : body[4] + 1] if code == 0x1B else b"\xff"
        return bytes([self.bytes[[b"\x50\x00", b"\x58\x08", b"\x50\x08", b"\x58\x00"].index(body[2:4])]])

    def change(self, code, body):
        is_locked = self.bytes[3] & 1 == 0
        if code == 0x12:
            self.flash[:] = b"\xff" * len(self.flash)
            if self.bytes[1] >> self.part.eesave_bit & 1:
                self.eeprom[:] = b"\xff" * len(self.eeprom)
            self.bytes[3] = 0xFF
        elif code == 0x19:
            self.bytes[3] &= body[4]
        elif code == 0x17 and not is_locked:
            self.bytes[{0xA0: 0, 0xA8: 1, 0xA4: 2}[body[2]]] = body[4]
        for at, byte in enumerate(body[10:] if code in (0x13, 0x15) and not is_locked else b""):
            if code == 0x13:
                self.flash[(2 * self.address + at) % len(self.flash)] &= byte
            else:
                self.eeprom[(self.address + at) % len(self.eeprom)] = byte


# the commands whose replies end with a second status
TWICE = (0x14, 0x16, 0x17, 0x18, 0x19, 0x1A, 0x1B, 0x1C)
# what ends an attempt, and the line after the fourth
SILENT, BABBLE, SPOILED = "no answer", "no answer in 4096 bytes", "command {:02X} refused with status C1"


class Host:
    """A host at a link, whose `send` takes a frame, and whose `byte` returns the next byte or None in a silence."""

    def __init__(self, link, part):
        self.link, self.part, self.number = link, part, 0

    def received(self):
        """Returns the body of the reply to the last frame, or what ends the attempt."""
        held = bytearray()
        for _ in range(4096):
            byte = self.link.byte()
            if byte is None:
                return SILENT
            held.append(byte)
            size = int.from_bytes(held[2:4], "big")
            if held[0] != 0x1B or len(held) == 5 and (not 0 < size < 276 or held[4] != 0x0E):
                held.clear()
            elif len(held) > 5 and len(held) == size + 6:
                if not xor(held) and held[1] == self.number % 256:
                    return bytes(held[5:-1])
                held.clear()
        return BABBLE

    def step(self, *commands):
        """Makes a step of commands, each a body and the number of its reply's data. Returns the last reply's data."""
        for _ in range(4):
            for body, count in commands:
                self.number += 1
                self.link.send(frame(self.number, body))
                reply = self.received()
                why = SPOILED if reply == b"\xb0\xc1" else reply
                if isinstance(why, str):
                    break
                data = self.judged(body[0], reply, count)
            else:
                return data
        raise Refused(why.format(body[0]))

    def judged(self, code, body, count):
        """Returns the data of a good reply."""
        if body[0] != code or len(body) == 1:
            raise Refused(f"command {code:02X}: bad answer")
        if body[1]:
            raise Refused(f"command {code:02X} refused with status {body[1]:02X}")
        # (the reply to SIGN_ON has a name with its length before it)
        if len(body) != 2 + (body[2] + 1 if code == 1 and len(body) > 2 else count) + (code in TWICE):
            raise Refused(f"command {code:02X}: bad answer")
        if code in TWICE and body[-1]:
            raise Refused(f"command {code:02X} refused with status {body[-1]:02X}")
        return body[2 : 2 + count]

    def at(self, address, memory):
        """Returns the command that loads an address."""
        high = 1 << 31 if memory == "flash" and self.part.flash_size > 131_072 else 0
        return b"\x06" + (high + (address // 2 if memory == "flash" else address)).to_bytes(4, "big"), 0

    def signature(self):
        return b"".join(self.step((bytes([0x1B, 4, 0x30, 0, place, 0]), 1)) for place in range(3))

    def read(self, memory):
        if memory == "signature":
            return self.signature()
        if MEMORIES[memory]:
            return self.step((bytes.fromhex(MEMORIES[memory][0]), 1))
        content, size, end = b"", size_of(self.part, memory), {"flash": b"\x14", "eeprom": b"\x16"}[memory]
        for at in range(0, size, 256):
            count = min(256, size - at)
            read = end + count.to_bytes(2, "big") + (b" " if memory == "flash" else b"\xa0")
            content += self.step(self.at(at, memory), (read, count))
        return content

    def write(self, memory, image):
        if MEMORIES[memory]:
            if 0 in image:
                self.step((bytes.fromhex(MEMORIES[memory][1]) + bytes([image[0]]), 0))
            return
        is_flash = memory == "flash"
        size = self.part.flash_page if is_flash else self.part.eeprom_page
        how = bytes.fromhex("C1 0A 40 4C 20 FF FF" if is_flash else "C1 0A C1 C2 A0 FF FF")
        for at, data in (pages_of if is_flash else page_runs_of)(image, size):
            head = (b"\x13" if is_flash else b"\x15") + len(data).to_bytes(2, "big")
            self.step(self.at(at, memory), (head + how + data, 0))


def pages_of(image, size):
    """Returns the address and the bytes of each page that has a byte of the image."""
    return [(at, bytes(image.get(at + i, 0xFF) for i in range(size))) for at in sorted({i - i % size for i in image})]


def page_runs_of(image, size):
    """Returns the address and the bytes of each run of the image inside of a page."""
    runs = {}
    for at in sorted(image):
        begun = next((start for start in runs if start + len(runs[start]) == at and at % size), at)
        runs[begun] = runs.get(begun, b"") + bytes([image[at]])
    return sorted(runs.items())


def digits_of(signature):
    return signature.hex(" ").upper()


class Ended(Exception):
    """The link has ended: nothing more is sent."""


class Run:
    """A run over files by their names; `-` is standard input. `line` makes its link, for a part and a chip."""

    def __init__(self, words, files, line):
        self.files, self.output, self.lines, self.line, self.link = dict(files), b"", [], line, None
        self.quiet, self.status, self.host = 0, 0, None
        try:
            self.settings = settings_of(words)
            self.quiet = self.settings.flags["q"]
            self.run()
        except Refused as why:
            self.lines.append(f"error: {why}")
            self.status = 1

    def report(self, text):
        self.lines += [text] if self.quiet < 1 else []

    def warn(self, text):
        self.lines += [f"warning: {text}"] if self.quiet < 2 else []

    def content(self, name):
        if name not in self.files:
            raise Refused(f"{name}: cannot be opened")
        return self.files.pop(name) if name == "-" else self.files[name]

    def plan(self):
        """Returns the part, and each update with its image."""
        asked, parts = self.settings, []
        if asked.parts is not None:
            parts = about(asked.parts, parts_of, self.content(asked.parts).decode())
        part = next((known for known in [*parts, *BUILT_IN] if known.id == asked.part), None)
        if not part:
            raise Refused(f"no part {asked.part}")
        return part, [(update, self.image(part, update)) for update in asked.updates]

    def image(self, part, update):
        if update.op == "r":
            return None
        if update.op == "w" and update.memory in READ_ONLY:
            raise Refused(f"{update.memory} is read-only")
        size = size_of(part, update.memory)
        if update.format == "m":
            return about(update.memory, values_of, update.file, size)
        image, is_open = about(update.file, image_of, self.content(update.file), update.format, size)
        if is_open:
            self.warn(f"{update.file}: no end record")
        return image

    def run(self):
        part, tasks = self.plan()
        chip = self.settings.port[4:] if self.settings.port.startswith("emu:") else None
        if chip in [update.file for update, _ in tasks if update.op == "r"]:
            raise Refused(f"{chip}: cannot be created")
        held, size = self.files.get(chip), part.flash_size + part.eeprom_size + 4
        if held is not None and len(held) != size:
            raise Refused(f"{chip}: {len(held)} bytes, {size} expected")
        self.link = self.line(part, held)
        self.host = Host(self.link, part)
        try:
            self.session(part, tasks)
        except Ended:
            raise Refused("link ended") from None
        finally:
            if chip:
                self.files[chip] = self.link.programmer.file()
        self.report("done")

    def session(self, part, tasks):
        leave = bytes.fromhex("11 01 01"), 0
        try:
            self.open(part)
            self.erase(any(update.op == "w" and update.memory == "flash" for update, _ in tasks))
            for update, image in tasks:
                self.do(update, image)
        except Refused:
            with suppress(Refused, Ended):
                self.host.step(leave)
            raise
        self.host.step(leave)

    def open(self, part):
        self.host.step((b"\x01", 0))
        self.host.step((bytes.fromhex("10 C8 64 19 20 00 53 03 AC 53 00 00"), 0))
        found = self.host.signature()
        self.report(f"device signature = {digits_of(found)}")
        if found != part.signature:
            text = f"signature is {digits_of(found)}, {part.id} has {digits_of(part.signature)}"
            if not self.settings.flags["F"]:
                raise Refused(text)
            self.warn(text)

    def erase(self, writes_flash):
        flags = self.settings.flags
        if flags["n"]:
            if flags["e"]:
                self.warn("chip not erased because of -n")
        elif flags["e"] or writes_flash and not flags["D"]:
            self.host.step((bytes.fromhex("12 09 00 AC 80 00 00"), 0))
            self.report("chip erased")

    def do(self, update, image):
        memory, flags = update.memory, self.settings.flags
        if update.op == "r":
            content = self.host.read(memory)
            content = trimmed(content) if memory == "flash" and not flags["A"] else content
            text = text_of(update.format, content)
            if update.file == "-":
                self.output += text
            else:
                self.files[update.file] = text
            return self.report(f"{memory}: {len(content)} bytes read")
        if update.op == "w" and flags["n"]:
            return self.report(f"{memory}: {len(image)} bytes not written")
        if update.op == "w":
            self.host.write(memory, image)
            self.report(f"{memory}: {len(image)} bytes written")
        if update.op == "v" or not flags["V"]:
            content = self.host.read(memory)
            for at in sorted(image):
                if content[at] != image[at]:
                    raise Refused(f"{memory}: address {at:08X}: {image[at]:02X} expected, {content[at]:02X} found")
            self.report(f"{memory}: {len(image)} bytes verified")
