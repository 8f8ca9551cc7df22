"""avrstk-serve --mega: what the bootloader of an Arduino Mega 2560 does, over the emulated programmer and its chip.

The loader works on copies of flash and EEPROM, whose blocks are read when they are first needed. At the session's end
what has changed is written into the chip. (The programmer can't erase a single page. So if a bit of flash has become 1,
it erases the chip first, and then writes all that is left.)"""

from avrstk_faults import framed

import contextlib
import socket
from typing import Dict, Iterator, Tuple

FLASH, PAGE, BOOT = 0x40000, 256, 0x3E000
# (a block is a page of flash)
BLOCK = PAGE
EEPROM, EEPROM_PAGE = 4096, 8
SIGNATURE = (0x1E, 0x98, 0x01)
# GET_PARAMETER: hardware, and the two numbers of the firmware; others are 0
PARAMETERS = {0x90: 0x0F, 0x91: 0x02, 0x92: 0x0A}

OK, FAILED = b"\0", b"\xc0"
SIGN_ON, SET, GET, LOAD, ENTER, LEAVE, ERASE = 0x01, 0x02, 0x03, 0x06, 0x10, 0x11, 0x12
WRITE_FLASH, READ_FLASH, WRITE_EEPROM, READ_EEPROM = 0x13, 0x14, 0x15, 0x16
READ_FUSE, WRITE_LOCK, READ_LOCK, READ_SIGNATURE, SPI = 0x18, 0x19, 0x1A, 0x1B, 0x1D

# the commands to the programmer (docs/PROTOCOL)
ENTERING = bytes.fromhex("10C8641920005303AC530000")
LEAVING, ERASING, LOCK = bytes.fromhex("110101"), bytes.fromhex("120900AC800000"), bytes.fromhex("1A0458000000")
FUSES = {name: bytes.fromhex(f"1804{code}0000") for name, code in [("low", "5000"), ("high", "5808"), ("ext", "5008")]}


class Gone(Exception):
    """The client or the programmer has gone."""


class Mega:
    """A session of the loader: its client, and the programmer of its chip."""

    def __init__(self, client: socket.socket, programmer: socket.socket):
        self.client, self.programmer, self.number = client, programmer, 0
        self.address = self.erased = 0
        # copies of the memories, by the codes of their reads
        self.copies = {READ_FLASH: Copy(self, READ_FLASH, FLASH), READ_EEPROM: Copy(self, READ_EEPROM, EEPROM)}

    def live(self) -> None:
        """Serves the client until it has gone, and then stores what has changed."""
        with self.client, self.programmer, contextlib.suppress(OSError, Gone):
            self.ask(ENTERING)
            with contextlib.suppress(OSError):
                self.serve()
            self.store()
            self.ask(LEAVING)
            self.programmer.shutdown(socket.SHUT_WR)
            self.programmer.recv(1)

    def serve(self) -> None:
        for number, body in self.commands():
            self.client.sendall(framed(number, body[:1] + self.reply(body)))
            if body[0] == LEAVE:
                break
        # (after it the application runs)
        while self.client.recv(4096):
            pass

    def ask(self, body: bytes) -> bytes:
        """Sends a command to the programmer, and returns its reply without the command's byte and status."""
        self.number = (self.number + 1) % 256
        self.programmer.sendall(framed(self.number, body))
        head = take(self.programmer, 5)
        return take(self.programmer, int.from_bytes(head[2:4], "big") + 1)[2:-1]

    def bytes_of_client(self) -> Iterator[int]:
        while True:
            piece = self.client.recv(4096)
            if not piece:
                return
            yield from piece

    def commands(self) -> Iterator[Tuple[int, bytes]]:
        """Yields number and body of each frame as the loader cuts them. A corrupt frame gets no reply."""
        held = bytearray()
        for byte in self.bytes_of_client():
            held.append(byte)
            size = int.from_bytes(held[2:4], "big")
            if held[0] != 0x1B or len(held) == 5 and (held[4] != 0x0E or not 0 < size <= 285):
                held.clear()
            elif len(held) > 5 and len(held) == size + 6:
                number, body, total = held[1], bytes(held[5:-1]), 0
                for value in held:
                    total ^= value
                held.clear()
                if not total:
                    yield number, body

    def reply(self, body: bytes) -> bytes:
        """Does a command. Returns its reply without the command's byte. (Fields that are missing are 0.)"""
        code, fields = body[0], body[1:].ljust(16, b"\0")
        if code in (SET, ENTER, LEAVE):
            return OK
        if code == LOAD:
            self.address = 2 * int.from_bytes(fields[:4], "big") & 0xFFFFFFFF
            return OK
        if code == ERASE:
            # (it refuses, and begins anew with the pages that it erases)
            self.erased = 0
            return FAILED
        if code in (WRITE_FLASH, WRITE_EEPROM, READ_FLASH, READ_EEPROM):
            return self.memory(code, int.from_bytes(fields[:2], "big"), body[10:])
        if code in (READ_FUSE, READ_LOCK, WRITE_LOCK):
            return self.fuses(code, fields)
        one = {
            SIGN_ON: b"\x08AVRISP_2",
            GET: bytes([PARAMETERS.get(fields[0], 0)]),
            READ_SIGNATURE: bytes([SIGNATURE[min(fields[3], 2)], 0]),
        }
        if code == SPI:
            return OK + bytes([0, fields[3], 0, self.instruction(fields), 0])
        return OK + one[code] if code in one else FAILED

    def instruction(self, fields: bytes) -> int:
        """Returns what SPI_MULTI reads: a byte of the signature, the low or the high fuse, else 0."""
        if fields[3] == 0x30:
            return SIGNATURE[min(fields[5], 2)]
        fuse = {0x50: "low", 0x58: "high"}.get(fields[3])
        return self.ask(FUSES[fuse])[0] if fuse else 0

    def fuses(self, code: int, fields: bytes) -> bytes:
        """Reads a fuse or the lock, or clears those boot lock bits of the lock that are 0."""
        if code == READ_FUSE:
            fuse = ("ext" if fields[2] == 0x08 else "low") if fields[1] == 0x50 else "high"
            return OK + self.ask(FUSES[fuse])[:1] + OK
        lock = self.ask(LOCK)[0]
        if code == READ_LOCK:
            return OK + bytes([lock]) + OK
        self.ask(bytes([WRITE_LOCK, 0xAC, 0xE0, 0, lock & (fields[3] | 0xC3)]))
        return OK + OK

    def memory(self, code: int, count: int, data: bytes) -> bytes:
        """Reads or writes flash or EEPROM from the address on, which then grows."""
        if code in (READ_FLASH, READ_EEPROM):
            # (a reply has less than 64 kB)
            count = min(count, 0xF000)
        at, flash, eeprom = self.address, self.copies[READ_FLASH], self.copies[READ_EEPROM]
        if code == READ_EEPROM:
            # (it takes the address of a word as that of a byte)
            self.address += count
            return OK + bytes(map(eeprom.get, range(at, at + count))) + OK
        self.address += 2 * count if code == WRITE_EEPROM else count
        if code == READ_FLASH:
            return OK + bytes(map(flash.get, range(at, at + count + count % 2))) + OK
        if code == WRITE_EEPROM:
            for place, byte in enumerate(data[:count], at // 2):
                eeprom.put(place, byte)
            return OK
        if self.erased < BOOT:
            flash.block(self.erased)[:] = b"\xff" * PAGE
            self.erased += PAGE
        # (its buffer is one page)
        page = flash.block(at)
        for place, byte in enumerate(data[:count], at):
            page[place % PAGE] &= byte
        return OK

    def load(self, at: int, code: int) -> None:
        """Sets the programmer's address: of a word of flash, with its upper bits, or of a byte of EEPROM."""
        address = 1 << 31 | at // 2 if code == READ_FLASH else at
        self.ask(bytes([LOAD]) + address.to_bytes(4, "big"))

    def store(self) -> None:
        """Writes what has changed into the chip. An erase takes the lock, and perhaps the EEPROM."""
        flash, eeprom = self.copies[READ_FLASH], self.copies[READ_EEPROM]
        if not flash.is_changed() and not eeprom.is_changed():
            return
        lock = self.ask(LOCK)[0]
        if not lock & 1 or flash.sets_bits():
            flash.read_all()
            eeprom.read_all()
            self.ask(ERASING)
            flash.old = dict.fromkeys(flash.now, b"\xff" * BLOCK)
            eeprom.old = {at: eeprom.read(at) for at in eeprom.now}
        flash.write(WRITE_FLASH, bytes.fromhex("C10A404C20FFFF"), PAGE)
        eeprom.write(WRITE_EEPROM, bytes.fromhex("C10AC1C2A0FFFF"), EEPROM_PAGE)
        self.ask(bytes([WRITE_LOCK, 0xAC, 0xE0, 0, lock]))


class Copy:
    """A memory: what its blocks held, and what they hold now. `code` is that of its reads."""

    def __init__(self, mega: Mega, code: int, size: int):
        self.mega, self.code, self.size = mega, code, size
        self.old: Dict[int, bytes] = {}
        self.now: Dict[int, bytearray] = {}

    def read(self, at: int) -> bytes:
        self.mega.load(at, self.code)
        return self.mega.ask(bytes([self.code, 1, 0, 0x20 if self.code == READ_FLASH else 0xA0]))[:-1]

    def block(self, at: int) -> bytearray:
        """Returns the block of an address. (Addresses past the end begin again.)"""
        begin = at % self.size // BLOCK * BLOCK
        if begin not in self.now:
            self.old[begin] = self.read(begin)
            self.now[begin] = bytearray(self.old[begin])
        return self.now[begin]

    def get(self, at: int) -> int:
        return self.block(at)[at % BLOCK]

    def put(self, at: int, byte: int) -> None:
        self.block(at)[at % BLOCK] = byte

    def read_all(self) -> None:
        for at in range(0, self.size, BLOCK):
            self.block(at)

    def is_changed(self) -> bool:
        return self.now != self.old

    def sets_bits(self) -> bool:
        """Whether a bit is 1 that was 0, so that only an erase leads there."""
        return any(new & ~was for at, held in self.now.items() for new, was in zip(held, self.old[at]))

    def write(self, code: int, how: bytes, page: int) -> None:
        """Writes the pages that differ, by this command and with its fields."""
        for block, held in self.now.items():
            for at in range(0, BLOCK, page):
                wanted = bytes(held[at : at + page])
                if wanted != self.old[block][at : at + page]:
                    self.mega.load(block + at, self.code)
                    self.mega.ask(bytes([code]) + page.to_bytes(2, "big") + how + wanted)


def take(line: socket.socket, count: int) -> bytes:
    """Returns so many bytes of a connection."""
    held = b""
    while len(held) < count:
        piece = line.recv(count - len(held))
        if not piece:
            raise Gone
        held += piece
    return held
