"""Programmers that speak STK500 version 1, in place of one that speaks version 2.

avrstk sends frames of version 2. Here a frame becomes commands of version 1 for the device, and what the device returns
becomes the reply. Version 1 has neither checksums nor sequence numbers. So after an unexpected reply the device is
brought into step again, and avrstk is told that its frame was corrupt. (If that fails, avrstk gets no reply.) Then
avrstk sends the whole step again, up to four times in all. Each access to flash sends its own address.
"""

from __future__ import annotations

from avrstk_common import READ, WRITE, Frames, is_frame, ready

import contextlib
import functools
import operator
import os
import socket
import threading
import time
from typing import Callable, Iterable, Protocol, Sequence

# AVRDUDE's names of such programmers, with their speeds: the bootloaders of Uno and Nano, and of old Nanos; the sketch
# ArduinoISP; programmers with firmware 1
SPEEDS = {
    "arduino": (115_200, 57_600),
    "arduino_as_isp": (19_200,),
    "stk500v1": (19_200, 115_200),
    "avrisp": (19_200, 115_200),
}

# commands of version 1 (AVR061), the byte that ends each, and the first and last byte of a good reply
SYNC, PARAMETER, DEVICE, ENTER, LEAVE, ADDRESS, UNIVERSAL = b"0", b"A\x81", b"B", b"P", b"Q", b"U", b"V"
WRITE_PAGE, READ_PAGE, SIGNATURE, END, IN_STEP, OK = b"d", b"t", b"u", b" ", 0x14, 0x10

# version 2 (AVR068): the statuses of replies, and the reply to a corrupt frame
DONE, FAILED, CORRUPT = b"\0", b"\xc0", b"\xb0\xc1"
SIGN_ON, LOAD_ADDRESS = 0x01, 0x06
NAME = b"\x08STK500_2"

# seconds without a byte after which a reply is lost (a page of 256 bytes takes 0.3 at 9,600 baud), and in which a chip
# erases itself, or writes a fuse, the lock or a page of EEPROM
SILENCE, ERASING, WRITING = 0.5, 0.02, 0.01


class Unsure(Exception):
    """A reply wasn't as it should be: the device may still be at an earlier command."""


class SerialDevice(Protocol):
    """What avrstk_serial.Device does."""

    def fileno(self) -> int:
        ...

    def set_speed(self, baud: int) -> None:
        ...

    def pulse(self) -> None:
        ...

    def close(self) -> None:
        ...


class Line:
    """The bytes of a serial device. `reset` resets a board by DTR and RTS, and waits until it has started."""

    def __init__(self, device: SerialDevice, wait: float) -> None:
        self.device, self.wait = device, wait

    def set_speed(self, baud: int) -> None:
        self.device.set_speed(baud)

    def send(self, held: bytes) -> None:
        while held:
            if not ready({self.device: WRITE}, time.monotonic() + SILENCE):
                raise Unsure
            held = held[os.write(self.device.fileno(), held) :]

    def receive(self, count: int, silence: float = SILENCE) -> bytes:
        """Returns the next `count` bytes, or fewer if none came for `silence` seconds."""
        held = b""
        while len(held) < count and ready({self.device: READ}, time.monotonic() + silence):
            try:
                piece = os.read(self.device.fileno(), count - len(held))
            except BlockingIOError:
                # (another program has read the bytes)
                continue
            if not piece:
                raise OSError
            held += piece
        return held

    def reset(self) -> None:
        self.device.pulse()
        time.sleep(self.wait)

    def pause(self, seconds: float) -> None:
        time.sleep(seconds)


class Version1:
    """Executes the bodies of frames by commands of version 1. `speeds` are tried in turn until the device replies.
    `alive` is called between the pieces of a long command, and `is_wanted` tells whether a reply is still awaited."""

    def __init__(
        self,
        line: Line,
        speeds: Sequence[int],
        is_bootloader: bool,
        alive: Callable[[], None] = lambda: None,
        is_wanted: Callable[[], bool] = lambda: True,
    ) -> None:
        self.line, self.speeds, self.is_bootloader = line, speeds, is_bootloader
        self.alive, self.is_wanted = alive, is_wanted
        self.is_in_step = False
        self.speed: int | None = None
        self.address = self.page = self.segment = 0
        # the addresses of flash that were written since an erase; None without an erase
        self.written: set[int] | None = None
        self.does: dict[int, Callable[[bytes], bytes]] = {
            0x10: self.enter,
            0x11: lambda _: self.ask(LEAVE),
            0x13: lambda body: self.write_flash(body[10:]),
            0x14: lambda body: self.read_flash(int.from_bytes(body[1:3], "big")) + DONE,
            0x1B: lambda body: self.ask(SIGNATURE, 3)[body[4] : body[4] + 1] + DONE,
        }
        # a bootloader returns OK to these without doing them, or writes flash in place of EEPROM
        if not is_bootloader:
            self.does.update({0x12: self.erase, 0x15: self.write_eeprom, 0x16: self.read_eeprom})
            self.does.update(dict.fromkeys((0x17, 0x19), lambda body: self.write_byte(body[1:5])))
            self.does.update(dict.fromkeys((0x18, 0x1A, 0x1C), lambda body: self.spi(body[2:6]) + DONE))

    def ask(self, command: bytes, count: int = 0) -> bytes:
        """Sends a command, and returns the `count` bytes in its reply."""
        self.line.send(command + END)
        reply = self.line.receive(count + 2)
        if len(reply) < count + 2 or reply[0] != IN_STEP or reply[-1] != OK:
            self.is_in_step = False
            raise Unsure
        return reply[1:-1]

    def get_in_step(self) -> None:
        """Makes sure that the next reply is to the next command. The replies to SYNC and to PARAMETER have different
        lengths, so no single earlier reply passes for both."""
        speeds = [self.speed] if self.speed else list(self.speeds)
        for attempt in range(3 if len(speeds) == 1 else 2 * len(speeds)):
            if not self.is_wanted():
                break
            speed = speeds[attempt % len(speeds)]
            try:
                if attempt and len(speeds) > 1:
                    self.line.set_speed(speed)
            except OSError:
                # (the device doesn't have this speed)
                continue
            if attempt:
                self.interrupt()
            self.line.receive(1_000, 0.05)
            with contextlib.suppress(Unsure):
                self.ask(SYNC)
                self.ask(PARAMETER, 1)
                self.is_in_step, self.speed = True, speed
                return
        raise Unsure

    def interrupt(self) -> None:
        """Ends whatever the device waits for."""
        if self.is_bootloader:
            self.line.reset()
            return
        # (the sketch may wait for the bytes of a page. None of these ends a page, or is a command that does anything)
        self.line.send(SYNC * 300)
        self.line.receive(1_000, 0.1)
        self.line.send(END)

    def enter(self, _: bytes) -> bytes:
        self.segment = 0
        return self.ask(ENTER)

    def spi(self, instruction: Iterable[int]) -> bytes:
        """Lets the chip execute an instruction, and returns its fourth byte."""
        self.alive()
        return self.ask(UNIVERSAL + bytes(instruction), 1)

    def erase(self, body: bytes) -> bytes:
        self.spi(body[3:7])
        self.line.pause(ERASING)
        self.written = set()
        return b""

    def write_byte(self, instruction: bytes) -> bytes:
        """Writes a fuse or the lock."""
        self.spi(instruction)
        self.line.pause(WRITING)
        return DONE

    def load_address(self) -> None:
        """Sends the address for flash, in words."""
        segment = self.address >> 16 & 0x7F
        if segment != self.segment:
            self.spi([0x4D, 0, segment, 0])
            self.segment = segment
        self.ask(ADDRESS + (self.address & 0xFFFF).to_bytes(2, "little"))

    def write_flash(self, page: bytes) -> bytes:
        if len(page) != self.page and not self.is_bootloader:
            # (of the device's 20 bytes the sketch needs the size of a page)
            self.ask(DEVICE + bytes(12) + len(page).to_bytes(2, "big") + bytes(6))
            self.page = len(page)
        self.load_address()
        if self.written is not None:
            self.written.update(range(self.address * 2, self.address * 2 + len(page)))
        self.ask(WRITE_PAGE + len(page).to_bytes(2, "big") + b"F" + page)
        return b""

    def read_flash(self, count: int) -> bytes:
        self.load_address()
        held = self.ask(READ_PAGE + count.to_bytes(2, "big") + b"F", count)
        # avrstk compares only the bytes of images. A corrupted erase, or a page at a wrong address, is noticed here
        if self.written is not None:
            begin = self.address * 2
            if any(byte != 0xFF for at, byte in enumerate(held, begin) if at not in self.written):
                raise Unsure
        return held

    def write_eeprom(self, body: bytes) -> bytes:
        """Writes a run of bytes inside a page of EEPROM by the instructions of the frame."""
        load, store = body[5], body[6]
        for at, byte in enumerate(body[10:], self.address):
            self.spi([load, at >> 8 & 255, at & 255, byte])
        self.spi([store, self.address >> 8 & 255, self.address & 255, 0])
        self.line.pause(WRITING)
        return b""

    def read_eeprom(self, body: bytes) -> bytes:
        places = range(self.address, self.address + int.from_bytes(body[1:3], "big"))
        return b"".join(self.spi([body[3], at >> 8 & 255, at & 255, 0]) for at in places) + DONE

    def do(self, body: bytes) -> bytes | None:
        """Executes a body, and returns what follows OK in the reply; None if the device can't do it."""
        if not self.is_in_step or body[0] == SIGN_ON:
            self.get_in_step()
        if body[0] == SIGN_ON:
            return NAME
        if body[0] == LOAD_ADDRESS:
            self.address = int.from_bytes(body[1:5], "big")
            return b""
        act = self.does.get(body[0])
        return act(body) if act else None

    def reply(self, body: bytes) -> bytes | None:
        """Returns the body of the reply; None if there is none."""
        try:
            more = self.do(body)
            return body[:1] + (FAILED if more is None else DONE + more)
        except Unsure:
            with contextlib.suppress(Unsure):
                self.get_in_step()
                return CORRUPT
        return None


class Bridge:
    """A file for avrstk's frames, in place of a device that speaks version 1. A thread writes the replies."""

    def __init__(self, device: SerialDevice, speeds: Sequence[int], is_bootloader: bool, wait: float) -> None:
        self.device, (self.inner, self.outer) = device, socket.socketpair()
        # when a byte of noise was sent, and whether avrstk's end is open
        self.talked, self.is_open = 0.0, True
        self.outer.setblocking(False)
        line, is_wanted = Line(device, wait), lambda: self.is_open
        self.programmer = Version1(line, speeds, is_bootloader, self.keep_alive, is_wanted)
        self.thread = threading.Thread(target=self.serve)
        self.thread.start()

    def keep_alive(self) -> None:
        """Sends a byte of noise each half second: avrstk repeats a command after a second without a byte."""
        if not self.is_open:
            raise OSError
        if time.monotonic() > self.talked + 0.5:
            self.inner.send(b"U")
            self.talked = time.monotonic()

    def serve(self) -> None:
        """Replies to frames until the other end is closed. Of several that wait, all but the last have timed out."""
        frames, piece = Frames(), b" "
        with contextlib.suppress(OSError), self.inner:
            while piece:
                piece = self.inner.recv(65_536)
                for frame in list(filter(is_frame, frames.pieces(piece)))[-1:]:
                    body = self.programmer.reply(frame[5:-1])
                    if body:
                        reply = frame[:2] + len(body).to_bytes(2, "big") + b"\x0e" + body
                        self.inner.sendall(reply + bytes([functools.reduce(operator.xor, reply)]))

    def fileno(self) -> int:
        return self.outer.fileno()

    def close(self) -> None:
        """Ends the thread, and then closes the device."""
        self.is_open = False
        self.outer.close()
        self.thread.join()
        self.device.close()
