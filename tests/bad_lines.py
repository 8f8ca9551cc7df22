#!/usr/bin/env python3
"""Makes 150 runs of the built program against a served programmer, over links that lose, cut, delay or change frames,
and some 3,000 in which the programmer restarts once. The random generators have fixed seeds.

Not proved: No theorem says that sockets between two processes are such a link, or how often a run over them succeeds.

    tests/bad_lines.py [CASE ..]    needs a built program (program.py)

    cuts           all bytes arrive at once, in pieces: each run succeeds
    stalls         in 5 % of the exchanges a frame or its rest comes late: just before the next frame of that direction
    lags           from some exchange on, each reply comes late: most runs end there
    losses of N %  1, 5 and 20 % of the exchanges fail: a frame is lost, changed or late
    restarts       after each frame of 200 plans in turn the programmer restarts, and nothing else goes wrong

Each run is checked against what is proved of a link that forges no frame. With status 0 the chip has what was written,
and the messages are those of `emu:`. With any status the chip is the result of a prefix of the plan's writes: the
erase, pages of flash in order, pages of EEPROM, the fuse. The messages before an error are a prefix of those of `emu:`.
A run in which changed bytes became a valid frame by chance is counted apart, and its chip isn't judged. If a programmer
restarts, a run over its link ends with status 0 only if nothing but to sign on had been sent, or nothing but to leave
was left to send."""

import random
import sys
import time
from concurrent.futures import ThreadPoolExecutor
from dataclasses import dataclass
from functools import partial

from cases import attempts, check, check_equal, named, pauses, run_cases, sampled
from line import BadLine, Link, frame_size, frames_of
from model import trimmed
from program import CHIP_FILE, Room, Server, xor

AT_ONCE = 24
RATES = [20, 5, 1]
FLASH, EEPROM = 32_768, 1_024
FLASH_PAGE, EEPROM_PAGE = 128, 4
LFUSE = FLASH + EEPROM
SIGN_ON, LEAVE = 0x01, 0x11
STALLS = ["late command", "cut command", "late answer", "cut answer"]
LOSSES = ["lost command", "spoiled command", "lost answer", "spoiled answer", "late answer"]


class Plan:
    """Random images, and a chip full of other bytes. It has no lock, and an erase clears its EEPROM too."""

    def __init__(self, seed, has_flash=True):
        draw = random.Random(f"plan {seed}")
        # no image ends with FF, because FF at the end of a flash image is cut off
        self.flash = draw.randbytes(draw.randint(1, 260)) + b"\x00" if has_flash else b""
        self.eeprom = draw.randbytes(draw.randint(1, 14))
        self.chip = draw.randbytes(FLASH + EEPROM) + b"\x62\xd9\xff\xff"
        self.page_writes = list(self.states())
        updates = ["flash:w:flash.bin:r"] * has_flash + ["eeprom:w:eeprom.bin:r", "lfuse:w:0xE2:m"]
        self.words = ["-p", "m328p", *(word for update in updates for word in ("-U", update))]
        self.messages = self.run(Room(), "emu:chip.bin", "chip.bin")[1]

    def states(self):
        """Yields the chip at first, and after the erase and each page write."""
        chip = bytearray(self.chip)
        yield bytes(chip)
        if self.flash:
            chip[:LFUSE] = b"\xff" * LFUSE
            yield bytes(chip)
        for base, page, image in [(0, FLASH_PAGE, self.flash), (FLASH, EEPROM_PAGE, self.eeprom)]:
            for place in range(0, len(image), page):
                piece = image[place : place + page]
                chip[base + place : base + place + len(piece)] = piece
                yield bytes(chip)
        chip[LFUSE] = 0xE2
        yield bytes(chip)

    def prepare(self, room, chip_file):
        for name, content in [("flash.bin", self.flash), ("eeprom.bin", self.eeprom), (chip_file, self.chip)]:
            room.put(name, content)

    def run(self, room, port, chip_file):
        """Returns the status and the lines of a run of this plan to a chip in this file."""
        self.prepare(room, chip_file)
        status, _, messages = room.run([*self.words, "-P", port])
        return status, messages.splitlines()


class Direction:
    """What goes to one side of a link, in pieces of at most `most` bytes: what arrived, and the places of the frames
    that arrived unchanged. `held` comes just before the next frame."""

    def __init__(self, draw, most):
        self.draw, self.most = draw, most
        self.arrived, self.whole, self.held = b"", set(), b""

    def send(self, sink, frame, fate):
        if fate == "lost":
            return
        now = self.held + (self.spoiled(frame) if fate == "spoiled" else frame)
        if fate != "spoiled":
            self.whole.add(len(self.arrived) + len(self.held))
        kept = {"late": len(self.held), "cut": len(now) - self.draw.randrange(1, len(frame))}.get(fate, len(now))
        self.held = now[kept:]
        self.arrived += now[:kept]
        now = now[:kept]
        while now:
            size = self.draw.randint(1, self.most)
            sink.sendall(now[:size])
            now = now[size:]

    def spoiled(self, frame):
        """Returns the frame with one to three bytes changed."""
        changed = bytearray(frame)
        for at in self.draw.sample(range(len(frame)), self.draw.randint(1, 3)):
            changed[at] ^= self.draw.randrange(1, 256)
        return bytes(changed)

    def has_forged(self):
        """Returns whether a valid frame begins at a place where no frame arrived unchanged."""
        begins = [at for at in range(len(self.arrived)) if self.arrived[at] == 0x1B and at not in self.whole]
        return any(is_valid(self.arrived[at : at + frame_size(self.arrived[at:])]) for at in begins)


def is_valid(frame):
    return frame[:1] == b"\x1b" and frame[4:5] == b"\x0e" and len(frame) == frame_size(frame) and xor(frame) == 0


class BadLink(Link):
    """A link to a programmer that the tool serves. `fate_of` gives the fate of each exchange, from 1."""

    def __init__(self, room, seed, most, fate_of):
        draw = random.Random(f"link {seed}")
        self.up, self.down = (Direction(random.Random(draw.random()), most) for _ in range(2))
        # the fate of the reply to each sequence number, and when its command was sent
        self.fate_of, self.fates, self.sent = fate_of, {}, {}
        super().__init__(Server(room))

    def there(self, caller, programmer):
        for number, frame in enumerate(frames_of(caller), 1):
            fate, _, of = self.fate_of(number).partition(" ")
            self.fates[frame[1]] = fate if of == "answer" else ""
            if of != "command":
                self.sent[frame[1]] = time.monotonic()
            self.up.send(programmer, frame, fate if of == "command" else "")

    def back(self, programmer, caller):
        for frame in frames_of(programmer):
            now = time.monotonic()
            pauses.note(now - self.sent.pop(frame[1], now))
            self.down.send(caller, frame, self.fates.get(frame[1], ""))

    def end(self):
        """Returns whether a frame was forged, and the outcome of the server, once it has saved its chip."""
        super().end()
        return self.up.has_forged() or self.down.has_forged(), self.served


def run(plan, seed, most, fate_of):
    """Makes a run over such a link. Returns its status and lines, whether a frame was forged, the server's outcome, and
    the chip."""
    room = Room()
    plan.prepare(room, "served.bin")
    link = BadLink(room, seed, most, fate_of)
    status, messages = plan.run(room, f"net:127.0.0.1:{link.port}", "served.bin")
    return status, messages, *link.end(), room.read("served.bin")


def holds(name, plan, status, messages, is_forged, served, chip):
    """Checks a run and its server by what is proved."""
    check(f"{name}: the server", served == (0, b"", b""), served)
    check(f"{name}: the chip is whole", chip is not None and len(chip) == CHIP_FILE)
    if status == 0:
        check(f"{name}: the chip has what was written", is_forged or chip == plan.page_writes[-1])
        check_equal(f"{name}: the messages", messages, plan.messages)
    else:
        check(f"{name}: the chip is as some first page writes leave it", is_forged or chip in plan.page_writes)
        front = messages[:-1]
        check(f"{name}: the messages begin so", status == 1 and front == plan.messages[: len(front)], messages)
        check(f"{name}: and end with an error", messages[-1:] and messages[-1].startswith(b"avrstk: error: "), messages)


def drawn(rate, kinds):
    """With a given probability a frame of an exchange comes late, or is cut, lost or changed. Returns what draws the
    fates of a run."""
    return lambda draw: lambda number: draw.choice(kinds) if draw.random() < rate / 100 else ""


def lagging(draw):
    """From an exchange on that is drawn at random, each reply comes late. Returns the fates of a run."""
    first = draw.randint(1, 40)
    return lambda number: "late answer" if number >= first else ""


@dataclass
class Kind:
    """Runs over one kind of link: their number, the most bytes of a piece, what draws the fates of exchanges, and how
    many succeed at least and at most, if that is known."""

    count: int
    pieces: list
    fates: object
    good: tuple = ()
    has_flash: bool = True


KINDS = {
    "cuts": Kind(45, [1, 7, 40, 300], drawn(0, LOSSES), (45, 45)),
    "stalls": Kind(42, [3, 20, 300], drawn(5, STALLS), (34, 42), has_flash=False),
    "lags": Kind(15, [300], lagging, (0, 7)),
    **{f"losses of {rate} %": Kind(16, [300], drawn(rate, LOSSES), has_flash=False) for rate in RATES},
}


def runs_over(name, kind):
    """Makes all runs over one kind of link."""
    # (a pause can make a run fail, which matters only if runs must succeed)
    may_fail = not kind.good or kind.good[0] == 0

    def all_outcomes(link):
        return attempts(lambda: run(*link), lambda outcome: outcome[0] == 0 or may_fail)

    plans = [Plan(seed, kind.has_flash) for seed in range(1 if "losses" in name else 10)]
    with ThreadPoolExecutor(AT_ONCE) as pool:
        draws = [random.Random(f"{name} {number}") for number in range(kind.count)]
        links = [
            (plans[number % len(plans)], f"{name} {number}", draw.choice(kind.pieces), kind.fates(draw))
            for number, draw in enumerate(draws)
        ]
        tried = list(pool.map(all_outcomes, links))
    for (plan, label, *_), outcomes in zip(links, tried):
        for outcome in outcomes:
            holds(label, plan, *outcome)
    found = [outcomes[-1] for outcomes in tried]
    good, forged = (sum(flags) for flags in zip(*((outcome[0] == 0, outcome[2]) for outcome in found)))
    SUCCEEDED[name] = good
    check(f"{name}: the chips of most runs are judged", forged <= (kind.count // 4 if "losses" in name else 0), forged)
    print(
        f"{name}: {good} of {kind.count} runs succeeded; in {forged} runs changed bytes became a valid frame",
        flush=True,
    )


# a part so small that few frames read all of it
SMALL = b"""[parts.small]
signature = "1E9007"
flash_size = 256
flash_page = 32
eeprom_size = 16
eeprom_page = 4
eesave_bit = 3
"""
MEMORIES = {"flash": slice(0, 256), "eeprom": slice(256, 272), "lfuse": slice(272, 273)}
# the part of its chip that an erase makes FF, if EESAVE is 1
ERASED = 272


class SmallPlan:
    """A plan that is drawn for the small part: it writes, compares and reads memories. `given` has its files, `read`
    the files that it reads, and `chip` and `left` the chip before and after it."""

    def __init__(self, seed):
        draw = random.Random(f"small plan {seed}")
        switch = draw.choice([[], [], [], ["-V"], ["-n"], ["-e"]])
        drawn = [(draw.choice([*MEMORIES]), draw.choice("wwvr")) for _ in range(draw.randint(1, 4))]
        self.chip, self.given, self.read = draw.randbytes(ERASED) + b"\x62\xd9\xff\xff", {"small.toml": SMALL}, {}
        self.words, left, is_dry = (
            ["-p", "small", "--parts", "small.toml", *switch],
            bytearray(self.chip),
            "-n" in switch,
        )
        if not is_dry and ("-e" in switch or ("flash", "w") in drawn):
            left[:ERASED] = b"\xff" * ERASED
        for number, (memory, operation) in enumerate(drawn):
            place, name = MEMORIES[memory], f"{number}.bin"
            if operation == "w" and memory == "flash" and "flash:w" in " ".join(self.words):
                # (flash that was written takes no other bytes without an erase)
                operation = "v"
            if operation == "r":
                self.read[name] = trimmed(bytes(left[place])) if memory == "flash" else bytes(left[place])
            else:
                size = draw.randint(1, place.stop - place.start)
                # no image ends with FF, because FF at the end of a flash image is cut off
                image = draw.randbytes(size - 1) + b"\x00" if operation == "w" else bytes(left[place])[:size]
                if operation == "w" and not is_dry:
                    left[place.start : place.start + size] = image
                self.given[name] = image
            self.words += ["-U", f"{memory}:{operation}:{name}:r"]
        self.left = bytes(left)

    def run(self, fates):
        """Makes a run over a link with these fates. Returns its status and lines, the chip and the files that it read,
        and the bodies of the frames that it sent."""
        room = Room()
        for name, content in (self.given | {"served.bin": self.chip}).items():
            room.put(name, content)
        link = BadLine(room, fates, "small", ["--parts", "small.toml"])
        status, _, messages = room.run([*self.words, "-P", f"net:127.0.0.1:{link.port}"])
        sent = link.end()
        return (
            status,
            messages.splitlines(),
            room.read("served.bin"),
            {name: room.read(name) for name in self.read},
            [request[5:-1] for request in sent],
        )


def may_succeed(before, after, dialog):
    """Returns whether a run may succeed in which the programmer restarts after it has received the frames `before`:
    only to sign on had been sent, or only to leave was left of its dialog. (These are bodies of frames; a frame whose
    reply comes late is sent again, so frames aren't counted.)"""
    signs_on = all(body[0] == SIGN_ON for body in before)
    leaves = all(body[0] == LEAVE for body in after) and all(body in before or body[0] == LEAVE for body in dialog)
    return signs_on or leaves


def undisturbed(plan):
    """Makes a run of a plan without a restart, and returns its outcome."""
    return attempts(lambda: plan.run({}), lambda outcome: outcome[0] == 0)[-1]


def restarted(case):
    """Makes a run of a plan in which the programmer restarts after a frame, and returns its outcome."""
    plan, at, _ = case
    return plan.run({at: "restart"})


def restarts():
    """The programmer restarts after each frame of a plan in turn, also after its reply to the last one."""
    plans = [SmallPlan(seed) for seed in range(200)]
    with ThreadPoolExecutor(AT_ONCE) as pool:
        good = list(pool.map(undisturbed, plans))
        for number, (plan, found) in enumerate(zip(plans, good)):
            wanted = (0, found[1], plan.left, plan.read, found[4])
            check_equal(f"plan {number}, {plan.words}: without a restart", found, wanted)
        tried = [(plan, at, found) for plan, found in zip(plans, good) for at in range(1, len(found[4]) + 1)]
        tried = sampled("restarts", 150, tried)
        found = list(pool.map(restarted, tried))
    for (plan, at, good), (status, messages, *held, sent) in zip(tried, found):
        name = f"{plan.words}: a restart after frame {at} of {len(good[4])}"
        if status == 0:
            check_equal(name, (messages, *held), good[1:4])
            check(f"{name}: status 0", may_succeed(sent[:at], sent[at:], good[4]), sent)
        else:
            check(name, status == 1 and messages[:-1] == good[1][: len(messages) - 1], messages)
    ended_well = sum(outcome[0] == 0 for outcome in found)
    check("some runs with a restart succeed, and some don't", 0 < ended_well < len(found), ended_well)
    print(f"restarts: {ended_well} of {len(found)} runs succeeded", flush=True)


def as_many_succeed():
    """Checks how many runs over links that cut frames, stall or lag succeeded. A run that
    failed was made again if a pause was measured meanwhile."""
    for name, kind in ((name, kind) for name, kind in KINDS.items() if kind.good):
        if name not in SUCCEEDED:
            runs_over(name, kind)
        least, most = kind.good
        check(f"{name}: from {least} to {most} runs", least <= SUCCEEDED[name] <= most, SUCCEEDED)


SUCCEEDED = {}
CASES = {name: partial(runs_over, name, kind) for name, kind in KINDS.items()} | named(restarts, as_many_succeed)

if __name__ == "__main__":
    sys.exit(run_cases(CASES, __doc__, timed=["as_many_succeed"]))
