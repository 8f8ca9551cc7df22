"""A model of a disk: the chips that a power cut may leave after calls of the system, which strace recorded."""

import itertools
import os
import re
from collections import Counter, namedtuple

# a call of the system: its name, which of that name it is, its arguments and its result
Call = namedtuple("Call", "name number words result")

# calls that change no name and no byte
HARMLESS = {"read", "close", "statx", "stat", "lstat", "fstat", "newfstatat", "readlink", "flock", "fchmod", "fchown"}


def calls_in(record, folder):
    """Returns the calls in strace's record for the chip, its folder or a file beside it."""
    counts, calls = Counter(), []
    for name, words, result, made in re.findall(r"^(\w+)\((.*)\) += (-?\d+)(.*)", record, re.M):
        counts[name] += 1
        is_there = (
            re.match(rf"\d+<{folder}[/>]", words)
            if words[0].isdigit()
            else "chip.bin" in words or made == f"<{folder}>"
        )
        if name != "execve" and is_there:
            calls.append(Call(name, counts[name], words, int(result)))
    return calls


class File:
    """The bytes of a file as they are, and as they were when they were synced."""

    def __init__(self, content=b""):
        self.content = self.synced = content

    def left(self):
        """Returns what a power cut may leave: what was synced, what is there now, or parts of them and zeros."""
        now, old, half = self.content, self.synced, len(self.content) // 2
        return (
            {now}
            if now == old
            else {now, old, b"", now[:half], now[:half] + old[half:], now[:half] + bytes(len(now) - half)}
        )


def named(names, changes):
    """Returns the names after these changes: each names a file anew, or removes a name."""
    for name, file in changes:
        names = {kept: other for kept, other in names.items() if kept != name} | ({name: file} if file else {})
    return names


class Disk:
    """The files as calls leave them. Of the changes of names since the folder was synced, a power cut keeps any. Syncs
    of the path `unsynced` are passed over."""

    def __init__(self, chip, unsynced):
        self.names = self.synced = {} if chip is None else {"chip.bin": File(chip)}
        self.changes, self.unsynced = [], unsynced

    def name(self, *changes):
        """Names files, or removes names, in one step."""
        self.changes.append(changes)
        self.names = named(self.names, changes)

    def replay(self, call):
        """Does what a call did."""
        path = (re.findall(r"^\d+<(.*?)>", call.words) or [None])[0]
        names = [os.path.basename(quoted) for quoted in re.findall(r'"(.*?)"', call.words)]
        file = self.names.get(os.path.basename(path) if path else names[0])
        if call.result < 0 or call.name in HARMLESS:
            return
        if call.name == "openat":
            if not file and "O_CREAT" in call.words:
                self.name((names[0], File()))
            elif "O_TRUNC" in call.words:
                file.content = b""
        elif call.name == "write":
            data = re.search(r'"(.*)"', call.words)[1].encode().decode("unicode_escape").encode("latin1")
            file.content += data[: call.result]
        elif call.name == "fsync" and path == self.unsynced:
            pass
        elif call.name == "fsync" and file:
            file.synced = file.content
        elif call.name == "fsync":
            self.synced, self.changes = self.names, []
        elif call.name in ["link", "rename", "unlink"]:
            self.name(*[(names[0], None)] * (call.name != "link"), *((other, file) for other in names[1:]))
        else:
            raise AssertionError(f"a call that isn't known: {call}")

    def chips(self):
        """Returns each chip that a power cut may leave; None for no file."""
        all_kept = itertools.product([False, True], repeat=len(self.changes))
        changes = [itertools.chain(*itertools.compress(self.changes, kept)) for kept in all_kept]
        files = {named(self.synced, change).get("chip.bin") for change in changes}
        return {chip for file in files for chip in (file.left() if file else [None])}


def power_cuts(calls, chip, unsynced=None):
    """Returns the chips that power cuts may leave before or after any of these calls, those that they may leave at the
    end, and the chip at the end. The calls begin with this chip."""
    disk = Disk(chip, unsynced)
    seen = disk.chips()
    for call in calls:
        disk.replay(call)
        seen |= disk.chips()
    return seen, disk.chips(), disk.names["chip.bin"].content if "chip.bin" in disk.names else None
