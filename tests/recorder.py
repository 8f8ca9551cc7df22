#!/usr/bin/python3
"""A disk whose writes and flushes are recorded in order, for tests/power.py: a FUSE file system with the file `disk`,
which a loop device takes as its disk, and the file `mark`, which takes notes between them.

    tests/recorder.py FOLDER IMAGE RECORD     mounts it at a folder, over an image, until standard input ends

The record has an entry for each: W (a write), F (a flush) or M (a mark), then the place, the length and the bytes. The
module is Debian's python3-fusepy, so this runs with Debian's Python."""

import errno
import os
import stat
import struct
import sys
import threading

import fusepy

HEAD = struct.Struct("<cQI")


class Recorder(fusepy.Operations):
    """The two files. Everything is called in one thread."""

    def __init__(self, image, record):
        self.image, self.record = os.open(image, os.O_RDWR), open(record, "wb")

    def note(self, kind, place=0, content=b""):
        self.record.write(HEAD.pack(kind, place, len(content)) + content)
        self.record.flush()

    def getattr(self, path, fh=None):
        if path == "/":
            return {"st_mode": stat.S_IFDIR | 0o700, "st_nlink": 2}
        if path not in ["/disk", "/mark"]:
            raise fusepy.FuseOSError(errno.ENOENT)
        size = os.fstat(self.image).st_size if path == "/disk" else 0
        return {"st_mode": stat.S_IFREG | 0o600, "st_nlink": 1, "st_size": size}

    def open(self, path, flags):
        return 0

    def truncate(self, path, length, fh=None):
        pass

    def read(self, path, size, offset, fh):
        return os.pread(self.image, size, offset)

    def write(self, path, content, offset, fh):
        if path == "/disk":
            os.pwrite(self.image, content, offset)
        self.note(b"W" if path == "/disk" else b"M", offset, content)
        return len(content)

    def fsync(self, path, datasync, fh):
        self.note(b"F")


def ends_with_input():
    sys.stdin.read()
    os._exit(0)


if __name__ == "__main__":
    folder, image, record = sys.argv[1:]
    threading.Thread(target=ends_with_input, daemon=True).start()
    fusepy.FUSE(Recorder(image, record), folder, foreground=True, nothreads=True, big_writes=True, max_write=131072)
