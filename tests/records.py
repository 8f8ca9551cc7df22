"""A plain reader and a plain writer of record files, and random images, for the scripts beside this one."""

import random


def hex_of(runs, most=16):
    """Returns an Intel HEX file with these bytes at these addresses, in rows of at most `most` bytes."""
    rows, high = [], 0
    for at, held in [
        (at + place, held[place : place + most]) for at, held in runs for place in range(0, len(held), most)
    ]:
        if at >> 16 != high:
            high = at >> 16
            rows.append(bytes([2, 0, 0, 4, *high.to_bytes(2, "big")]))
        rows.append(bytes([len(held), *(at & 0xFFFF).to_bytes(2, "big"), 0]) + held)
    rows.append(bytes([0, 0, 0, 1]))
    return "".join(f":{(row + bytes([-sum(row) & 0xFF])).hex().upper()}\n" for row in rows).encode()


def image_of(text):
    """Returns the byte at each address of a file in either format. (srec_cat writes no end record without a start
    address.)"""
    image, base, wraps = {}, 0, False
    for line in text.decode().split():
        if line[0] == ":":
            record = bytes.fromhex(line[1:])
            assert sum(record) % 256 == 0 and record[0] + 5 == len(record), line
            offset, kind, body = record[1] * 256 + record[2], record[3], record[4:-1]
            if kind == 1:
                return image
            if kind in (2, 4):
                wraps = kind == 2
                base = int.from_bytes(body, "big") * (16 if wraps else 65_536)
            for at, byte in enumerate(body if kind == 0 else b"", offset):
                image[base + (at % 65_536 if wraps else at)] = byte
        else:
            kind, record = int(line[1]), bytes.fromhex(line[2:])
            assert sum(record) % 256 == 255 and record[0] + 1 == len(record), line
            if kind in (7, 8, 9):
                return image
            if kind in (1, 2, 3):
                image.update(enumerate(record[kind + 2 : -1], int.from_bytes(record[1 : kind + 2], "big")))
    return image


def runs_of(image, draw=None):
    """Returns the runs of an image: the address and the bytes of each. With `draw` rows end at random places, and
    within 64 kB."""
    runs = []
    for at in sorted(image):
        if runs and runs[-1][0] + len(runs[-1][1]) == at and not (draw and (at % 65_536 == 0 or draw.random() < 0.05)):
            runs[-1][1].append(image[at])
        else:
            runs.append((at, bytearray([image[at]])))
    return runs


def drawn(seed):
    """Returns an image with gaps, the size of a memory that holds it, and the file of its bytes in rows of any
    length."""
    draw = random.Random(seed)
    size = draw.choice([1, 7, 8, 9, 64, 512, 4096, 32_768, 65_537, 131_072, 262_144, (1 << 24) + 4096])
    image = {}
    for _ in range(draw.randint(1, 12)):
        start = draw.choice(
            [draw.randrange(size), 0, size - 1, max(min(size, 65_536) - draw.randint(1, 40), 0), max(size - 100, 0)]
        )
        for at in range(start, min(size, start + draw.choice([1, 2, 31, 32, 33, 64, 200, 700]))):
            image[at] = draw.randrange(256)
    return image, size, hex_of(runs_of(image, draw), 255)
