#!/usr/bin/env python3
"""A link between a tool and a programmer that loses one frame.

    line.py FROM TO COMMAND NTH     listens at port FROM of 127.0.0.1, serves one caller, and passes everything on to
                                    the programmer at port TO, except the NTH frame with COMMAND (hexadecimal, for
                                    example 13)

A frame of STK500v2 is 1B, a sequence number, the length of its body in two bytes, 0E, the body and the XOR of all that;
the body of a command begins with its number.
"""

import socket
import sys
import threading


def frames_of(stream):
    """Yields the frames of a connection until its end."""
    held = b""
    while True:
        while len(held) >= 5 and len(held) >= (size := 6 + int.from_bytes(held[2:4], "big")):
            yield held[:size]
            held = held[size:]
        piece = stream.recv(4096)
        if not piece:
            return
        held += piece


def pass_on(caller, programmer, command, nth):
    """Passes on all of the caller's frames except one."""
    seen = 0
    for frame in frames_of(caller):
        seen += frame[5] == command
        if (frame[5], seen) != (command, nth):
            programmer.sendall(frame)
    programmer.shutdown(socket.SHUT_WR)


def pass_back(programmer, caller):
    """Passes back each reply unchanged."""
    while answer := programmer.recv(4096):
        caller.sendall(answer)


def main():
    if len(sys.argv) != 5:
        sys.exit(__doc__)
    port, to, command, nth = int(sys.argv[1]), int(sys.argv[2]), int(sys.argv[3], 16), int(sys.argv[4])
    with socket.create_server(("127.0.0.1", port)) as listener:
        caller, _ = listener.accept()
    with caller, socket.create_connection(("127.0.0.1", to)) as programmer:
        for side in (caller, programmer):
            side.setsockopt(socket.IPPROTO_TCP, socket.TCP_NODELAY, 1)
        back = threading.Thread(target=pass_back, args=(programmer, caller))
        back.start()
        pass_on(caller, programmer, command, nth)
        back.join()


if __name__ == "__main__":
    main()
