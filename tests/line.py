"""Programmers at a TCP port of 127.0.0.1: one that sends a prefix of a session's replies, and links to an emulated
one."""

import socket
import struct
import threading
import time

from cases import PATIENCE, pauses
from program import Server


def frame_size(begin):
    """Returns the length of a frame. Its third and fourth bytes are the length of its body."""
    return 6 + int.from_bytes(begin[2:4], "big")


def frames_in(sent):
    """Returns the number of frames in these bytes."""
    count = 0
    while sent:
        count, sent = count + 1, sent[frame_size(sent) :]
    return count


def frames_of(stream):
    """Yields the frames of a connection until its end."""
    held = b""
    while True:
        while len(held) >= max(6, frame_size(held)):
            size = frame_size(held)
            yield held[:size]
            held = held[size:]
        try:
            piece = stream.recv(4096)
        except OSError:
            return
        if not piece:
            return
        held += piece


class Peer:
    """Serves one caller at a port, in its own thread."""

    host = "127.0.0.1"

    def __init__(self):
        self.listener = socket.create_server((self.host, 0))
        self.listener.settimeout(PATIENCE)
        self.port = self.listener.getsockname()[1]
        self.received = []
        self.thread = threading.Thread(target=self.meet, daemon=True)
        self.thread.start()

    def meet(self):
        try:
            caller, _ = self.listener.accept()
        except OSError:
            return
        with caller:
            caller.settimeout(PATIENCE)
            caller.setsockopt(socket.IPPROTO_TCP, socket.TCP_NODELAY, 1)
            self.serve(caller)

    def end(self):
        """Returns what was received, once the caller has gone."""
        # if there was no caller, this is one that sends nothing; otherwise it isn't accepted
        socket.create_connection((self.host, self.port), PATIENCE).close()
        self.thread.join()
        self.listener.close()
        return self.received


class Link(Peer):
    """A link to an emulated programmer: `there` and `back` bring what a caller and the programmer send."""

    def __init__(self, server):
        self.server = server
        self.served = None
        super().__init__()

    def serve(self, caller):
        with self.server.call() as programmer:
            programmer.setsockopt(socket.IPPROTO_TCP, socket.TCP_NODELAY, 1)
            replies = threading.Thread(target=self.bring, args=(self.back, programmer, caller), daemon=True)
            replies.start()
            self.bring(self.there, caller, programmer)
            replies.join()

    def bring(self, way, giver, taker):
        try:
            way(giver, taker)
            taker.shutdown(socket.SHUT_WR)
        except OSError:
            # (the taker has gone)
            pass

    def end(self):
        """Returns what was received, once the programmer has ended; `served` has its outcome."""
        received = super().end()
        self.served = self.server.end()
        return received


class FrontOfReplies(Peer):
    """Sends the first bytes of a session's replies, and then closes or resets the connection."""

    def __init__(self, answers, resets):
        self.answers = answers
        self.resets = resets
        super().__init__()

    def serve(self, caller):
        caller.sendall(self.answers)
        if self.resets:
            caller.setsockopt(socket.SOL_SOCKET, socket.SO_LINGER, struct.pack("ii", 1, 0))
            return
        caller.shutdown(socket.SHUT_WR)
        self.received.extend(frames_of(caller))


class BadLine(Link):
    """A link to a programmer that the tool serves. `fates` maps frame numbers, from 1, to what goes wrong: a `lost
    command` never arrives, a `lost answer` drops the reply, and a `late answer` sends it just before the next reply. At
    a `restart` the programmer restarts after its reply: it ends, and is served again with the chip that it saved."""

    def __init__(self, room, fates, part="m328p", words=()):
        self.fates, self.room, self.part, self.words = fates, room, part, words
        super().__init__(self.start())

    def start(self):
        """Returns a new programmer, with the chip that the one before saved."""
        return Server(self.room, part=self.part, words=self.words)

    def serve(self, caller):
        frames = frames_of(caller)
        try:
            while self.restarts(frames, caller):
                self.server.end()
                self.server = self.start()
        except BrokenPipeError:
            # (the caller has gone, and its last attempts were replied to late)
            pass

    def restarts(self, frames, caller):
        """Brings frames to the programmer, and its replies to the caller. Returns whether the programmer restarts."""
        with self.server.call() as programmer:
            answers, late = frames_of(programmer), b""
            for frame in frames:
                self.received.append(frame)
                fate = self.fates.get(len(self.received), "good")
                if fate == "lost command":
                    continue
                programmer.sendall(frame)
                begun = time.monotonic()
                answer = next(answers)
                pauses.note(time.monotonic() - begun)
                if fate == "late answer":
                    late += answer
                elif fate != "lost answer":
                    caller.sendall(late + answer)
                    late = b""
                if fate == "restart":
                    return True
        return False
