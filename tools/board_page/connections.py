"""Connections of browsers. What comes is taken as it comes, and what goes is sent as it can be, so that one thread
serves all of them and none waits for another one."""
import re
import selectors
import socket
import time

MOST_HEAD, MOST_BODY = 16_384, 65_536  # bytes of a request
MOST_WAITING = 4_194_304  # bytes of events that a page has not taken
PIECE = 262_144
PATIENCE = 10  # seconds in which nothing moves, then a connection is closed; that of a page's events waits for ever
LENGTH = re.compile(rb"\r\ncontent-length:[ \t]*([0-9]{1,18})[ \t]*\r\n", re.I)


class Connection:
    """First a request is read, then the answer is written, and then it is waited until the other side is done.

    A connection of events stays: what comes is written to it, and it ends when the page is gone."""

    def __init__(self, selector, taken, ready):
        self.selector, self.socket, self.ready = selector, taken, ready
        self.received, self.waiting = bytearray(), bytearray()
        self.is_open, self.is_answered, self.is_stream = True, False, False
        taken.setblocking(False)
        selector.register(taken, selectors.EVENT_READ, self.move)
        self.moved = time.monotonic()

    def move(self, events):
        """Goes on where something can be read or written."""
        self.moved = time.monotonic()
        try:
            if events & selectors.EVENT_WRITE:
                self.write()
            if self.is_open and events & selectors.EVENT_READ:
                self.read()
        except BlockingIOError:
            pass
        except OSError:
            self.close()

    def read(self):
        piece = self.socket.recv(PIECE)
        if not piece:
            self.close()
        elif not self.is_answered:
            self.received += piece
            if self.is_whole():
                self.is_answered = True
                self.ready(self)

    def is_whole(self):
        """Whether the request is there, or so much of it that it is refused."""
        end = self.received.find(b"\r\n\r\n")
        if end < 0:
            return len(self.received) > MOST_HEAD
        found = LENGTH.search(self.received, 0, end + 2)
        length = int(found[1]) if found else 0
        return length > MOST_BODY or len(self.received) >= end + 4 + length

    def send(self, content):
        self.waiting += content
        if len(self.waiting) > MOST_WAITING and self.is_stream:
            self.close()
        elif self.is_open:
            self.selector.modify(self.socket, selectors.EVENT_READ | selectors.EVENT_WRITE, self.move)

    def write(self):
        del self.waiting[:self.socket.send(self.waiting[:PIECE])]
        if self.waiting:
            return
        self.selector.modify(self.socket, selectors.EVENT_READ, self.move)
        if not self.is_stream:
            self.socket.shutdown(socket.SHUT_WR)  # what still comes is read and dropped, so that the answer is not lost

    def is_late(self):
        return not self.is_stream and time.monotonic() - self.moved > PATIENCE

    def close(self):
        if self.is_open:
            self.is_open = False
            self.selector.unregister(self.socket)
            self.socket.close()
