"""The server of the page: one thread, on 127.0.0.1 alone, for all connections and the one run of the program."""
import http.server
import json
import secrets
import selectors
import socketserver
import time
import traceback

from .answers import Answers
from .connections import Connection
from .desk import Desk

HOST = "127.0.0.1"
MOST_CONNECTIONS = 100
BUSY, IDLE = 0.02, 0.25  # seconds between two looks at a run, and at what else there is
GONE = 6  # seconds without a page until its question ends; a page that is loaded anew is back before


class Server(http.server.HTTPServer):
    def __init__(self, port, start):
        super().__init__((HOST, port), Answers)
        self.start, self.token, self.host = start, secrets.token_urlsafe(24), f"{HOST}:{self.server_port}"
        self.desk, self.selector, self.connections = Desk(self.tell), selectors.DefaultSelector(), []
        self.seen, self.is_ended = time.monotonic(), False

    def server_bind(self):
        """Without the name of this machine, for which HTTPServer asks, and which may take long."""
        socketserver.TCPServer.server_bind(self)
        self.server_name, self.server_port = self.server_address

    @property
    def address(self):
        return f"http://{self.host}/{self.token}/"

    def run(self):
        self.socket.setblocking(False)
        self.selector.register(self.socket, selectors.EVENT_READ, self.take)
        try:
            while not self.is_ended:
                for key, events in self.selector.select(BUSY if self.desk.is_asking() else IDLE):
                    key.data(events)
                self.tend()
        finally:
            self.close()

    def end(self, *_):
        """Called where a signal asks for the end."""
        self.is_ended = True

    def take(self, _):
        try:
            taken, _ = self.socket.accept()
        except OSError:
            return  # it is gone again
        if len(self.connections) < MOST_CONNECTIONS:
            self.connections.append(Connection(self.selector, taken, self.answer))
        else:
            taken.close()

    def answer(self, connection):
        try:
            self.RequestHandlerClass(connection, None, self)
        except Exception:  # a fault here ends this request alone
            traceback.print_exc()
            connection.close()

    def tend(self):
        """What is done again and again: connections that are over go, and so does a question whose page is gone."""
        for connection in self.connections:
            if connection.is_late():
                connection.close()
        self.connections = [connection for connection in self.connections if connection.is_open]
        if any(connection.is_stream for connection in self.connections):
            self.seen = time.monotonic()
        if time.monotonic() - self.seen > GONE:
            self.desk.stop("the page was gone")
        self.desk.tend()

    def tell(self):
        """Tells all pages what is known of the question."""
        for connection in self.connections:
            if connection.is_stream:
                connection.send(self.event())

    def event(self):
        return b"data: " + json.dumps(self.desk.shown()).encode() + b"\n\n"

    def close(self):
        self.desk.close()
        for connection in self.connections:
            connection.close()
        self.selector.close()
        self.server_close()
