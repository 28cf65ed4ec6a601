"""Servers and peers that misbehave, and a balancer, each with threads of this process."""
import re
import socket
import struct
import threading
import time

from hard.wire import CANCEL, GSSENC, SSL, Late, Lost, Reader, error_frame, frame, reset, row_frames

FOREVER = 3600.0


class Listener:
    """Accepts connections at a port and serves each in a thread."""

    def __init__(self, port):
        self.port, self.streams, self.open = port, [], True
        self.listener = socket.socket()
        self.listener.setsockopt(socket.SOL_SOCKET, socket.SO_REUSEADDR, 1)
        self.listener.bind(("127.0.0.1", port))
        self.listener.listen(512)
        threading.Thread(target=self.accept, daemon=True).start()

    def accept(self):
        while self.open:
            try:
                stream, _ = self.listener.accept()
            except OSError:
                return
            stream.setsockopt(socket.IPPROTO_TCP, socket.TCP_NODELAY, 1)
            self.streams.append(stream)
            threading.Thread(target=self.run, args=(stream,), daemon=True).start()

    def run(self, stream):
        try:
            self.serve(stream)
        except (OSError, Lost, Late, struct.error):
            pass
        finally:
            stream.close()

    def serve(self, stream):
        raise NotImplementedError


class Backend:
    """A connection of a fake server on which a client is logged in."""

    def __init__(self, server, stream, reader, number):
        self.server, self.stream, self.reader, self.number = server, stream, reader, number
        self.key = server.make_key(number)
        self.running, self.interrupt, self.in_transaction = None, threading.Event(), False

    def send(self, data):
        self.stream.sendall(data)

    def ready(self):
        return frame(b"Z", b"T" if self.in_transaction else b"I")

    def greeting(self):
        status = frame(b"S", b"server_version\x0016\0")
        return frame(b"R", b"\0\0\0\0") + status + frame(b"K", self.key) + frame(b"Z", b"I")

    def read(self):
        return self.reader.read_frame(time.monotonic() + FOREVER)

    def answer(self, text):
        """The reply to a query. `select pg_sleep(N)` takes its time, until it is interrupted."""
        waits = re.fullmatch(r"select pg_sleep\(([0-9.]+)\)", text)
        if text in ("begin", "commit", "rollback"):
            self.in_transaction = text == "begin"
            return frame(b"C", text.upper().encode() + b"\0") + self.ready()
        if waits and self.interrupt.wait(float(waits.group(1))):
            return error_frame("57014", "canceling statement due to user request") + self.ready()
        quoted = re.fullmatch(r"select '(.*)'", text)
        value = quoted.group(1) if quoted else "" if waits else text
        return row_frames(value.encode())[:-6] + self.ready()

    def serve_query(self, text):
        self.interrupt.clear()
        self.running = text
        data = self.answer(text)
        self.running = None
        self.send(data)


class FakeServer(Listener):
    """A server that answers `select 'TEXT'` and `select pg_sleep(N)`, and can be cancelled.

    `key` is one key for all of its backends, `on_login` and `on_query` replace what a backend does
    then, `on_cancel` what comes before a cancel is acted on."""

    def __init__(self, port, key=None, on_login=None, on_query=None, on_cancel=None):
        self.key, self.on_login, self.on_query, self.on_cancel = key, on_login, on_query, on_cancel
        self.backends, self.asked, self.busy = [], [], 0
        self.cancels, self.handled = [], []  # their keys; when each came and was acted on
        self.lock = threading.Lock()
        super().__init__(port)

    def make_key(self, number):
        return self.key or struct.pack("!II", number, 7_000_000 + number)

    def serve(self, stream):
        reader = Reader(stream)
        while True:
            deadline = time.monotonic() + FOREVER
            (length,) = struct.unpack("!I", reader.take(4, deadline))
            body = reader.take(length - 4, deadline)
            (code,) = struct.unpack("!I", body[:4])
            if code == CANCEL:
                return self.serve_cancel(stream, body[4:])
            if code not in (SSL, GSSENC):
                return self.serve_login(stream, reader)
            stream.sendall(b"N")

    def serve_cancel(self, stream, key):
        came = time.monotonic()
        with self.lock:
            self.cancels.append(key)
            self.busy += 1
        try:
            if self.on_cancel and self.on_cancel(self, stream, key) is False:
                return
            for backend in self.backends:
                if backend.key == key and backend.running is not None:
                    backend.interrupt.set()
        finally:
            with self.lock:
                self.busy -= 1
                self.handled.append((came, time.monotonic()))

    def serve_login(self, stream, reader):
        with self.lock:
            backend = Backend(self, stream, reader, len(self.backends) + 1)
            self.backends.append(backend)
        if self.on_login:
            if self.on_login(backend) is False:
                return
        else:
            backend.send(backend.greeting())
        while True:
            kind, body = backend.read()
            if kind == b"X":
                return
            if kind == b"Q":
                text = body[:-1].decode("utf8", "replace")
                self.asked.append(text)
                if not (self.on_query and self.on_query(backend, text)):
                    backend.serve_query(text)

    def is_running(self, text):
        """Whether a client runs this query."""
        return any(backend.running == text for backend in self.backends)

    def stop_listening(self):
        """Accepts no more connections; those that are there go on."""
        self.open = False
        try:
            self.listener.shutdown(socket.SHUT_RDWR)
        except OSError:
            pass
        self.listener.close()

    def close(self):
        """Ends the listener and all connections."""
        self.stop_listening()
        for stream in self.streams:
            try:
                stream.shutdown(socket.SHUT_RDWR)
            except OSError:
                pass


def hold_for(seconds):
    """For `on_cancel`: a cancel is acted on after this time."""
    return lambda server, stream, key: time.sleep(seconds)


class DeadHost:
    """A port at which connections are never established: its queue is full, so the kernel drops
    the first packet of each further one, as if the host were gone."""

    def __init__(self, port):
        self.port, self.fillers = port, []
        self.listener = socket.socket()
        self.listener.setsockopt(socket.SOL_SOCKET, socket.SO_REUSEADDR, 1)
        self.listener.bind(("127.0.0.1", port))
        self.listener.listen(0)
        for _ in range(4):
            filler = socket.socket()
            filler.setblocking(False)
            filler.connect_ex(("127.0.0.1", port))
            self.fillers.append(filler)


class Balancer(Listener):
    """Passes connections on: cancel requests to one port, all others to another. An end is passed
    on as an end, a reset as a reset."""

    def __init__(self, port, cancels, others):
        self.targets = {True: cancels, False: others}
        super().__init__(port)

    def serve(self, stream):
        head = stream.recv(8, socket.MSG_PEEK | socket.MSG_WAITALL)
        target = self.targets[head[4:] == struct.pack("!I", CANCEL)]
        try:
            other = socket.create_connection(("127.0.0.1", target), 5)
        except OSError:
            reset(stream)
            return
        other.settimeout(None)
        other.setsockopt(socket.IPPROTO_TCP, socket.TCP_NODELAY, 1)
        back = threading.Thread(target=self.pass_on, args=(other, stream), daemon=True)
        back.start()
        self.pass_on(stream, other)
        back.join()
        other.close()

    @staticmethod
    def pass_on(source, sink):
        try:
            while data := source.recv(65536):
                sink.sendall(data)
            sink.shutdown(socket.SHUT_WR)
        except OSError:
            for stream in (source, sink):
                try:  # this wakes the other thread; closing the streams then sends a reset
                    stream.setsockopt(socket.SOL_SOCKET, socket.SO_LINGER, struct.pack("ii", 1, 0))
                    stream.shutdown(socket.SHUT_RD)
                except OSError:
                    pass
