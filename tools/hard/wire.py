"""PostgreSQL's protocol, version 3, over a socket: a client, and the messages that both sides send."""
import random
import select
import socket
import struct
import threading
import time

STARTUP, STARTUP_LONG_KEY = 196608, 196610
CANCEL, SSL, GSSENC = 80877102, 80877103, 80877104
LIMIT = 1_048_576  # the largest length of a message


class Lost(Exception):
    """The connection ended or was reset."""


class Late(Exception):
    """Nothing came within the time limit."""


class Refused(Exception):
    """An ErrorResponse came."""

    def __init__(self, body):
        fields = {part[:1]: part[1:].decode("utf8", "replace") for part in body.split(b"\0") if part}
        self.code, self.message = fields.get(b"C", "?"), fields.get(b"M", "?")
        self.fatal = fields.get(b"S") == "FATAL"
        super().__init__(f"{fields.get(b'S', '?')} {self.code} {self.message}")


def frame(kind, body=b""):
    return kind + struct.pack("!I", 4 + len(body)) + body


def query_frame(text):
    return frame(b"Q", text.encode() + b"\0")


def startup(database, user="ann", code=STARTUP, parameters=()):
    words = ["user", user, "database", database, *(word for pair in parameters for word in pair), "", ""]
    body = struct.pack("!I", code) + "\0".join(words).encode()
    return struct.pack("!I", 4 + len(body)) + body


def cancel_request(key):
    return struct.pack("!II", 8 + len(key), CANCEL) + key


def make_key(peer, slot, secret, hops=3):
    return struct.pack("!Q", peer << 50 | slot << 34 | secret << 2 | hops)


def error_frame(code, message, severity="ERROR"):
    text = f"S{severity}\0V{severity}\0C{code}\0M{message}\0\0"
    return frame(b"E", text.encode())


def row_frames(*values):
    """The answer to a query: one column, a row for each value, and ReadyForQuery."""
    column = b"\0\1" + b"value\0" + struct.pack("!IhIhih", 0, 0, 25, -1, -1, 0)
    rows = b"".join(frame(b"D", struct.pack("!hi", 1, len(value)) + value) for value in values)
    return frame(b"T", column) + rows + frame(b"C", b"SELECT %d\0" % len(values)) + frame(b"Z", b"I")


def columns(body):
    """The values of a DataRow."""
    values, at = [], 2
    for _ in range(struct.unpack("!H", body[:2])[0]):
        (size,) = struct.unpack("!i", body[at : at + 4])
        at += 4
        values.append(None if size < 0 else body[at : at + size].decode("utf8", "replace"))
        at += max(size, 0)
    return tuple(values)


def connect(port, timeout=10.0, source="127.0.0.1"):
    """A connection from an address of this machine."""
    try:
        stream = socket.create_connection(("127.0.0.1", port), timeout, (source, 0))
    except TimeoutError as error:
        raise Late("connecting") from error
    except OSError as error:
        raise Lost(str(error)) from error
    stream.setsockopt(socket.IPPROTO_TCP, socket.TCP_NODELAY, 1)
    return stream


def reset(stream):
    """Closes a connection with a reset, as one that breaks."""
    try:
        stream.setsockopt(socket.SOL_SOCKET, socket.SO_LINGER, struct.pack("ii", 1, 0))
    except OSError:
        pass
    stream.close()


class Reader:
    """Reads messages from a socket; each call is bounded in time."""

    def __init__(self, stream):
        self.stream, self.rest = stream, bytearray()

    def fill(self, deadline):
        left = deadline - time.monotonic()
        if left <= 0:
            raise Late("no time left")
        try:
            self.stream.settimeout(left)
            more = self.stream.recv(262144)
        except TimeoutError as error:
            raise Late("nothing came") from error
        except OSError as error:
            raise Lost("reset" if isinstance(error, ConnectionResetError) else str(error)) from error
        if not more:
            raise Lost("end of stream")
        self.rest += more

    def take(self, length, deadline):
        while len(self.rest) < length:
            self.fill(deadline)
        taken = bytes(self.rest[:length])
        del self.rest[:length]
        return taken

    def read_frame(self, deadline):
        kind = self.take(1, deadline)
        (length,) = struct.unpack("!I", self.take(4, deadline))
        return kind, self.take(length - 4, deadline)


class Client:
    """A client that is logged in, with further start-up parameters in pairs. `asides` are the kinds of
    messages that no query of it asked for."""

    def __init__(self, port, database="shop", user="ann", code=STARTUP, timeout=10.0, parameters=(),
                 source="127.0.0.1"):
        self.port, self.key, self.status, self.asides = port, b"", b"", []
        self.stream = connect(port, timeout, source)
        self.reader = Reader(self.stream)
        try:
            self.send(startup(database, user, code, parameters))
            self.read_reply(timeout)
        except Exception:
            self.stream.close()
            raise

    def send(self, data, timeout=10.0):
        try:
            self.stream.settimeout(timeout)
            self.stream.sendall(data)
        except TimeoutError as error:
            raise Late("a write waits") from error
        except OSError as error:
            raise Lost(str(error)) from error

    def read_reply(self, timeout=10.0):
        """Reads up to ReadyForQuery and returns the rows; raises the error that came, if one did."""
        deadline, rows, refused = time.monotonic() + timeout, [], None
        while True:
            kind, body = self.reader.read_frame(deadline)
            if kind == b"K":
                self.key = body
            elif kind == b"D":
                rows.append(columns(body))
            elif kind == b"E":
                refused = Refused(body)
                if refused.fatal:
                    raise refused
            elif kind in (b"A", b"N") or kind == b"S" and self.status:
                self.asides.append(kind.decode())
            elif kind == b"Z":
                self.status = body
                if refused:
                    raise refused
                return rows

    def start(self, text):
        """Sends a query and doesn't wait for its reply."""
        self.send(query_frame(text))

    def query(self, text, timeout=10.0):
        self.start(text)
        return self.read_reply(timeout)

    def value(self, text, timeout=10.0):
        rows = self.query(text, timeout)
        return rows[0][0] if rows else None

    def has_reply(self, timeout):
        """Whether something came within this time."""
        return bool(self.reader.rest or select.select([self.stream], [], [], timeout)[0])

    def close(self):
        try:
            self.send(frame(b"X"), 1.0)
        except (Lost, Late):
            pass
        self.stream.close()

    def vanish(self):
        reset(self.stream)


def outcome(call, *arguments):
    """What came of a call: `ok` with its value, or the error in words."""
    try:
        return f"ok:{call(*arguments)}"
    except Refused as refused:
        return str(refused)
    except Lost as lost:
        return f"lost ({lost})"
    except Late as late:
        return f"late ({late})"


def ask_cancel(port, key, source="127.0.0.1"):
    """Sends a cancel request. Returns its connection."""
    stream = connect(port, source=source)
    try:
        stream.sendall(cancel_request(key))
    except OSError:
        pass
    return stream


CLEAN, MARKED, RESET, OPEN = "clean end", "byte 45", "reset", "no end"


def read_end(stream, timeout):
    """How a cancel's connection ends: cleanly, after the byte 45 or an error, by a reset, or not in this time."""
    deadline, came = time.monotonic() + timeout, b""
    while True:
        left = deadline - time.monotonic()
        if left <= 0:
            return OPEN
        try:
            stream.settimeout(left)
            more = stream.recv(64)
        except TimeoutError:
            return OPEN
        except OSError:
            return RESET
        if not more:
            return CLEAN if not came else MARKED if came[:1] == b"E" else f"bytes {came.hex()}"
        came += more


def cancel(port, key, timeout=15.0):
    """Asks for a cancel and returns how its connection ended."""
    try:
        stream = ask_cancel(port, key)
    except (Lost, Late) as error:
        return f"not connected ({error})"
    try:
        return read_end(stream, timeout)
    finally:
        stream.close()


def wait_until(condition, timeout):
    """Waits until a condition holds. Returns after how many seconds it did, None if it didn't."""
    begun = time.monotonic()
    while not condition():
        if time.monotonic() - begun > timeout:
            return None
        time.sleep(0.005)
    return time.monotonic() - begun


def time_cancel(server, client, port, limit=2.0):
    """Cancels a query of a client at this port, as soon as its server runs it. Returns after how many
    seconds it was struck, None if it ran to its end, which comes a second after the limit."""
    text = f"select pg_sleep({limit + 1 + random.randrange(10**6) / 10**8:.8f})"
    client.start(text)
    wait_until(lambda: server.is_running(text), 10)
    begun = time.monotonic()
    asking = threading.Thread(target=cancel, args=(port, client.key, limit), daemon=True)
    asking.start()
    try:
        client.read_reply(limit + 15)
    except Refused as refused:
        if refused.code == "57014":
            return time.monotonic() - begun
        raise
    finally:
        asking.join()
    return None
