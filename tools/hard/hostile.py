"""Bytes that aren't the protocol's, from clients and from servers."""
import struct
import threading
import time

from hard.fake import FakeServer
from hard.others import Others
from hard.servers import NOTIFICATION, SAYS_ENDED, wait_for_ever
from hard.trial import Pooler, Postgres, scenario
from hard.wire import (GSSENC, SSL, STARTUP_LONG_KEY, Client, Late, Lost, Refused, cancel_request, connect, frame,
                       make_key, outcome, query_frame, row_frames, startup, wait_until)

MUTANTS = 4000
LENGTHS = (0, 3, 4, 5, 8, 10_001, 2**20 + 1, 2**31, 2**32 - 1)


def mutate(data, random):
    """A valid text with one to three faults."""
    data = bytearray(data)
    for _ in range(random.randrange(1, 4)):
        at, kind = random.randrange(len(data) + 1), random.randrange(7)
        if kind == 0 and data:
            data[at % len(data)] ^= 1 << random.randrange(8)
        elif kind == 1 and data:
            data[at % len(data)] = random.choice((0, 1, 3, 4, 127, 128, 255))
        elif kind == 2:
            del data[at:]
        elif kind == 3:
            data[at:at] = random.randbytes(random.randrange(1, 9))
        elif kind == 4:
            del data[at : at + random.randrange(1, 5)]
        elif kind == 5 and len(data) >= 5:
            start = at % (len(data) - 3)
            data[start : start + 4] = struct.pack("!I", random.choice(LENGTHS))
        elif kind == 6:
            data += data[:at]
    return bytes(data)


def first_packets():
    key = make_key(1, 0, 12345)
    return [startup("shop"), startup("shop", code=STARTUP_LONG_KEY), startup("pgbouncer"), cancel_request(key),
            cancel_request(key + b"\0" * 16), struct.pack("!II", 8, SSL) + startup("shop"),
            struct.pack("!II", 8, GSSENC) + struct.pack("!II", 8, SSL) + startup("shop")]


def message_streams():
    query, sync = query_frame("select 'mine'"), frame(b"S")
    group = frame(b"P", b"\0select 'mine'\0\0\0") + frame(b"B", b"\0" * 8)
    group += frame(b"D", b"P\0") + frame(b"E", b"\0" * 5)
    return [query, query * 3, group + sync, group * 2 + sync, sync, query + frame(b"X"), frame(b"C", b"S\0") + sync,
            frame(b"H"), frame(b"F", b"\0" * 10), frame(b"d", b"x"), query_frame("SHOW CLIENTS")]


class Mutants:
    """Sends mutants on connections of their own, several at a time, and reads each to its end."""

    def __init__(self, t, ports, texts, login):
        self.ports, self.login, self.hangs, self.foreign, self.done = ports, login, [], [], 0
        self.work = [mutate(t.random.choice(texts), t.random) for _ in range(MUTANTS)]
        self.lock = threading.Lock()
        threads = [threading.Thread(target=self.run, daemon=True) for _ in range(8)]
        for thread in threads:
            thread.start()
        for thread in threads:
            thread.join()

    def run(self):
        while True:
            with self.lock:
                if not self.work:
                    return
                data = self.work.pop()
                self.done += 1
            try:
                self.send(data, self.ports[self.done % len(self.ports)])
            except (OSError, Lost, Late, Refused):
                pass

    def send(self, data, port):
        stream = Client(port).stream if self.login else connect(port)
        with stream:
            stream.settimeout(5)
            came = b""
            try:
                stream.sendall(data)
                stream.shutdown(1)
                while more := stream.recv(65536):
                    came += more
            except TimeoutError:
                self.hangs.append(data)
            except OSError:
                pass
            if b"other-" in came:
                self.foreign.append(came)


def judge_mutants(t, texts, login):
    server = Postgres(t)
    for count in (1, 3):
        ports = {number: t.port() for number in range(1, count + 1)}
        pooler = Pooler(t, {"shop": server.port}, ports, pool=6)
        others = Others(pooler.port, count=3)
        time.sleep(0.3)
        memory, descriptors = pooler.memory(), pooler.descriptors()
        begun = time.monotonic()
        mutants = Mutants(t, list(ports.values()), texts, login)
        took = time.monotonic() - begun
        most = descriptors + 6 * count  # each node may have opened the server connections of its pool
        wait_until(lambda: pooler.descriptors() <= most, 3)
        first = f", first {mutants.hangs[0].hex()[:80]}" if mutants.hangs else ""
        figure = f"{mutants.done} in {took:.0f} s, {len(mutants.hangs)} hang{first}"
        t.check(not mutants.hangs, f"mutants, {count} nodes", figure, "none hangs")
        t.check(not mutants.foreign, f"other clients' texts, {count} nodes", f"{len(mutants.foreign)} read", "none")
        others.judge(t)
        after = pooler.memory()
        left = pooler.descriptors()
        t.check(after < memory + 20 and left <= most, f"afterwards, {count} nodes",
                f"{memory:.1f} -> {after:.1f} MB, descriptors {descriptors} -> {left}", "as before")
        pooler.stop()


@scenario("hostile-first", limit=80)
def hostile_first(t):
    """first packets with faults, drawn from a seed"""
    judge_mutants(t, first_packets(), login=False)


@scenario("hostile-stream", limit=90)
def hostile_stream(t):
    """messages with faults behind a login, drawn from a seed"""
    judge_mutants(t, message_streams(), login=True)


def once(data, end=False, pause=0.0):
    """For `on_login` and `on_query`: what the first backend sends instead; later ones are good."""

    def act(backend, text=None):
        if backend.number > 1:
            if text is None:
                backend.send(backend.greeting())
                return True
            return False
        if text not in (None, "select 'mine'"):
            return False
        for piece in data if isinstance(data, list) else [data]:
            backend.send(piece)
            time.sleep(pause)
        if end:
            backend.stream.shutdown(2)
            return False
        return True if text is not None else wait_for_ever(backend)

    return act


OK, KEY, STATUS = frame(b"R", b"\0" * 4), frame(b"K", b"\0\0\0\1\0\0\0\2"), frame(b"S", b"server_version\x0016\0")
IDLE, GARBAGE = frame(b"Z", b"I"), bytes(range(7, 250, 3)) * 3
LOGINS = {
    "garbage": once(GARBAGE, end=True),
    "HTTP": once(b"HTTP/1.0 400 Bad Request\r\n\r\n", end=True),
    "its end": once(b"", end=True),
    "an error": once(frame(b"E", b"SFATAL\0C28000\0Mno\0\0"), end=True),
    "a password's request": once(frame(b"R", b"\0\0\0\3")),
    "no key": once(OK + STATUS + IDLE),
    "half a key": once(OK + KEY[:7], end=True),
    "ReadyForQuery in a transaction": once(OK + KEY + frame(b"Z", b"T")),
    "bytes behind ReadyForQuery": once(OK + KEY + IDLE + NOTIFICATION),
    "a message of 2 GB": once(OK + b"S" + struct.pack("!I", 2**31 - 1) + b"x" * 1000),
}
REPLY, LOST, COPY = row_frames(b"mine"), "FATAL 08006", "FATAL 0A000"
REPLIES = {  # what the server sends, whether it ends then, and what the client may read
    "garbage": (GARBAGE, True, LOST),
    "its end": (b"", True, LOST),
    "half a message": (REPLY[:20], True, LOST + " or lost"),
    "length 0": (b"D" + struct.pack("!I", 0), False, LOST),
    "length 3": (b"D" + struct.pack("!I", 3), False, LOST),
    "length 2 GB": (b"D" + struct.pack("!I", 2**31 - 1), True, LOST),
    "length 4 GB": (b"D" + struct.pack("!I", 2**32 - 1), True, LOST),
    "COPY in": (frame(b"G", b"\0\0\0"), False, COPY),
    "COPY out": (frame(b"H", b"\0\0\0"), False, COPY),
    "COPY both": (frame(b"W", b"\0\0\0"), False, COPY),
    "a notification": (NOTIFICATION + REPLY, False, LOST + " or own"),
    "an error and its end": (SAYS_ENDED, True, "FATAL 57P01"),
    "the reply twice": (REPLY * 2, False, "own"),
    "a byte behind it": (REPLY + b"D", False, "own"),
    "status X": (REPLY[:-1] + b"X", False, LOST),
    "a long ReadyForQuery": (REPLY[:-6] + frame(b"Z", b"II"), False, LOST),
    "a password's request": (frame(b"R", b"\0\0\0\3"), False, LOST),
    "a key": (KEY, False, LOST),
}


def judge_server(t, what, wanted, **hooks):
    """A client meets the behaviour; the next one is served."""
    server = FakeServer(t.port(), **hooks)
    pooler = Pooler(t, {"shop": server.port}, pool=1)
    begun, client = time.monotonic(), pooler.client()
    came = outcome(client.value, "select 'mine'", 4)
    took = time.monotonic() - begun
    client.stream.close()
    after = outcome(lambda: pooler.client().value("select 'next'", 4))
    own = "own" in wanted and came == "ok:mine"
    good = (own or came.startswith(tuple(wanted.split(" or ")))) and took < 3 and after == "ok:next"
    t.check(good, what, f"{came} after {took:.1f} s, the next client {after}", f"{wanted}, then ok:next")
    pooler.stop()
    server.close()


@scenario("hostile-server", limit=120)
def hostile_server(t):
    """28 things that a server shouldn't say at a login or in a reply, and a slow good reply"""
    for what, act in LOGINS.items():
        judge_server(t, f"at the login {what}", "FATAL 08006", on_login=act)
    for what, (data, end, wanted) in REPLIES.items():
        judge_server(t, f"in a reply {what}", wanted, on_query=once(data, end))
    slowly = once([REPLY[at : at + 1] for at in range(len(REPLY))], pause=0.01)
    judge_server(t, "a good reply, a byte at a time", "own", on_query=slowly)
