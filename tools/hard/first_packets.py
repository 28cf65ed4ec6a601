"""First packets that are refused, incomplete, late or not served: each byte that comes, and how the connection ends."""
import collections
import os
import resource
import socket
import struct
import subprocess
import time

from hard.fake import FakeServer, hold_for
from hard.shortage import ALONE, fill, log_in_until_refused, open_strangers, serve_all, served
from hard.trial import Pooler, scenario
from hard.wire import CANCEL, CLEAN, OPEN, RESET, SSL, Reader, cancel_request, error_frame, outcome, startup, wait_until

WHOLE = startup("shop")
REQUEST = struct.pack("!II", 16, CANCEL) + b"12345678"
PARTS = {"nothing": b"", "7 bytes of a cancel request": REQUEST[:7], "15 bytes of a cancel request": REQUEST[:15],
         "half a StartupMessage": WHOLE[: len(WHOLE) // 2]}
OTHERS = {f"a cancel request of {size} bytes": struct.pack("!II", size, CANCEL) + b"x" * (size - 8)
          for size in (8, 15, 17, 31, 33)}
ENCRYPTION = struct.pack("!II", 8, SSL)
TOO_MANY = error_frame("53300", "too many clients", "FATAL")
REFUSALS = {"a length of 7": (b"\0\0\0\7", "08P01", "protocol violation"),
            "a length of 10,001": (b"\0\0\x27\x11", "08P01", "protocol violation"),
            "protocol 2": (b"\0\0\0\x09\0\2\0\0\0", "0A000", "not in this profile"),
            "no user": (b"\0\0\0\x09\0\3\0\0\0", "28000", "no user name"),
            "no such database": (startup("other"), "3D000", "no such database")}


def send(port, data, ends=False):
    """A connection on which this was sent. If it is reset before that, this fails, and a read wouldn't."""
    stream = socket.create_connection(("127.0.0.1", port), 10.0)
    stream.sendall(data)
    if ends:
        stream.shutdown(socket.SHUT_WR)
    return stream


def send_or_reset(port, data):
    """The same, or none if the connection is reset before that."""
    try:
        return send(port, data)
    except ConnectionResetError:
        return None


def read_all(stream, timeout):
    """All bytes that come, and how the connection ends."""
    deadline, came = time.monotonic() + timeout, b""
    while (left := deadline - time.monotonic()) > 0:
        try:
            stream.settimeout(left)
            more = stream.recv(4096)
        except TimeoutError:
            break
        except OSError:
            return came, RESET
        if not more:
            return came, CLEAN
        came += more
    return came, OPEN


def words(came):
    data, end = came
    text = "".join(chr(byte) if 32 <= byte < 127 else f"\\{byte:02x}" for byte in data)
    return f"{len(data)} bytes '{text}', {end}"


def judge(t, what, stream, *wanted, timeout=5.0):
    """The bytes and the end are one of those that are wanted."""
    begun = time.monotonic()
    came = read_all(stream, timeout)
    stream.close()
    return judge_end(t, what, came, begun, *wanted)


def judge_sent(t, what, port, data, *wanted):
    """The same, of a connection that may be reset before anything is sent."""
    begun = time.monotonic()
    try:
        return judge(t, what, send(port, data), *wanted)
    except ConnectionResetError:
        return judge_end(t, what, (b"", RESET), begun, *wanted)


def judge_end(t, what, came, begun, *wanted):
    figure = f"{words(came)} after {time.monotonic() - begun:.1f} s"
    return t.check(came in wanted, what, figure, " or ".join(map(words, wanted)))


def await_lines(pooler, event, word, count):
    """The lines of the log of this event with this word, once there are so many: a thread of its own writes them."""
    def find():
        return [line for line in pooler.log_lines(event) if word in line]

    wait_until(lambda: len(find()) >= count, 3)
    return find()


def judge_reasons(t, pooler, reason, count):
    """So many lines of the log have this reason, and tell no error that the client didn't get."""
    lines = await_lines(pooler, "client_refused", f"reason={reason}", count)
    told = [line for line in lines if any(word.startswith(("code=", "message=")) for word in line)]
    t.check(len(lines) >= count and not told, f"the log, reason={reason}", f"{len(lines)} lines, {len(told)} with an error",
            f"{count} or more, none with an error")


@scenario("first-packets", limit=60)
def first_packets(t):
    """first packets that are refused or that their clients don't complete: no byte and a clean end, or an error"""
    server = FakeServer(t.port())
    pooler = Pooler(t, {"shop": server.port})
    for what, data in OTHERS.items():
        judge(t, what, send(pooler.port, data), (b"", CLEAN))
        judge(t, what + ", and the end of input", send(pooler.port, data, ends=True), (b"", CLEAN))
        judge(t, what + ", after a request for encryption", send(pooler.port, ENCRYPTION + data), (b"N", CLEAN))
    for what, data in PARTS.items():
        judge(t, what + ", and the end of input", send(pooler.port, data, ends=True), (b"", CLEAN))
        judge(t, what + ", and the end, after a request for encryption",
              send(pooler.port, ENCRYPTION + data, ends=True), (b"N", CLEAN))
    for what, (data, code, message) in REFUSALS.items():
        judge(t, what, send(pooler.port, data), (error_frame(code, message, "FATAL"), CLEAN))
    lines = [line for line in pooler.log_lines("client_refused") if any(word.startswith("reason=") for word in line)]
    t.check(not lines, "the log", f"{len(lines)} lines with a reason", "none")
    server.close()


@scenario("first-packets-drain", limit=60)
def first_packets_drain(t):
    """a group drains, and first packets aren't complete: no byte and a reset"""
    server = FakeServer(t.port())
    pooler = Pooler(t, {"shop": server.port}, stdin=subprocess.PIPE, words=["--until-eof"])
    streams = {what: send(pooler.port, data) for what, data in PARTS.items()}
    streams["after a request for encryption"] = stream = send(pooler.port, ENCRYPTION)
    t.check(stream.recv(1) == b"N", "a request for encryption", "N", "N")
    time.sleep(0.3)
    pooler.process.stdin.close()
    for what, stream in streams.items():
        judge(t, what, stream, (b"", RESET))
    t.check(pooler.process.wait(5) == 0, "the process", f"status {pooler.process.returncode}", "0")
    lines = pooler.log_lines("client_refused")
    t.check(not lines, "the log", f"{len(lines)} lines about clients", "none")
    server.close()


@scenario("first-packets-full", limit=60)
def first_packets_full(t):
    """a node without descriptors evicts connections, and then refuses them: no byte and a reset, or an error"""
    server = FakeServer(t.port(), on_cancel=hold_for(3600))
    pooler = Pooler(t, {"shop": server.port}, pool=2, clients=200, limits={"NOFILE": 80})
    streams = {what: send(pooler.port, data) for what, data in PARTS.items()}
    time.sleep(0.3)
    strangers = open_strangers(pooler.port, 60)
    for what, stream in streams.items():
        judge(t, what + ", evicted", stream, (b"", RESET))
    judge_reasons(t, pooler, "evicted", len(PARTS))
    for stream in strangers:
        stream.close()
    time.sleep(0.5)
    clients, last = fill(pooler)
    t.note(f"{len(clients)} clients are logged in; the next: {last}")
    clients[0].start("select pg_sleep(60)")
    wait_until(lambda: server.is_running("select pg_sleep(60)"), 5)
    asked = [send_or_reset(pooler.port, cancel_request(clients[0].key)) for _ in range(12)]
    ends = collections.Counter(read_all(stream, 0.2) if stream else (b"", RESET) for stream in asked)
    good = set(ends) == {(b"", OPEN), (b"", RESET)} and server.busy == ends[b"", OPEN]
    t.check(good, "cancels on the connections that are kept", f"{dict(ends)}, {server.busy} at the server",
            "some held, the others reset")
    for what, data in PARTS.items():
        judge_sent(t, what + ", refused", pooler.port, data, (b"", RESET))
    judge_sent(t, "a cancel request, refused", pooler.port, REQUEST, (b"", RESET))
    for number in range(5):  # it comes before the connection is accepted, or after
        judge_sent(t, f"StartupMessage {number + 1}, refused", pooler.port, WHOLE, (TOO_MANY, CLEAN), (b"", RESET))
    lines = await_lines(pooler, "serve_failed", "warn", 1)
    t.check(len(lines) >= 1, "the log, serve_failed", f"{len(lines)} lines", "some")
    for stream in [*filter(None, asked), *(client.stream for client in clients)]:
        stream.close()
    server.close()


@scenario("first-packets-alone", limit=60)
def first_packets_alone(t):
    """no thread is left but one: a StartupMessage gets 53300; what isn't complete in a second is reset"""
    if os.getuid() != 0:
        return t.note("skipped: it needs a user of its own, and so root")
    server = FakeServer(t.port())
    user = ALONE + t.random.randrange(2000) + os.getpid() % 1000
    pooler = Pooler(t, {"shop": server.port}, clients=300, limits={"NPROC": 40}, user=user)
    clients = log_in_until_refused(t, pooler, 60)
    kept = [client.stream for client in clients]
    judge_alone(t, kept, "a StartupMessage", pooler.port, WHOLE, (TOO_MANY, CLEAN))
    judge_alone(t, kept, "one after a request for encryption", pooler.port, ENCRYPTION + WHOLE, (b"N" + TOO_MANY, CLEAN))
    for what, data in PARTS.items():
        judge_alone(t, kept, what, pooler.port, data, (b"", RESET))
        judge(t, what + ", and the end of input", send(pooler.port, data, ends=True), (b"", CLEAN))
    for what, data in OTHERS.items():
        judge(t, what, send(pooler.port, data), (b"", CLEAN))
    judge(t, "a cancel request of an unknown key", send(pooler.port, REQUEST), (b"", CLEAN))
    judge_reasons_alone(t, pooler)
    for stream in kept:
        stream.close()
    server.close()


def judge_alone(t, kept, what, port, data, wanted):
    """As `judge`. If a thread has become free, it serves the connection, which is kept, and another one comes."""
    for _ in range(5):
        begun, stream = time.monotonic(), send(port, data)
        came = read_all(stream, 3.0)
        kept.append(stream)
        if came[1] != OPEN:
            break
    judge_end(t, what, came, begun, wanted)


def judge_reasons_alone(t, pooler):
    """The log tells the error of those that got it, and of the others only the reason: without a thread for them, they
    are evicted or reach their time limit, whichever comes first."""
    def find():
        return [line for line in pooler.log_lines("client_refused") if any(word.startswith("reason=") for word in line)]

    wait_until(lambda: any("code=53300" not in line for line in find()), 3)
    lines = find()
    told = [line for line in lines if "code=53300" in line]
    t.check(told and len(told) < len(lines), "the log, the reasons", f"{len(lines)} lines, {len(told)} with 53300",
            "some with 53300, some without")


@scenario("first-packets-unaccepted", limit=30)
def first_packets_unaccepted(t):
    """for a while no connection can be accepted, and then one can't be served: the others go on"""
    server = FakeServer(t.port())
    pooler = Pooler(t, {"shop": server.port}, pool=6)
    clients = [pooler.client() for _ in range(6)]
    for client in clients:  # at once, so that each has a server connection of its own
        client.start("select pg_sleep(1)")
    for client in clients:
        client.read_reply()
    t.check(len(server.backends) == 6, "server connections", f"{len(server.backends)}", "6")
    wrong = []
    process = pooler.process.pid
    soft, hard = resource.prlimit(process, resource.RLIMIT_NOFILE)
    resource.prlimit(process, resource.RLIMIT_NOFILE, (3, hard))
    stream = send(pooler.port, WHOLE)
    begun = time.monotonic()
    while time.monotonic() - begun < 1.5:
        wrong += serve_all(clients)
    t.check(not wrong, "six clients meanwhile", served(6, wrong), "6")
    lines = await_lines(pooler, "accept_failed", "accept_failed", 1)
    t.check(len(lines) >= 1, "the log, accept_failed", f"{len(lines)} lines", "some")
    resource.prlimit(process, resource.RLIMIT_NOFILE, (soft, hard))
    came = outcome(lambda: Reader(stream).read_frame(time.monotonic() + 3)[0])
    t.check(came == "ok:b'R'", "a login that waited", came, "a login's first message")
    wrong = serve_all(clients)
    t.check(not wrong, "six clients afterwards", served(6, wrong), "6")
    for client in clients:
        client.stream.close()
    stream.close()
    server.close()


@scenario("first-packets-no-memory", limit=60)
def first_packets_no_memory(t):
    """an address space of 220 MB: a connection without a thread or memory gets 53300 or is reset; the others go on"""
    server = FakeServer(t.port())
    pooler = Pooler(t, {"shop": server.port}, pool=6, clients=1000, limits={"AS": 220_000_000})
    clients = [pooler.client() for _ in range(6)]
    wrong = serve_all(clients)
    more = log_in_until_refused(t, pooler, 400)
    for _ in range(3):
        wrong += serve_all(clients)
    t.check(not wrong, "six clients meanwhile", served(6, wrong), "6")
    judge(t, "a cancel request of an unknown key", send(pooler.port, REQUEST), (b"", CLEAN))
    t.check(pooler.is_running(), "the pooler", f"status {pooler.process.poll()}", "it runs")
    for client in more:
        client.stream.close()
    time.sleep(0.5)
    wrong = serve_all(clients)
    t.check(not wrong, "six clients once they left", served(6, wrong), "6")
    for client in clients:
        client.stream.close()
    server.close()


@scenario("first-packets-no-seat", limit=40)
def first_packets_no_seat(t):
    """40 requests with one key, whose server ends none: those for which no place is free get no byte and a reset"""
    server = FakeServer(t.port(), on_cancel=hold_for(3600))
    pooler = Pooler(t, {"shop": server.port}, pool=2)
    client = pooler.client()
    client.start("select pg_sleep(60)")
    wait_until(lambda: server.is_running("select pg_sleep(60)"), 5)
    streams = [send(pooler.port, cancel_request(client.key)) for _ in range(40)]
    wait_until(lambda: server.busy >= 32, 5)
    time.sleep(0.5)
    ends = collections.Counter(read_all(stream, 0.02) for stream in streams)
    t.check(ends == {(b"", OPEN): 32, (b"", RESET): 8}, "40 requests", f"{dict(ends)}",
            "32 open, 8 reset, none with a byte")
    for stream in streams:
        stream.close()
    client.stream.close()
    server.close()
