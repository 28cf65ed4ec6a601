"""What the log tells: who cancelled a query, and why a session ended."""
import datetime
import socket
import struct
import subprocess
import time
import urllib.request

from hard.fake import FakeServer, hold_for
from hard.trial import Pooler, Postgres, scenario, start_apart
from hard.wire import (CLEAN, LIMIT, Lost, ask_cancel, frame, make_key, outcome, query_frame, read_end, reset,
                       wait_until)

INFO = ("--log", "info")
SECRET = "unspoken"  # in each text that a client sends
SLEEP = "select pg_sleep(20)"
NONE_KNOWN = "no `refused`"  # a session's end of which no refusal is known


def lines_of(pooler, event):
    """The log's lines of an event as fields, with `time` in seconds and `level`."""
    lines = []
    for moment, node, level, _, *fields in pooler.log_lines(event):
        seconds = datetime.datetime.fromisoformat(moment.replace("Z", "+00:00")).timestamp()
        lines.append({**dict(word.split("=", 1) for word in [node, *fields]), "time": seconds, "level": level})
    return lines


def await_lines(pooler, event, count=1, **wanted):
    """The log's lines of this event with these fields, once there are so many: a thread of its own writes them."""
    def find():
        return [line for line in lines_of(pooler, event) if wanted.items() <= line.items()]

    wait_until(lambda: len(find()) >= count, 3)
    return find()


def show(lines):
    """Lines without their times."""
    if not lines:
        return "no line"
    return "; ".join(" ".join(f"{name}={value}" for name, value in line.items() if name != "time") for line in lines)


def address_of(stream):
    """The address of this side of a connection, as the other side's log has it."""
    return "%s:%d" % stream.getsockname()


def slot_of(client):
    """The slot in what drivers call the backend's process ID: as docs/OPERATING.md says."""
    return str(struct.unpack("!I", client.key[:4])[0] >> 2 & 0xFFFF)


def secrets_of(key):
    """How a key, or the secret in it, could stand in a line."""
    number = struct.unpack("!Q", key[:8])[0]
    secret = number >> 2 & 0xFFFFFFFF
    return [key.hex(), str(number), f"{number:x}", f"{secret:08x}", str(secret)]


def judge_silence(t, poolers, keys):
    """No line has a key, a secret, or a text that a client sent."""
    unspoken = [SECRET, "pg_sleep", *(word for key in keys for word in secrets_of(key))]
    lines, told = 0, []
    for pooler in poolers:
        with open(f"{pooler.base}.err") as log:
            for line in log:
                lines += 1
                told += [line.strip() for word in unspoken if word in line.split(maxsplit=1)[1]]
    t.check(not told and lines > 0, "keys, secrets and queries in the log", f"{len(told)} of {lines} lines"
            + (f": {told[0]}" if told else ""), "in none")


def run_query(server, client):
    """The client's query runs at its server."""
    client.start(SLEEP)
    wait_until(lambda: server.is_running(SLEEP), 5)


def ask_end(port, key, timeout=15):
    """Makes a cancel request. Returns the address it came from, and how its connection ended."""
    stream = ask_cancel(port, key)
    address = address_of(stream)
    try:
        return address, read_end(stream, timeout)
    finally:
        stream.close()


@scenario("who-cancelled", limit=60)
def who_cancelled(t):
    """the log names who cancelled a query: the requester's address, its client's slot, the server, the result"""
    server = FakeServer(t.port())
    pooler = Pooler(t, {"shop": server.port})
    idle, clients = pooler.client(), [pooler.client() for _ in range(3)]
    for client in clients:
        run_query(server, client)
        address, end = ask_end(pooler.port, client.key)
        came = outcome(client.read_reply)
        lines = await_lines(pooler, "cancel_ended", client=address)
        wanted = {"node": "1", "level": "notice", "slot": slot_of(client), "database": "shop",
                  "server": f"127.0.0.1:{server.port}", "result": "settled"}
        good = len(lines) == 1 and wanted.items() <= lines[0].items() and "57014" in came and end == CLEAN
        t.check(good, f"the request of {address}", f"{show(lines)} ({came}, {end})", f"one line with {wanted}")
    slots = {line["slot"] for line in lines_of(pooler, "cancel_ended")}
    t.check(len(slots) == 3 and slot_of(idle) not in slots, "slots of three clients", f"{sorted(slots)}", "three")
    judge_unwait(t)
    judge_failed(t)
    judge_silence(t, [pooler], [client.key for client in [idle, *clients]])


def judge_unwait(t):
    """A request that ends a client's wait for a server connection has a line, too."""
    server = FakeServer(t.port())
    pooler = Pooler(t, {"shop": server.port}, pool=1)
    holder, waiter = pooler.client(), pooler.client()
    holder.query("begin")
    waiter.start(f"select '{SECRET}'")
    wait_until(lambda: any(row[2] == "waiting" for row in pooler.show("CLIENTS")), 5)
    address, _ = ask_end(pooler.port, waiter.key)
    came = outcome(waiter.read_reply)
    lines = await_lines(pooler, "cancel_ended", client=address)
    wanted = {"level": "notice", "slot": slot_of(waiter), "result": "nothing_sent"}
    good = len(lines) == 1 and wanted.items() <= lines[0].items() and "server" not in lines[0] and "57014" in came
    t.check(good, "a request that ends a wait", f"{show(lines)} ({came})", f"one line with {wanted}")
    judge_silence(t, [pooler], [holder.key, waiter.key])


def judge_failed(t):
    """A request whose server resets its connection."""
    server = FakeServer(t.port(), on_cancel=lambda server, stream, key: reset(stream) or False)
    pooler = Pooler(t, {"shop": server.port})
    client = pooler.client()
    run_query(server, client)
    address, _ = ask_end(pooler.port, client.key)
    lines = await_lines(pooler, "cancel_ended", client=address)
    wanted = {"slot": slot_of(client), "database": "shop", "server": f"127.0.0.1:{server.port}", "result": "failed"}
    good = len(lines) == 1 and wanted.items() <= lines[0].items()
    t.check(good, "a request whose server resets it", show(lines), f"one line with {wanted}")
    judge_silence(t, [pooler], [client.key])
    server.close()


def interval(line):
    """From when to when the request of a line was served."""
    return line["time"] - int(line["millis"]) / 1000, line["time"]


def joined(line, others):
    """The lines of the key's node that belong to one of a node that forwarded it: of the node that is its peer, with
    the same slot, and served meanwhile. A thread of its own writes each time, and millis are cut: 50 ms are allowed."""
    begun, ended = interval(line)
    return [other for other in others
            if other["node"] == line["peer"] and other["slot"] == line["slot"]
            and begun - 0.05 <= interval(other)[0] and other["time"] <= ended + 0.05]


@scenario("who-forwarded", limit=60)
def who_forwarded(t):
    """cancels that pass through a second node: each has a line at both, and the two can be joined"""
    server = FakeServer(t.port(), on_cancel=hold_for(0.2))
    own, other = start_apart(t, {"shop": server.port}, pool=6)
    clients = [own.client() for _ in range(6)]
    for client in clients:
        client.start(SLEEP)
    wait_until(lambda: sum(backend.running == SLEEP for backend in server.backends) == 6, 5)
    streams = [ask_cancel(other.port, client.key) for client in clients]
    addresses = [address_of(stream) for stream in streams]
    ends = [read_end(stream, 10) for stream in streams]
    came = [outcome(client.read_reply) for client in clients]
    good = all("57014" in text for text in came) and ends == [CLEAN] * 6
    t.check(good, "six cancels at once, through the other node", f"{came[0]}; {ends}", "57014, each a clean end")
    at_own = await_lines(own, "cancel_ended", 6)
    for client, address in zip(clients, addresses):
        lines = await_lines(other, "cancel_ended", client=address)
        wanted = {"node": "2", "level": "notice", "slot": slot_of(client), "peer": "1",
                  "address": f"127.0.0.1:{own.port}", "result": "settled"}
        good = len(lines) == 1 and wanted.items() <= lines[0].items() and "server" not in lines[0]
        t.check(good, f"slot {slot_of(client)} at the node that forwards", show(lines), f"one line with {wanted}")
        found = joined(lines[0], at_own) if lines else []
        wanted = {"node": "1", "slot": slot_of(client), "database": "shop", "server": f"127.0.0.1:{server.port}",
                  "result": "settled"}
        good = len(found) == 1 and wanted.items() <= found[0].items() and found[0]["client"] != address
        t.check(good, f"slot {slot_of(client)} at the key's node", show(found), f"one line with {wanted}")
    judge_silence(t, [own, other], [client.key for client in clients])
    server.close()


def judge_refused(t, pooler, key, slot, reason, port=None):
    address, end = ask_end(port or pooler.port, key)
    lines = await_lines(pooler, "cancel_refused", client=address)
    wanted = {"level": "info", "slot": str(slot), "reason": reason}
    good = len(lines) == 1 and wanted.items() <= lines[0].items() and not {"database", "server", "peer"} & set(lines[0])
    t.check(good, f"a request refused as {reason}", f"{show(lines)} ({end})", f"one line with {wanted}")
    return address


@scenario("cancel-refused", limit=60)
def cancel_refused(t):
    """cancel requests that strike nobody: with --log info the log says from where, for which slot, and why"""
    server = FakeServer(t.port())
    pooler = Pooler(t, {"shop": server.port}, words=INFO)
    client = pooler.client()
    client.query(f"select '{SECRET}'")
    secret = t.random.getrandbits(32)
    keys = [make_key(1, 77, secret), make_key(9, 5, secret), make_key(9, 6, secret, hops=0), client.key]
    for key, slot, reason in ((keys[0], 77, "unknown"), (keys[1], 5, "no_peer"), (keys[2], 6, "spent"),
                              (keys[3], slot_of(client), "no_link")):
        address = judge_refused(t, pooler, key, slot, reason)
        ended = await_lines(pooler, "cancel_ended", client=address)
        good = len(ended) == 1 and ended[0]["result"] == "nothing_sent" and ended[0]["slot"] == str(slot)
        t.check(good, f"its end, {reason}", show(ended), "result=nothing_sent")
    judge_silence(t, [pooler], keys)
    judge_no_seat(t)
    quiet = Pooler(t, {"shop": server.port})
    address, _ = ask_end(quiet.port, keys[0])
    ended = await_lines(quiet, "cancel_ended", client=address)
    lines = lines_of(quiet, "cancel_refused")
    t.check(len(ended) == 1 and not lines, "without --log info", f"{show(lines)}; {show(ended)}", "cancel_ended alone")


def judge_no_seat(t):
    """Of one key 32 requests are in progress: the next has no seat."""
    server = FakeServer(t.port(), on_cancel=hold_for(3600))
    pooler = Pooler(t, {"shop": server.port}, words=INFO)
    client = pooler.client()
    run_query(server, client)
    streams = [ask_cancel(pooler.port, client.key) for _ in range(32)]
    wait_until(lambda: len(server.cancels) == 32, 5)
    address = judge_refused(t, pooler, client.key, slot_of(client), "no_seat")
    ended = await_lines(pooler, "cancel_ended", client=address)
    good = len(ended) == 1 and ended[0]["result"] == "not_served" and ended[0]["slot"] == slot_of(client)
    t.check(good, "its end, no_seat", show(ended), "result=not_served")
    for stream in streams:
        stream.close()
    judge_silence(t, [pooler], [client.key])
    server.close()


NAME = SECRET.encode() + b"\0"
PARSE = frame(b"P", b"\0select '" + SECRET.encode() + b"'\0\0\0")
LONG_PARSE = frame(b"P", b"\0" + b" " * (LIMIT - 100) + b"\0\0\0")
PORTAL = frame(b"B", NAME + b"\0" + b"\0\0" * 3)
# By what ends a session: what its client sends, the code it gets, and the refusal.
REFUSALS = {
    "a named statement": (frame(b"P", NAME + b"select 1\0\0\0"), "0A000", "named_statement"),
    "a Bind of a named statement": (frame(b"B", b"\0" + NAME + b"\0\0" * 3), "0A000", "named_statement"),
    "a portal with a name": (PARSE + PORTAL, "0A000", "portal"),
    "a Flush": (PARSE + frame(b"H"), "0A000", "flush"),
    "a function call": (frame(b"F", struct.pack("!IHHH", 1598, 0, 0, 0)), "0A000", "function_call"),
    "data of a COPY": (frame(b"d", NAME), "0A000", "copy"),
    "COPY .. TO STDOUT": (query_frame("copy (select 1) to stdout"), "0A000", "copy"),
    "COPY .. FROM STDIN": (query_frame("copy pg_description from stdin"), "0A000", "copy"),
    "an extended query above the limit": (LONG_PARSE * 2, "08P01", "too_long"),
    "a query above the limit": (query_frame(SECRET + " " * LIMIT), "08P01", "malformed"),
    "a query among messages of an extended one": (PARSE + query_frame("select 1"), "08P01", "out_of_place"),
    "an unknown type": (frame(b"y", NAME), "08P01", "unknown_type"),
    "a query without its end": (frame(b"Q", SECRET.encode()), "08P01", "malformed")}


def end_by(client, data):
    """What a client that sends this gets."""
    try:
        client.send(data)
    except Lost:
        pass
    return outcome(client.read_reply)


def judge_end(t, pooler, client, what, came, code, refused, database="shop"):
    """One line says why this client's session ended."""
    address = address_of(client.stream)
    lines = await_lines(pooler, "session_ended", client=address)
    wanted = {"node": "1", "level": "warn", "database": database, "code": code}
    good = len(lines) == 1 and wanted.items() <= lines[0].items() and came.startswith(f"FATAL {code}")
    good = good and lines[0].get("refused", NONE_KNOWN) == refused
    t.check(good, what, f"{show(lines)} (client: {came})", f"one line with {wanted}, {refused}, as its client")


@scenario("why-ended", limit=60)
def why_ended(t):
    """the log says why sessions ended that were refused: their clients' addresses, the codes, the refusals"""
    server = Postgres(t)
    keys, poolers = [], []
    for number, (what, (data, code, refused)) in enumerate(REFUSALS.items()):
        if number % 8 == 0:  # at most ten lines of an event are written per second
            poolers.append(Pooler(t, {"shop": server.port}))
        client = poolers[-1].client()
        keys.append(client.key)
        judge_end(t, poolers[-1], client, what, end_by(client, data), code, refused)
        client.stream.close()
    ends = sum(len(lines_of(pooler, "session_ended")) for pooler in poolers)
    t.check(ends == len(REFUSALS), "lines in all", ends, f"{len(REFUSALS)}")
    judge_silence(t, poolers, keys)


@scenario("why-lost", limit=60)
def why_lost(t):
    """the log says why sessions ended of which no message was refused: lost servers, refused logins, the console"""
    server = FakeServer(t.port(), on_query=lambda backend, text: text == SLEEP and (reset(backend.stream) or True))
    refusing = FakeServer(t.port(), on_login=lambda backend: backend.send(b"N" * 5) or False)
    talking = FakeServer(t.port(), on_query=lambda backend, _: backend.send(frame(b"A", b"\0\0\0\1news\0\0")) or True)
    wordy = FakeServer(t.port(), on_query=lambda backend, _: backend.send(frame(b"D", b"x" * LIMIT)) or True)
    databases = {"shop": server.port, "closed": t.port(), "odd": refusing.port, "news": talking.port,
                 "wordy": wordy.port}
    pooler = Pooler(t, databases)
    keys = []
    for what, database, refused in (("a server that resets its connection", "shop", "link_lost"),
                                    ("a server that can't be reached", "closed", NONE_KNOWN),
                                    ("a server whose login is no login", "odd", NONE_KNOWN),
                                    ("a row above the limit", "wordy", "link_lost"),
                                    ("a notification", "news", "notification")):
        client = pooler.client(database=database)
        keys.append(client.key)
        judge_end(t, pooler, client, what, end_by(client, query_frame(SLEEP)), "08006", refused, database)
    console = pooler.client(database="pgbouncer")
    judge_end(t, pooler, console, "a Parse on the console", end_by(console, PARSE), "0A000", NONE_KNOWN, "pgbouncer")
    judge_silence(t, [pooler], keys)
    for fake in (server, refusing, talking, wordy):
        fake.close()
    judge_prompt(t)


def judge_prompt(t):
    """Clients that close as soon as the first byte of the error comes, as drivers do: each end is counted."""
    server, metrics = FakeServer(t.port(), on_query=lambda backend, _: reset(backend.stream) or True), t.port()
    pooler = Pooler(t, {"shop": server.port}, words=["--metrics", str(metrics)])
    for _ in range(100):
        client = pooler.client()
        client.start(SLEEP)
        client.has_reply(5)
        client.stream.close()
    wanted = 'pgpeer_log_events_total{level="warn",event="session_ended"} 100'

    def read():
        with urllib.request.urlopen(f"http://127.0.0.1:{metrics}/metrics", timeout=5) as answer:
            return [line for line in answer.read().decode().split("\n") if "session_ended" in line]

    wait_until(lambda: time.sleep(0.2) or wanted in read(), 4)
    t.check(wanted in read(), "100 clients that close once they get an error", f"{read()}", wanted)
    server.close()


@scenario("no-reason", limit=60)
def no_reason(t):
    """clients that leave, send Terminate or are there in a drain: the log doesn't say that their sessions ended"""
    server = FakeServer(t.port())
    pooler = Pooler(t, {"shop": server.port}, stdin=subprocess.PIPE, words=["--until-eof", *INFO])
    leave = {"send Terminate": lambda client: client.close(), "close": lambda client: client.stream.close(),
             "reset": lambda client: client.vanish(),
             "close one way": lambda client: client.stream.shutdown(socket.SHUT_WR)}
    keys, held = [], []
    for way, go in leave.items():
        for before in (None, "select '%s'" % SECRET, "begin"):
            client = pooler.client()
            keys.append(client.key)
            held.append(client)
            client.query(before) if before else None
            go(client)
        console = pooler.client(database="pgbouncer")
        held.append(console)
        go(console)
        rested = wait_until(lambda: not pooler.show("CLIENTS"), 5)
        t.check(rested is not None, f"clients that {way}", f"{pooler.show('CLIENTS')} are left", "none")
    client = pooler.client()
    keys.append(client.key)
    client.start("select pg_sleep(15)")
    wait_until(lambda: server.is_running("select pg_sleep(15)"), 5)
    client.vanish()
    rested = wait_until(lambda: not pooler.show("CLIENTS"), 5)
    t.check(rested is not None, "a client that resets during its query", f"{pooler.show('CLIENTS')} are left", "none")
    cancelled = pooler.client()
    run_query(server, cancelled)
    _, _ = ask_end(pooler.port, cancelled.key)
    came = outcome(cancelled.read_reply)
    t.check("57014" in came, "a client that was cancelled", came, "57014")
    drained = [pooler.client(), cancelled, pooler.client(database="pgbouncer")]
    pooler.process.stdin.close()
    came = [outcome(client.read_reply, 5) for client in drained]
    t.check(all("57P01" in text for text in came), "sessions that were drained", f"{came}", "57P01 each")
    for client in drained:
        client.stream.close()
    has_stopped = wait_until(lambda: not pooler.is_running(), 5) is not None and lines_of(pooler, "stopped")
    lines = lines_of(pooler, "session_ended")
    t.check(has_stopped and not lines, "lines about ends of sessions", show(lines), "no line")
    judge_silence(t, [pooler], keys)
    server.close()
