"""Clients that send much, and read what comes while they send."""
import os
import select
import struct
import subprocess
import sys
import time

from hard.others import Others
from hard.trial import Pooler, Postgres, enter_network, scenario
from hard.wire import LIMIT, Lost, frame, outcome, query_frame, wait_until


def enter_small_network(t):
    """A network namespace whose packets have 1,500 bytes, as on Ethernet. On loopback's own 65,536 large
    pieces pass at once."""
    if enter_network("mtu", "1500"):
        return t.note("in a network namespace with packets of 1,500 bytes")
    t.note("no network namespace can be made: on loopback as it is")


def make_group(size):
    """A group of about so many bytes, each of its 5,000-byte answers to some 60 bytes of it."""
    one = frame(b"P", b"\0select repeat('x',5000)\0\0\0") + frame(b"B", b"\0" * 8) + frame(b"E", b"\0\0\0\0\0")
    return one * ((size - 5) // len(one)) + frame(b"S")


def exchange(stream, data, limit):
    """Sends data and reads all the while, up to ReadyForQuery. Returns (sent, read, whether it came)."""
    deadline, sent, read, rest = time.monotonic() + limit, 0, 0, bytearray()
    stream.setblocking(False)
    while time.monotonic() < deadline:
        writes = [stream] if sent < len(data) else []
        readable, writable, _ = select.select([stream], writes, [], 0.5)
        if writable:
            sent += stream.send(data[sent : sent + 65536])
        if readable:
            more = stream.recv(1 << 20)
            if not more:
                break
            read += len(more)
            rest += more
            if skip_frames(rest):
                return sent, read, True
    return sent, read, False


def skip_frames(rest):
    """Drops whole messages. Returns whether ReadyForQuery was among them."""
    at, ready = 0, False
    while len(rest) - at >= 5:
        size = 1 + struct.unpack_from("!I", rest, at + 1)[0]
        if len(rest) - at < size:
            break
        ready, at = ready or rest[at] == ord("Z"), at + size
    del rest[:at]
    return ready


def time_group(client, group, limit):
    begun = time.monotonic()
    sent, read, done = exchange(client.stream, group, limit)
    figure = f"sent {sent} of {len(group)}, read {read / 1e6:.1f} MB in {time.monotonic() - begun:.1f} s"
    return done, figure


@scenario("big-group", limit=90)
def big_group(t):
    """a group of 1 MB with 90 MB of answers, from clients that read while they write"""
    enter_small_network(t)
    server = Postgres(t)
    pooler = Pooler(t, {"shop": server.port}, pool=2)
    group = make_group(1_040_000)
    done, figure = time_group(server.client(), group, 20)
    t.check(done, "at the server itself", figure, "whole")
    for number in range(2):
        client = pooler.client()
        done, figure = time_group(client, group, 20)
        t.check(done, f"through the pooler, client {number + 1}", figure, "whole")
        client.stream.close()
    rested = wait_until(pooler.is_at_rest, 3)
    t.check(rested is not None, "places once both have left", f"{pooler.places()}", "none held")
    if rested is not None:
        others = Others(pooler.port, count=4)
        time.sleep(0.5)
        others.judge(t)


@scenario("big-group-unread", limit=40)
def big_group_unread(t):
    """a client sends such a group, reads nothing and leaves: its place is free"""
    enter_small_network(t)
    server = Postgres(t)
    pooler = Pooler(t, {"shop": server.port}, pool=1)
    client, group = pooler.client(), make_group(1_040_000)
    client.stream.setblocking(False)
    sent, deadline = 0, time.monotonic() + 2
    while sent < len(group) and time.monotonic() < deadline:
        try:
            sent += client.stream.send(group[sent:])
        except BlockingIOError:
            time.sleep(0.05)
    client.vanish()
    begun = time.monotonic()
    came = outcome(lambda: pooler.client().value("select 'next'", 8))
    took = time.monotonic() - begun
    t.check(came == "ok:next" and took < 3, "the next client", f"{came} after {took:.1f} s", "served within 3 s")


def refuse_query(pooler, size):
    """Sends a query of this size, whole, and returns the answer."""
    client = pooler.client()
    text = "select '" + "x" * (size - 10) + "'"
    try:
        client.send(query_frame(text), 10)
    except Lost as lost:
        return f"the write failed: {lost}; " + outcome(client.read_reply, 5)
    return outcome(client.read_reply, 5)


PSYCOPG2 = """
import psycopg2, sys
connection = psycopg2.connect(host="127.0.0.1", port=int(sys.argv[1]), user="ann", dbname="shop")
try:
    connection.cursor().execute("select '" + "x" * 2000000 + "'")
    print("no error")
except psycopg2.Error as error:
    print(" ".join(str(error).split()))
"""


def find_psycopg2():
    for python in (sys.executable, "/usr/bin/python3"):
        tried = [python, "-c", "import psycopg2"]
        if os.path.exists(python) and subprocess.run(tried, capture_output=True).returncode == 0:
            return python
    return None


@scenario("big-query", limit=40)
def big_query(t):
    """a query that is too large: its client can read the error"""
    server = Postgres(t)
    pooler = Pooler(t, {"shop": server.port})
    for size in (LIMIT - 4, LIMIT - 3, 2_000_000):
        came = refuse_query(pooler, size)
        good = came.startswith("ok") or size > LIMIT - 4 and came.startswith("FATAL 08P01")
        t.check(good, f"a query of {size} bytes", came[:80], "its row" if size <= LIMIT - 4 else "FATAL 08P01")
    text = "select '" + "x" * 2_000_000 + "';\n"
    psql = [f"{t.options.postgres}/psql", "-X", "-h", "127.0.0.1", "-p", str(pooler.port), "-U", "ann", "-d", "shop"]
    said = subprocess.run(psql, input=text, capture_output=True, text=True, timeout=20).stderr
    t.check("protocol violation" in said, "psql, 2,000,000 bytes", " ".join(said.split())[:100], "protocol violation")
    python = find_psycopg2()
    if python is not None:  # over libpq 15 it tells that the connection was closed, and not why
        said = subprocess.run([python, "-c", PSYCOPG2, str(pooler.port)], capture_output=True, text=True, timeout=20)
        t.note(f"psycopg2, 2,000,000 bytes: {said.stdout.strip()[:60]}")


@scenario("big-row", limit=30)
def big_row(t):
    """a row above 1 MiB: it comes, or its client can read an error, and the next one is served"""
    server = Postgres(t)
    pooler = Pooler(t, {"shop": server.port}, pool=1)
    for size in (LIMIT - 100, 2_000_000, 20_000_000):
        came = outcome(lambda size=size: len(pooler.client().value(f"select repeat('x', {size})", 10)))
        good = came == f"ok:{size}" or size >= LIMIT and came.startswith("FATAL 08006")
        after = outcome(lambda: pooler.client().value("select 'next'", 5))
        t.check(good and after == "ok:next", f"a row of {size} bytes", f"{came}, the next client {after}",
                "the row, or an error")


@scenario("fat-clients", limit=60)
def fat_clients(t):
    """100 clients each send one query of 1 MB and idle after a small one: the memory comes back"""
    server = Postgres(t)
    pooler = Pooler(t, {"shop": server.port}, pool=4, clients=200)
    clients = [pooler.client() for _ in range(100)]
    for client in clients:
        client.query("select 'small'")
    before = pooler.memory()
    for client in clients:
        client.query("select length('" + "x" * 1_000_000 + "')")
    peak = pooler.memory()
    for client in clients:
        client.query("select 'small'")
    wait_until(lambda: pooler.memory() < before + 30, 5)
    after = pooler.memory()
    figure = f"{before:.0f} MB before, {peak:.0f} behind the large ones, {after:.0f} after"
    t.check(after < before + 30, "resident memory", figure, "within 30 MB of before")
