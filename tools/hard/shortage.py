"""No descriptors, threads or memory, and outputs that nobody reads."""
import multiprocessing
import os
import resource
import socket
import subprocess
import threading
import time

from hard.fake import FakeServer
from hard.others import Others
from hard.trial import Pooler, Postgres, bind_to_parent, scenario
from hard.wire import (RESET, Late, Lost, Reader, Refused, ask_cancel, connect, make_key, outcome, query_frame, read_end,
                       startup, time_cancel, wait_until)

FORK = multiprocessing.get_context("fork")
ALONE = 61000  # numbers of users that have no other process


def open_strangers(port, count):
    """Connections that send nothing. Those that the node's queue has no room for stay half open."""
    streams = []
    for _ in range(count):
        stream = socket.socket()
        stream.setblocking(False)
        stream.connect_ex(("127.0.0.1", port))
        streams.append(stream)
        if len(streams) % 50 == 0:
            time.sleep(0.01)
    return streams


def judge_cancel(t, when, server, client, port, limit=2.0):
    try:
        took = time_cancel(server, client, port, limit)
    except (Refused, Lost, Late) as error:
        return t.check(False, when, str(error), "struck")
    words = "none" if took is None else f"struck after {took * 1000:.0f} ms"
    return t.check(took is not None, when, words, f"struck within {limit:.0f} s")


def served(count, wrong):
    return f"{count - len(wrong)} of {count} served" + (f", first {wrong[0]}" if wrong else "")


def serve_all(clients, limit=5.0):
    """All clients run a query at once. Returns what came for those that didn't get their own reply."""
    for number, client in enumerate(clients):
        try:
            client.start(f"select 'own {number}'")
        except (Lost, Late):
            pass
    came = [outcome(lambda client=client: client.read_reply(limit)[0][0]) for client in clients]
    return [text for number, text in enumerate(came) if text != f"ok:own {number}"]


def judge_login(t, when, pooler, limit):
    begun = time.monotonic()
    came = outcome(lambda: pooler.client(timeout=limit).value("select 'new'", limit))
    after = time.monotonic() - begun
    t.check(came == "ok:new" and after < limit, when, f"{came} after {after:.1f} s", f"served within {limit} s")


@scenario("idle-connections", limit=60)
def idle_connections(t):
    """2,000 connections of strangers and 1,024 descriptors: clients go on, cancels and logins come through"""
    server = Postgres(t)
    pooler = Pooler(t, {"shop": server.port}, pool=6, clients=100, limits={"NOFILE": 1024})
    clients, canceller = [pooler.client() for _ in range(6)], pooler.client()
    strangers = open_strangers(pooler.port, 2000)
    time.sleep(1)
    wrong = serve_all(clients)
    t.check(not wrong, "six clients that need new server connections", served(6, wrong), "6")
    judge_cancel(t, "a cancel", server, canceller, pooler.port)
    judge_login(t, "a new login", pooler, 5)
    t.note(f"{pooler.memory():.0f} MB, {pooler.threads()} threads, {pooler.descriptors()} descriptors")
    for stream in strangers:
        stream.close()
    judge_login(t, "a login once they left", pooler, 3)


def fill(pooler):
    """Logs in clients until no further connection is served. Returns them, and what the last one got."""
    clients = []
    while len(clients) < 100:
        try:
            clients.append(pooler.client(timeout=3))
        except (Refused, Lost, Late) as error:
            return clients, str(error)
    return clients, "no end"


@scenario("full-node", limit=60)
def full_node(t):
    """A node has as many sessions as its descriptors allow: cancels that come to it are served"""
    server, ports = Postgres(t), {1: t.port(), 2: t.port()}
    first = Pooler(t, {"shop": server.port}, {1: ports[1]}, ports, pool=2)
    full = Pooler(t, {"shop": server.port}, {2: ports[2]}, ports, pool=2, limits={"NOFILE": 80})
    clients, last = fill(full)
    t.check("53300" in last or "reset" in last, f"client {len(clients) + 1}", last, "53300, or a reset")
    for port, where in ((first.port, "forwarded"), (full.port, "sent directly")):
        for number in range(3):
            judge_cancel(t, f"cancel {number + 1}, {where}", server, clients[0], port)


def keep_coming(port, seconds):
    """Connections of strangers come all the time, and each stays until the node ends it."""
    begun, streams, count = time.monotonic(), [], 0
    while (passed := time.monotonic() - begun) < seconds:
        while count < passed * 400:
            streams += open_strangers(port, 1)
            count += 1
        if len(streams) > 3000:
            streams.pop(0).close()
        time.sleep(0.005)


@scenario("idle-flood", limit=60)
def idle_flood(t):
    """400 more connections of strangers each second, and 1,024 descriptors: all clients are served"""
    server = Postgres(t)
    pooler = Pooler(t, {"shop": server.port}, pool=6, clients=100, limits={"NOFILE": 1024})
    canceller = pooler.client()
    flood = FORK.Process(target=keep_coming, args=(pooler.port, 14), daemon=True)
    flood.start()
    others = Others(pooler.port, count=3)
    time.sleep(4)
    for number in range(3):
        judge_cancel(t, f"cancel {number + 1} meanwhile", server, canceller, pooler.port)
        judge_login(t, f"login {number + 1} meanwhile", pooler, 5)
    others.judge(t)
    flood.kill()


@scenario("accept-fails", limit=30)
def accept_fails(t):
    """for a while a connection can't be accepted: clients go on, and those that wait are served afterwards"""
    server = Postgres(t)
    pooler = Pooler(t, {"shop": server.port}, pool=6)
    clients, canceller = [pooler.client() for _ in range(6)], pooler.client()
    wrong = serve_all(clients)
    process = pooler.process.pid
    soft, hard = resource.prlimit(process, resource.RLIMIT_NOFILE)
    resource.prlimit(process, resource.RLIMIT_NOFILE, (3, hard))
    begun, streams = time.monotonic(), open_strangers(pooler.port, 20)
    logins = [connect(pooler.port) for _ in range(3)]
    for stream in logins:
        stream.sendall(startup("shop"))
    while time.monotonic() - begun < 2:
        wrong += serve_all(clients)
    t.check(not wrong, "six clients meanwhile", served(6, wrong), "6")
    lines = pooler.errors().splitlines()
    t.check(any(" accept_failed " in line for line in lines), "the log", lines[-1] if lines else "nothing",
            "accept_failed")
    resource.prlimit(process, resource.RLIMIT_NOFILE, (soft, hard))
    came = [outcome(lambda stream=stream: Reader(stream).read_frame(time.monotonic() + 3)[0]) for stream in logins]
    t.check(came == ["ok:b'R'"] * 3, "three logins that waited", f"{came}", "a login's first message each")
    judge_cancel(t, "a cancel afterwards", server, canceller, pooler.port)
    judge_login(t, "a login afterwards", pooler, 3)
    for stream in [*streams, *logins]:
        stream.close()


def log_in_until_refused(t, pooler, most):
    """Clients log in until five are refused, which is by closing or by an error, and not by silence."""
    clients, faults = [], []
    while len(clients) < most and len(faults) < 5:
        try:
            clients.append(pooler.client(timeout=2.5))
        except (Refused, Lost) as error:
            faults.append(str(error))
        except Late:
            faults.append("silence")
    t.check(faults and "silence" not in faults, "logins", f"{len(clients)} were let in, then {faults}",
            "closed, or an error")
    return clients


@scenario("no-threads", limit=60)
def no_threads(t):
    """a user that may have 40 threads: what is too much is closed, cancels are served, the others go on"""
    if os.getuid() != 0:
        return t.note("skipped: it needs a user of its own, and so root")
    server = Postgres(t)
    user = ALONE + t.random.randrange(2000) + os.getpid() % 1000
    pooler = Pooler(t, {"shop": server.port}, pool=6, clients=300, limits={"NPROC": 40}, user=user)
    others, canceller = Others(pooler.port, count=3), pooler.client()
    clients = log_in_until_refused(t, pooler, 60)
    for number in range(2):
        judge_cancel(t, f"cancel {number + 1} meanwhile", server, canceller, pooler.port)
    others.judge(t)
    for client in clients[:10]:
        client.close()
    time.sleep(0.3)
    judge_login(t, "a login once ten left", pooler, 3)


@scenario("low-memory", limit=60)
def low_memory(t):
    """an address space of 220 MB: what is too much is closed, cancels are served, the others go on"""
    server = Postgres(t)
    pooler = Pooler(t, {"shop": server.port}, pool=6, clients=1000, limits={"AS": 220_000_000})
    others, canceller = Others(pooler.port, count=3), pooler.client()
    canceller.query("select 'first'")
    clients = log_in_until_refused(t, pooler, 400)
    for client in clients:
        try:  # the beginning of a large query
            client.send(query_frame("select '" + "x" * 400_000)[:300_000], 1.0)
        except (Lost, Late):
            pass
    for number in range(2):
        judge_cancel(t, f"cancel {number + 1} meanwhile", server, canceller, pooler.port)
    others.judge(t)
    t.check(pooler.is_running(), "the pooler", f"status {pooler.process.poll()}", "it runs")
    for client in clients:
        client.stream.close()
    time.sleep(0.5)
    judge_login(t, "a login once they left", pooler, 3)


def full_pipe():
    """A pipe that is full and that nobody reads."""
    reader, writer = os.pipe()
    os.set_blocking(writer, False)
    try:
        while True:
            os.write(writer, b"x" * 4096)
    except BlockingIOError:
        pass
    os.set_blocking(writer, True)
    return reader, writer


def meet_dead_server(t, pooler, port):
    """Six clients come, one a second, while the server is down; then it is started."""
    came = []
    for _ in range(6):
        begun = time.monotonic()
        came.append((outcome(lambda: pooler.client(timeout=3).value("select 'x'", 3)), time.monotonic() - begun))
        time.sleep(max(0.0, 1.05 - (time.monotonic() - begun)))
    good = sum(text.startswith("FATAL 08006") for text, _ in came)
    t.check(good == 6, "clients while the server is down", f"{good} of 6 got 08006; {came[-1][0]}", "6")
    server = FakeServer(port)
    wrong = serve_all([pooler.client(timeout=3) for _ in range(4)], 3)
    t.check(not wrong, "four at once when it is back", served(4, wrong), "4")
    t.check(pooler.is_at_rest(), "places afterwards", f"{pooler.places()}", "none held")
    server.close()


@scenario("stderr-full", limit=60)
def stderr_full(t):
    """standard error is a pipe that is full, and the server is down: no place waits for a notice"""
    reader, writer = full_pipe()
    port = t.port()
    pooler = Pooler(t, {"shop": port}, peers={2: t.port()}, pool=4, stderr=writer)
    meet_dead_server(t, pooler, port)
    ends = [read_end(stream, 3) for stream in [send_forward(pooler) for _ in range(4)]]
    t.check(ends == ["byte 45"] * 4, "forwards to a peer that is down", f"{ends}", "byte 45 each")
    pooler.stop()
    pooler = Pooler(t, {"shop": port}, stderr=writer, boot=0)
    came = outcome(lambda: pooler.client(timeout=3).key != b"")
    t.check(came == "ok:True", "a login without a boot number", came, "ok")
    os.close(reader)
    os.close(writer)


def send_forward(pooler):
    time.sleep(1.05)
    return ask_cancel(pooler.port, make_key(2, 0, 7))


@scenario("stderr-closed", limit=60)
def stderr_closed(t):
    """standard error is closed, or its reader is gone: nobody notices"""
    reader, writer = os.pipe()
    os.close(reader)
    port = t.port()
    pooler = Pooler(t, {"shop": port}, pool=4, stderr=writer)
    os.close(writer)
    meet_dead_server(t, pooler, port)
    pooler.stop()
    pooler = Pooler(t, {"shop": port}, pool=4, closed=(2,))
    meet_dead_server(t, pooler, port)


def serve_with(t, redirects):
    """Starts the program with these redirections. Returns its status and what it says on standard error."""
    pooler = Pooler(t, {"shop": t.port()})
    pooler.stop()
    command = " ".join(f"'{word}'" for word in pooler.command())
    try:
        done = subprocess.run(["sh", "-c", f"exec {command} {redirects}"], capture_output=True, text=True, timeout=5,
                              preexec_fn=bind_to_parent)
    except subprocess.TimeoutExpired:
        return "it goes on", ""
    return done.returncode, done.stderr.strip()


@scenario("stdout-closed", limit=30)
def stdout_closed(t):
    """standard output is closed or full: status 1, and a line that says so"""
    cases = {"closed": ">&-", "full": ">/dev/full", "closed with input": "<&- >&-",
             "closed with standard error": ">&- 2>&-", "all closed": "<&- >&- 2>&-"}
    for what, redirects in cases.items():
        status, said = serve_with(t, redirects)
        speaks = "2>" not in redirects
        t.check(status == 1 and (said or not speaks), what, f"status {status}, {said[:80]!r}",
                "status 1" + (" and a line" if speaks else ""))


def send_slowly(stream, data):
    for at in range(len(data) - 1):
        try:
            stream.sendall(data[at : at + 1])
        except OSError:
            return
        time.sleep(4)


@scenario("first-packet-60s", limit=100, slow=True)
def first_packet_60s(t):
    """connections whose first packet doesn't come are reset after 60 seconds"""
    server = FakeServer(t.port())
    pooler = Pooler(t, {"shop": server.port})
    others, begun, streams = Others(pooler.port, count=2), time.monotonic(), []
    for head in (b"", startup("shop")[:10], b""):
        streams.append(connect(pooler.port))
        streams[-1].sendall(head)
    # The last byte is sent before the end: a write after the reset would take the error from the read.
    threading.Thread(target=send_slowly, args=(streams[2], startup("shop")[:15]), daemon=True).start()
    client = pooler.client()
    for stream, what in zip(streams, ("nothing came", "a part came", "a byte came every four seconds")):
        end = read_end(stream, 75 - (time.monotonic() - begun))
        after = time.monotonic() - begun
        t.check(end == RESET and 55 < after < 70, what, f"{end} after {after:.0f} s", "a reset after about 60 s")
    came = outcome(client.value, "select 'late'")
    t.check(came == "ok:late", "a client that idled as long", came, "served")
    others.judge(t)
