"""Strangers use up what there is: connections, consoles, places for cancels, the metrics port; and settings that
lead back to the process."""
import os
import socket
import subprocess
import threading
import time

from hard.fake import FakeServer
from hard.shortage import fill, judge_cancel, judge_login, open_strangers
from hard.trial import Pooler, Postgres, scenario, write_settings
from hard.wire import Late, Lost, Refused, ask_cancel, make_key, outcome, query_frame, startup, wait_until

FULL = "FATAL 53300 too many clients"


def refuse(port, count, words):
    """So many connections send these bytes, and then a byte now and then, after their error. Returns them."""
    streams = []
    for _ in range(count):
        stream = socket.socket()
        stream.settimeout(2.0)
        try:
            stream.connect(("127.0.0.1", port))
            stream.sendall(words)
        except OSError:
            pass
        streams.append(stream)

    def dribble():
        while True:
            for stream in streams:
                try:
                    stream.send(b"x", socket.MSG_DONTWAIT)
                except OSError:
                    pass
            time.sleep(0.3)

    threading.Thread(target=dribble, daemon=True).start()
    return streams


@scenario("limit-low", limit=60)
def limit_low(t):
    """max_client_conn is above the limit of descriptors: the start says so, and at the limit cancels are served"""
    server = Postgres(t)
    pooler = Pooler(t, {"shop": server.port}, pool=2, clients=1000, limits={"NOFILE": 144})
    wait_until(lambda: pooler.log_lines("node_listens"), 3)
    lines = pooler.log_lines("limit_low")
    good = len(lines) == 1 and lines[0][2:4] == ["warn", "limit_low"] and "limit=144" in lines[0] and any(
        word.startswith("needed=") and int(word[7:]) > 1000 for word in lines[0])
    t.check(good, "the log", f"{[' '.join(words[2:]) for words in lines]}", "one line, with both numbers")
    clients, last = fill(pooler)
    t.check(last == FULL, f"client {len(clients) + 1}", last, FULL)
    for client, who in ((clients[0], "first"), (clients[-1], "last")):
        judge_cancel(t, f"a cancel of the {who} client", server, client, pooler.port)
    clients.pop(3).close()
    time.sleep(0.2)
    judge_login(t, "a login once one has left", pooler, 3)
    enough = Pooler(t, {"shop": server.port}, pool=2, clients=20, limits={"NOFILE": 144})
    wait_until(lambda: enough.log_lines("node_listens"), 3)
    t.check(not enough.log_lines("limit_low"), "the log with 20 clients", f"{enough.log_lines('limit_low')}", "no line")


@scenario("console-hoard", limit=100)
def console_hoard(t):
    """200 sessions on the console: 32 are served, logins and cancels too; each ends after a minute of silence"""
    server = Postgres(t)
    pooler = Pooler(t, {"shop": server.port}, clients=50, limits={"NOFILE": 256})
    canceller = pooler.client()
    consoles, faults = [], []
    for _ in range(200):
        try:
            consoles.append(pooler.client(database="pgbouncer", timeout=3))
        except (Refused, Lost, Late) as error:
            faults.append(str(error))
    begun = time.monotonic()
    good = len(consoles) == 32 and set(faults) == {FULL}
    t.check(good, "consoles", f"{len(consoles)} served, the others {sorted(set(faults))}", f"32, {FULL}")
    judge_login(t, "a login meanwhile", pooler, 3)
    judge_cancel(t, "a cancel meanwhile", server, canceller, pooler.port)
    consoles.pop().close()
    time.sleep(0.3)
    came = outcome(lambda: len(pooler.client(database="pgbouncer").query("SHOW CANCELS")))
    t.check(came == "ok:8", "a console once one has left", came, "served")
    quiet, busy = consoles[:10], consoles[10]
    while time.monotonic() - begun < 55:
        time.sleep(5)
        busy.query("SHOW CANCELS")
    ended = wait_until(lambda: all(client.has_reply(0) for client in quiet), 20)
    after = time.monotonic() - begun
    came = outcome(lambda: len(busy.query("SHOW CANCELS")))
    t.check(ended is not None and 57 < after < 70, "ten silent ones", f"end after {after:.0f} s", "a minute")
    t.check(came == "ok:8", "one that asks", came, "served")


@scenario("refused-hoard", limit=60)
def refused_hoard(t):
    """1,000 refused logins stay and send a byte now and then: logins and cancels are served"""
    server = Postgres(t)
    pooler = Pooler(t, {"shop": server.port}, clients=100, limits={"NOFILE": 200})
    canceller = pooler.client()
    hoard = threading.Thread(target=lambda: streams.extend(refuse(pooler.port, 1000, startup("nowhere"))))
    streams = []
    hoard.start()
    time.sleep(0.5)
    for number in range(3):
        judge_login(t, f"login {number + 1} meanwhile", pooler, 3)
        judge_cancel(t, f"cancel {number + 1} meanwhile", server, canceller, pooler.port)
    hoard.join()
    judge_login(t, "a login behind them", pooler, 3)
    came = [outcome(lambda: pooler.client(database="nowhere")) for _ in range(3)]
    t.check(came == ["FATAL 3D000 no such database"] * 3, "three more", f"{came}", "their error")
    for stream in streams:
        stream.close()


def never_ends(*_):
    time.sleep(60)


def keep_asking(port, keys, count):
    """So many cancels with each of these keys; their connections stay open. Returns them."""
    streams = []
    for key in keys:
        for _ in range(count):
            streams.append(ask_cancel(port, key))
    return streams


@scenario("held-seats-two", limit=60)
def held_seats_two(t):
    """a server never ends cancels, and two clients ask 130 times each: the cancels of others are served at once"""
    server, stuck = Postgres(t), FakeServer(t.port(), on_cancel=never_ends)
    pooler = Pooler(t, {"shop": server.port, "stuck": stuck.port, "twin": stuck.port})
    askers = [pooler.client(database=name) for name in ("stuck", "stuck", "twin")]
    for client in askers:
        client.start("select pg_sleep(50)")
    wait_until(lambda: sum(backend.running is not None for backend in stuck.backends) == 3, 5)
    streams = keep_asking(pooler.port, [client.key for client in askers], 130)
    time.sleep(0.5)
    t.check(len(stuck.cancels) == 64, "cancels at the server", len(stuck.cancels), "64")
    canceller = pooler.client()
    for number in range(3):
        judge_cancel(t, f"cancel {number + 1} at another database", server, canceller, pooler.port)
    for stream in streams:
        stream.close()


@scenario("frozen-peer", limit=60)
def frozen_peer(t):
    """300 made-up cancels for a peer that doesn't respond: those for a healthy node and the node's own are served"""
    server = Postgres(t)
    frozen = FakeServer(t.port(), on_cancel=never_ends)
    ports = {1: t.port(), 2: t.port()}
    peers = {**ports, 3: frozen.port}
    first, second = (Pooler(t, {"shop": server.port}, {number: port}, peers) for number, port in ports.items())
    there, own = second.client(), first.client()
    streams = [ask_cancel(first.port, make_key(3, slot % 100, slot)) for slot in range(300)]
    time.sleep(0.5)
    t.check(len(frozen.cancels) == 64, "cancels at the peer", len(frozen.cancels), "64")
    for number in range(3):
        judge_cancel(t, f"cancel {number + 1} through the healthy node", server, there, first.port)
        judge_cancel(t, f"cancel {number + 1} of its own", server, own, first.port)
    for stream in streams:
        stream.close()


@scenario("dribble-drain", limit=60)
def dribble_drain(t):
    """the process drains while clients have sent a part of a message: it ends within 5 seconds"""
    server = Postgres(t)
    for what, goes_on in (("one byte, then silence", False), ("a byte now and then", True)):
        pooler = Pooler(t, {"shop": server.port}, stdin=subprocess.PIPE, words=["--until-eof"])
        clients = [pooler.client() for _ in range(3)]
        for client in clients:
            client.query("select 1")
            client.send(query_frame("select 'whole, and long'")[:1])
        time.sleep(0.5)
        begun = time.monotonic()
        pooler.process.stdin.close()
        text = query_frame("select 'whole, and long'")[1:]
        for at in range(20):
            if goes_on:
                for client in clients:
                    outcome(client.send, text[at : at + 1])
            if pooler.process.poll() is not None:
                break
            time.sleep(0.25)
        came = [outcome(client.read_reply, 5) for client in clients]
        words = "FATAL 57P01 terminating connection due to administrator command"
        t.check(came == [words] * 3 or goes_on, what, f"{came}", words)
        for client in clients:
            client.stream.close()
        status = outcome(pooler.process.wait, 20)
        after = time.monotonic() - begun
        t.check(status == "ok:0" and after < 6.0, f"the process, {what}", f"{status} after {after:.1f} s", "0 within 5 s")


def places_free(t, what, pooler, begun):
    """The one place of the pool is free within two seconds."""
    came = outcome(lambda: pooler.client(timeout=12).value("select 'next'", 12))
    after = time.monotonic() - begun
    t.check(came == "ok:next" and after < 2.5, what, f"{came} after {after:.1f} s", "within 2 s")


@scenario("dribble-transaction", limit=60)
def dribble_transaction(t):
    """a server ends an idle transaction while its client sends a byte now and then: the place is free"""
    server = Postgres(t, {"idle_in_transaction_session_timeout": "1s"})
    for what, pause in (("silent", None), ("a byte each 0.2 s", 0.2)):
        pooler = Pooler(t, {"shop": server.port}, pool=1)
        client = pooler.client()
        client.query("begin")
        begun, goes_on = time.monotonic() + 1.0, [True]

        def dribble(client=client, pause=pause, goes_on=goes_on):
            for byte in query_frame("select '" + "x" * 200 + "'"):
                if pause is None or not goes_on[0]:
                    return
                outcome(client.send, bytes([byte]))
                time.sleep(pause)

        sender = threading.Thread(target=dribble, daemon=True)
        sender.start()
        places_free(t, f"a place, {what}", pooler, begun)
        goes_on[0] = False
        sender.join()
        came = outcome(client.read_reply, 3)
        t.check("25P03" in came or "lost" in came, f"its client, {what}", came, "25P03")
        pooler.stop()


@scenario("unread-result", limit=60)
def unread_result(t):
    """clients don't read their results and their server connections are ended: the places are free"""
    server = Postgres(t, {"idle_in_transaction_session_timeout": "4s"})
    end = "select pg_terminate_backend(pid) from pg_stat_activity where state = 'idle in transaction'"
    for what, asked in (("terminated", end), ("timed out", "select pg_sleep(3)")):
        pooler = Pooler(t, {"shop": server.port}, pool=2)
        clients = [pooler.client() for _ in range(2)]
        for client in clients:
            client.send(query_frame("begin") + query_frame("select repeat('x', 100000)") * 100)
        time.sleep(1.5)
        t.check(pooler.places().get("held") == 2, f"places, {what}", f"{pooler.places()}", "both held")
        begun = time.monotonic()
        server.ask(asked)
        places_free(t, f"a place, {what}", pooler, begun + (3.0 if what == "timed out" else 0.0))
        slow = pooler.client()
        slow.start("select repeat('x', 1000) from generate_series(1, 20000)")
        time.sleep(2.0)
        rows = outcome(lambda slow=slow: len(slow.read_reply(20)))
        t.check(rows == "ok:20000", "a client that reads late", rows, "all rows")
        for client in [*clients, slow]:
            client.stream.close()
        pooler.stop()


def scrape(port, timeout):
    begun = time.monotonic()
    try:
        with socket.create_connection(("127.0.0.1", port), timeout) as stream:
            stream.sendall(b"GET /metrics HTTP/1.1\r\nHost: x\r\n\r\n")
            stream.settimeout(timeout)
            head = stream.recv(15)
    except OSError as error:
        head = str(error).encode()
    return head, time.monotonic() - begun


@scenario("metrics-silent", limit=60)
def metrics_silent(t):
    """40 and 200 silent connections at the metrics port: a scrape takes below a second"""
    server = Postgres(t)
    port = t.port()
    pooler = Pooler(t, {"shop": server.port}, words=["--metrics", str(port)])
    for count in (0, 4, 40, 200):
        silent = open_strangers(port, count)
        time.sleep(0.1)
        head, after = scrape(port, 15)
        good = head == b"HTTP/1.1 200 OK" and after < 1.0
        t.check(good, f"a scrape behind {count}", f"{head} after {after:.2f} s", "200 within a second")
        for stream in silent:
            stream.close()
    t.check(pooler.is_running(), "the pooler", "runs", "runs")


def start_with(t, files, front):
    """Starts `serve` with these settings. Returns its status and its words."""
    command = [t.options.program, "serve", "--front", str(front), "--seed", os.urandom(32).hex(), "--boot", "1", *files]
    try:
        done = subprocess.run(command, capture_output=True, text=True, timeout=5)
    except subprocess.TimeoutExpired:
        return "it goes on", ""
    return done.returncode, done.stderr.strip()


@scenario("self-loop", limit=30)
def self_loop(t):
    """an entry leads to the process itself: it is refused at the start, and both lines are named"""
    ports, front, other = {1: t.port(), 2: t.port()}, t.port(), t.port()
    names = {number: f"{t.folder}/{number}.ini" for number in ports}

    def write(databases, peers):
        for number, name in names.items():
            with open(name, "w") as file:
                file.write(write_settings(number, ports[number], databases[number], peers[number], 4, 10))

    plain = {1: {"shop": other}, 2: {"shop": other}}
    both = {1: {2: ports[2]}, 2: {1: ports[1]}}
    listens = f"{names[2]}:5"
    cases = [("a database at a node", {**plain, 1: {"shop": other, "round": ports[2]}}, both, f"{names[1]}:11", listens),
             ("a database at the front", {**plain, 2: {"round": front}}, both, f"{names[2]}:10", f"--front {front}"),
             ("a peer at the front", plain, {**both, 1: {2: front}}, f"{names[1]}:12", f"--front {front}"),
             ("a peer at another node", plain, {1: {2: ports[2], 7: ports[2]}, 2: {1: ports[1], 7: other}},
              f"{names[1]}:13", listens)]
    for what, databases, peers, one, two in cases:
        write(databases, peers)
        status, said = start_with(t, names.values(), front)
        t.check(status == 2 and one in said and two in said, what, f"status {status}: {said[-160:]}",
                f"status 2, {one} and {two}")
    write(plain, both)
    status, said = start_with(t, names.values(), front)
    t.check(status == "it goes on", "peers at each other's nodes", f"{status} {said[-160:]}", "they are served")
