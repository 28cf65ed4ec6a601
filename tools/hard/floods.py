"""Floods of cancels, of the console, and of connections that send little and slowly."""
import multiprocessing
import threading
import time

from hard.others import Others
from hard.trial import Pooler, Postgres, scenario
from hard.wire import (Client, Late, Lost, Refused, ask_cancel, connect, frame, make_key, outcome, query_frame,
                       startup, time_cancel)

READY = frame(b"Z", b"I")
FORK = multiprocessing.get_context("fork")


def flood(ports, keys, rate, seconds, counter):
    """Sends cancels at this rate, each on a connection that is left open until it is ended."""
    begun, sent, open_streams = time.monotonic(), 0, []
    while (passed := time.monotonic() - begun) < seconds:
        while sent < passed * rate:
            try:
                open_streams.append(ask_cancel(ports[sent % len(ports)], keys[sent % len(keys)]))
            except (Lost, Late):
                pass
            sent += 1
            counter.value = sent
            if len(open_streams) > 1000:
                open_streams.pop(0).close()
        time.sleep(0.002)


class Askers:
    """Clients that cancel their own queries, one at a time, while others run queries."""

    def __init__(self, server, ports):
        self.server, self.ports, self.times, self.lost = server, ports, [], 0

    def run(self, seconds):
        end, turn = time.monotonic() + seconds, 0
        client = None
        while time.monotonic() < end:
            turn += 1
            try:
                client = client or self.login(turn)
                came = time_cancel(self.server, client, self.ports[turn % len(self.ports)], 2.0)
            except (Refused, Lost, Late):
                came, client = None, None
            self.lost += came is None
            self.times += [came] if came is not None else []
            time.sleep(0.1)

    def login(self, turn):
        return Client(self.ports[turn % len(self.ports)])

    def judge(self, t):
        worst = max(self.times, default=0) * 1000
        figure = f"{len(self.times)} struck, worst {worst:.0f} ms, {self.lost} lost"
        t.check(self.times and not self.lost, "own cancels", figure, "none lost")


def run_flood(t, server, pooler, keys, seconds=6):
    ports, counter = list(pooler.ports.values()), FORK.Value("i", 0)
    process = FORK.Process(target=flood, args=(ports, keys, 1000, seconds, counter), daemon=True)
    process.start()
    others, askers = Others(pooler.port, count=4), Askers(server, ports)
    askers.run(seconds - 0.5)
    process.join(seconds + 10)
    others.judge(t)
    askers.judge(t)
    rate = counter.value / seconds
    good = pooler.is_running() and rate > 300
    memory = pooler.memory() if pooler.is_running() else 0
    t.check(good, "the flood", f"{rate:.0f} cancels a second, {memory:.0f} MB", "the pooler runs")


@scenario("flood-random", limit=60)
def flood_random(t):
    """1,000 cancels a second with keys that nobody has, at one node and at three"""
    server = Postgres(t)
    for count in (1, 3):
        ports = {number: t.port() for number in range(1, count + 1)}
        pooler = Pooler(t, {"shop": server.port}, ports, pool=8)
        peers, slots = range(1, count + 1), range(20)
        keys = [make_key(t.random.choice(peers), t.random.choice(slots), t.random.getrandbits(32)) for _ in range(500)]
        run_flood(t, server, pooler, keys)
        pooler.stop()


@scenario("flood-stolen", limit=60)
def flood_stolen(t):
    """1,000 cancels a second with the key of one client that runs queries"""
    server = Postgres(t)
    pooler = Pooler(t, {"shop": server.port}, pool=10)
    victim, stopping = pooler.client(), threading.Event()

    def be_struck():
        while not stopping.is_set():
            outcome(victim.query, "select pg_sleep(0.02)")

    thread = threading.Thread(target=be_struck, daemon=True)
    timer = threading.Timer(0.3, thread.start)  # after the flood's process was forked
    timer.start()
    run_flood(t, server, pooler, [victim.key], 8)
    stopping.set()
    thread.join(5)
    time.sleep(0.3)
    came = outcome(lambda: pooler.client().value("select 'after'"))
    t.check(came == "ok:after", "a client afterwards", came, "served")


def ask_console(port, seconds, counter):
    console, end = Client(port, "pgbouncer"), time.monotonic() + seconds
    while time.monotonic() < end:
        for what in ("CLIENTS", "LINKS", "CANCELS", "nothing"):
            console.start(f"SHOW {what}")
            tail = b""
            while not tail.endswith(READY):
                tail = tail[-5:] + console.stream.recv(262144)
            counter.value += 1


@scenario("console-flood", limit=60)
def console_flood(t):
    """2,000 clients are logged in, and three consoles ask all the time"""
    server = Postgres(t)
    pooler = Pooler(t, {"shop": server.port}, pool=8, clients=2100)
    crowd = [pooler.client() for _ in range(2000)]
    others = Others(pooler.port, count=4)
    time.sleep(2)
    before = others.measure()
    counters = [FORK.Value("i", 0) for _ in range(3)]
    for counter in counters:
        FORK.Process(target=ask_console, args=(pooler.port, 5, counter), daemon=True).start()
    others = Others(pooler.port, count=4)
    time.sleep(5)
    others.judge(t, limit=max(0.1, 5 * before))
    answers = sum(counter.value for counter in counters)
    t.check(answers > 100, "answers of the console", f"{answers / 5:.0f} a second", "more than 20")
    for client in crowd:
        client.stream.close()


def drip(streams, data, pauses):
    """Sends data a byte at a time, all connections in turn."""
    for at in range(pauses):
        for stream in streams:
            try:
                stream.sendall(data[at : at + 1])
            except OSError:
                pass
        time.sleep(0.4)


@scenario("loris-startup", limit=40)
def loris_startup(t):
    """200 connections send their first packet a byte at a time"""
    server = Postgres(t)
    pooler = Pooler(t, {"shop": server.port})
    others, streams = Others(pooler.port), [connect(pooler.port) for _ in range(200)]
    drip(streams, startup("shop"), 10)
    others.judge(t)
    came = outcome(lambda: pooler.client().value("select 'new'"))
    t.check(came == "ok:new", "a new client", came, "served")
    for stream in streams:
        stream.close()


@scenario("loris-message", limit=40)
def loris_message(t):
    """200 clients send a query a byte at a time: they hold no server connection"""
    server = Postgres(t)
    pooler = Pooler(t, {"shop": server.port}, pool=2, clients=300)
    others, clients = Others(pooler.port, count=2), [pooler.client() for _ in range(200)]
    drip([client.stream for client in clients], query_frame("select 'slow'"), 8)
    group = frame(b"P", b"\0select 1\0\0\0")
    for client in clients:
        client.stream.close()
    slow = [pooler.client() for _ in range(20)]
    for client in slow:
        client.send(group)  # the beginning of a group, without its Sync
    time.sleep(1)
    held = pooler.places().get("held", 0)
    others.judge(t)
    t.check(held <= 2, "places while 20 groups are open", f"{pooler.places()}", "none held by them")
