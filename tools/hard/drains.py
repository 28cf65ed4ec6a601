"""A group whose standard input ends: it drains."""
import os
import subprocess
import threading
import time

from hard.fake import FakeServer
from hard.trial import Pooler, Postgres, scenario
from hard.wire import (CLEAN, RESET, Late, Lost, Refused, ask_cancel, connect, outcome, query_frame, read_end,
                       wait_until)

WORDS = "FATAL 57P01 terminating connection due to administrator command"


def start(t, databases, **more):
    return Pooler(t, databases, stdin=subprocess.PIPE, words=["--until-eof"], **more)


def last_words(client, timeout):
    """What ends a session, and after how many seconds."""
    begun = time.monotonic()
    return outcome(client.read_reply, timeout), time.monotonic() - begun


def is_refused(port):
    try:
        connect(port, 2.0).close()
        return False
    except (Lost, Late):
        return True


def end_of(pooler, timeout):
    """The process's status, and after how many seconds it ends."""
    begun = time.monotonic()
    try:
        return pooler.process.wait(timeout), time.monotonic() - begun
    except subprocess.TimeoutExpired:
        return "it goes on", timeout


def lines_of(pooler, event):
    """The lines of the log of an event that begins so, behind their time and node."""
    with open(f"{pooler.base}.err") as err:
        return [line.split(maxsplit=2)[2].strip() for line in err if f" {event}" in line]


@scenario("drain", limit=60)
def drain(t):
    """standard input ends: sessions end between transactions, cancels are carried, the status is 0"""
    server, slow = Postgres(t), FakeServer(t.port(), on_cancel=lambda *_: time.sleep(2))
    ports = {1: t.port(), 2: t.port()}
    pooler = start(t, {"shop": server.port, "slow": slow.port}, ports=ports, pool=2)
    idle = [pooler.client() for _ in range(20)]
    for client in idle[:10]:
        client.query("select 1")
    quiet, console = pooler.client(2), pooler.client(1, "pgbouncer")
    stranger, opener, asked = connect(pooler.port), pooler.client(), pooler.client(1, "slow")
    busy, waiting, half = pooler.client(), pooler.client(), pooler.client()
    half.send(query_frame("select 'whole'")[:7])
    opener.query("begin")
    busy.start("select pg_sleep(3)")
    wait_until(lambda: server.is_running("select pg_sleep(3)"), 5)
    waiting.start("select 'waited'")
    asked.start("select pg_sleep(20)")
    wait_until(lambda: any(backend.running for backend in slow.backends), 5)
    requester = ask_cancel(pooler.ports[2], asked.key)
    wait_until(lambda: slow.cancels, 5)
    time.sleep(1.0)
    begun = time.monotonic()
    pooler.process.stdin.close()
    for what, clients in (("idle", idle), ("idle at another node", [quiet]), ("at the console", [console])):
        ends = [last_words(client, 5)[0] for client in clients]
        after = time.monotonic() - begun
        good = ends == [WORDS] * len(clients) and after < 1.0
        figure = f"{ends.count(WORDS)} of {len(ends)} within {after:.2f} s; {ends[-1]}"
        t.check(good, f"sessions {what}", figure, WORDS)
    doors = [pooler.front, *ports.values()]
    t.check(all(map(is_refused, doors)), "new connections", f"{[is_refused(port) for port in doors]}", "refused")
    end = read_end(stranger, 5)
    t.check(end == RESET and time.monotonic() - begun < 2.0, "a connection in its first packets",
            f"{end} after {time.monotonic() - begun:.2f} s", RESET)
    t.check(pooler.is_running(), "the process meanwhile", "runs" if pooler.is_running() else "ended", "runs")
    end_transactions(t, begun, busy, waiting, opener)
    half.send(query_frame("select 'whole'")[7:])
    came = [outcome(half.read_reply, 5), last_words(half, 5)[0]]
    good = came == ["ok:[('whole',)]", WORDS]
    t.check(good, "a client that had sent a part of its query", f"{came}", "its row, " + WORDS)
    end, came = read_end(requester, 5), outcome(asked.read_reply, 5)
    t.check(end == CLEAN and came.startswith("ERROR 57014"), "a cancel under way", f"{end}; {came}", CLEAN)
    came = last_words(asked, 5)[0]
    t.check(came == WORDS, "its client behind that", came, WORDS)
    for client in [*idle, quiet, console, busy, waiting, half, opener, asked]:
        client.stream.close()
    status, after = end_of(pooler, 5)
    t.check(status == 0 and after < 2.0, "the process", f"status {status} after {after:.2f} s", "0")
    told = lines_of(pooler, "stopp")
    good = len(told) == 2 and told[0].startswith("notice stopping ") and told[1] == "notice stopped connections=0"
    t.check(good, "the log", f"{told}", "stopping, stopped")
    slow.close()


def end_transactions(t, begun, busy, waiting, opener):
    """A query that runs, one that waits, and a transaction that is open: each comes to its end."""
    came = outcome(busy.read_reply, 10)
    t.check(came.startswith("ok:"), "a query that ran", f"{came} after {time.monotonic() - begun:.2f} s", "its rows")
    came = outcome(waiting.read_reply, 10)
    t.check(came == "ok:[('waited',)]", "a query that waited", came, "its rows")
    for who, client in (("ran", busy), ("waited", waiting)):
        came, after = last_words(client, 5)
        t.check(came == WORDS and after < 1.0, f"the session of the query that {who}", f"{came} after {after:.2f} s",
                WORDS)
    came = [outcome(opener.query, text) for text in ("select 'within'", "commit")]
    t.check(came == ["ok:[('within',)]", "ok:[]"], "an open transaction", f"{came}", "it goes on")
    came, after = last_words(opener, 5)
    t.check(came == WORDS and after < 1.0, "its session", f"{came} after {after:.2f} s", WORDS)


@scenario("drain-busy", limit=60)
def drain_busy(t):
    """standard input ends under load: each transaction comes to its end, or isn't begun"""
    server = Postgres(t)
    server.ask("create table seen (number int)")
    pooler = start(t, {"shop": server.port}, pool=4)
    ends, done = [], []

    def work(number):
        client, count = pooler.client(), 0
        try:
            while True:
                client.query("begin")
                client.query(f"insert into seen values ({number})")
                client.query("commit")
                count += 1
        except (Refused, Lost, Late) as error:
            ends.append(str(error))
        done.append((number, count))
        client.stream.close()

    workers = [threading.Thread(target=work, args=(number,)) for number in range(16)]
    for worker in workers:
        worker.start()
    time.sleep(1.0)
    pooler.process.stdin.close()
    for worker in workers:
        worker.join(15)
    good = ends == [WORDS] * 16
    t.check(good, "16 clients", f"{ends.count(WORDS)} of {len(ends)} got 57P01; {sorted(set(ends))}", WORDS)
    seen = {int(number): int(count) for number, count in server.ask("select number, count(*) from seen group by 1")}
    lost = sum(seen.get(number, 0) != count for number, count in done)
    t.check(lost == 0, "their transactions", f"{sum(seen.values())} committed, {lost} clients counted others", "none")
    status, after = end_of(pooler, 5)
    t.check(status == 0, "the process", f"status {status} after {after:.2f} s", "0")


@scenario("drain-limit", limit=100)
def drain_limit(t):
    """a session stays in its transaction: the process ends after a minute, with the status 0"""
    server = Postgres(t)
    pooler = start(t, {"shop": server.port})
    client = pooler.client()
    client.query("begin")
    begun = time.monotonic()
    pooler.process.stdin.close()
    time.sleep(50)
    came = outcome(client.query, "select 'still'")
    t.check(came == "ok:[('still',)]", "the transaction after 50 s", came, "it goes on")
    status, _ = end_of(pooler, 20)
    after = time.monotonic() - begun
    t.check(status == 0 and 58 < after < 65, "the process", f"status {status} after {after:.1f} s", "0 after 60 s")
    told = lines_of(pooler, "stopped")
    t.check(told == ["notice stopped connections=1"], "the log", f"{told}", "one connection was left")


@scenario("drain-input", limit=30)
def drain_input(t):
    """without the option standard input isn't read; with it what comes before its end is passed over"""
    server = Postgres(t)
    pooler = Pooler(t, {"shop": server.port}, stdin=subprocess.PIPE)
    pooler.process.stdin.close()
    time.sleep(1.0)
    came = outcome(pooler.client().value, "select 'served'")
    t.check(came == "ok:served", "without the option", came, "served")
    pooler.stop()
    pooler = start(t, {"shop": server.port})
    os.write(pooler.process.stdin.fileno(), b"x\n" * 5000)
    time.sleep(1.0)
    came = outcome(pooler.client().value, "select 'served'")
    t.check(came == "ok:served", "input before its end", came, "served")
    pooler.process.stdin.close()
    status, after = end_of(pooler, 5)
    t.check(status == 0 and after < 3.0, "the process", f"status {status} after {after:.2f} s", "0")
