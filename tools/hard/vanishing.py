"""Clients that are gone, and what they leave behind."""
import socket
import time

from hard.fake import FakeServer
from hard.trial import Pooler, Postgres, enter_network, scenario
from hard.wire import (Client, Late, Lost, Refused, connect, frame, outcome, query_frame, read_end, reset, startup,
                       wait_until)


def leave_by_end(client):
    client.stream.close()


def leave_politely(client):
    client.send(frame(b"X"))
    client.stream.close()


LEAVES = {"RST": Client.vanish, "FIN": leave_by_end, "Terminate and FIN": leave_politely}


@scenario("vanish-running", limit=60)
def vanish_running(t):
    """a client is gone while its query runs: its place is free within a second, its transaction rolled back"""
    server = Postgres(t)
    server.ask("create table t (word text)")
    pooler = Pooler(t, {"shop": server.port}, pool=1)
    for way, leave in LEAVES.items():
        client, after = pooler.client(), pooler.client()
        client.query("begin")
        client.query(f"insert into t values ('{way}')")
        client.start("select pg_sleep(6)")
        time.sleep(0.3)
        leave(client)
        begun = time.monotonic()
        came = outcome(after.value, "select 'next'", 12)
        took = time.monotonic() - begun
        t.check(came == "ok:next" and took < 2, f"the next client after {way}", f"{came} after {took:.1f} s",
                "served within 2 s")
    wait_until(lambda: server.ask("select count(*) from pg_stat_activity where query like '%pg_sleep(6)'"
                                  " and pid <> pg_backend_pid()")[0][0] == "0", 8)
    rows = server.ask("select count(*) from t")[0][0]
    t.check(rows == "0", "rows of those who left", rows, "0")


TCP_REPAIR = 19


def vanish_silently(stream):
    """The other side isn't told that the connection is over, as if this machine were gone."""
    stream.setsockopt(socket.IPPROTO_TCP, TCP_REPAIR, 1)
    stream.close()


def send_keepalives_soon():
    for name, value in (("time", 1), ("intvl", 1), ("probes", 2)):
        with open(f"/proc/sys/net/ipv4/tcp_keepalive_{name}", "w") as file:
            file.write(str(value))


@scenario("vanish-silently", limit=60)
def silent_death(t):
    """a server or a client is gone without a word: keepalives end its connection"""
    if not enter_network():
        return t.note("no network namespace can be made: not tried")
    send_keepalives_soon()
    server = FakeServer(t.port())
    pooler = Pooler(t, {"shop": server.port}, pool=1)
    client = pooler.client()
    client.start("select pg_sleep(60)")
    wait_until(lambda: server.is_running("select pg_sleep(60)"), 5)
    vanish_silently(server.backends[-1].stream)
    begun = time.monotonic()
    came = outcome(client.read_reply, 15)
    took = time.monotonic() - begun
    t.check("FATAL 08006" in came and took < 10, "a client whose server is gone", f"{came} after {took:.1f} s",
            "FATAL 08006 within 10 s")
    for texts in (["begin"], ["begin", "select pg_sleep(60)"]):
        client, after = pooler.client(), pooler.client()
        client.query(texts[0])
        for text in texts[1:]:
            client.start(text)
        time.sleep(0.3)
        vanish_silently(client.stream)
        begun = time.monotonic()
        came = outcome(after.value, "select 'next'", 15)
        took = time.monotonic() - begun
        t.check(came == "ok:next" and took < 10, f"the next client after one that is gone with {texts[-1]!r}",
                f"{came} after {took:.1f} s", "served within 10 s")


@scenario("vanish-waiting", limit=60)
def vanish_waiting(t):
    """10 clients send an INSERT, wait for a server connection and leave: none of the INSERTs runs"""
    server = Postgres(t)
    server.ask("create table t (word text)")
    pooler = Pooler(t, {"shop": server.port}, pool=1)
    for when, pause in (("1.5 s before a place is free", 1.5), ("30 ms before", 0.03)):
        holder = pooler.client()
        holder.query("begin")
        waiters = [pooler.client() for _ in range(10)]
        for client in waiters:
            client.start("insert into t values ('waited')")
        time.sleep(0.5)
        for number, client in enumerate(waiters):
            list(LEAVES.values())[number % len(LEAVES)](client)
        time.sleep(pause)
        holder.query("commit")
        served = outcome(holder.value, "select 'next'")
        wait_until(pooler.is_at_rest, 5)
        time.sleep(0.2)
        rows = server.ask("select count(*) from t")[0][0]
        t.check(rows == "0" and served == "ok:next", f"INSERTs that ran, of clients that left {when}",
                f"{rows} of 10; the next query {served}", "0")
        server.ask("delete from t")


@scenario("vanish-opening", limit=40)
def vanish_opening(t):
    """a client is gone while its server connection is being opened: its place isn't lost"""
    for way, leave in LEAVES.items():
        server = FakeServer(t.port(), on_login=lambda backend: (time.sleep(1.5), backend.send(backend.greeting()))[0])
        pooler = Pooler(t, {"shop": server.port}, pool=1)
        client, after = pooler.client(), pooler.client()
        client.start("select 'gone'")
        time.sleep(0.5)
        leave(client)
        begun = time.monotonic()
        came = outcome(after.value, "select 'next'", 8)
        took = time.monotonic() - begun
        t.check(came == "ok:next" and took < 5, f"the next client after {way}", f"{came} after {took:.1f} s",
                "served within 5 s, two logins at the server")
        ran = server.asked.count("select 'gone'")
        t.check(ran == 0, f"its request after {way}", f"ran {ran} times", "0 times")
        pooler.stop()
        server.close()


def end_by_limit(client, server):
    client.query("set local idle_in_transaction_session_timeout = 300")
    time.sleep(0.3)


def end_by_administrator(client, server):
    pid = client.value("select pg_backend_pid()")
    server.ask(f"select pg_terminate_backend({pid})")


@scenario("idle-transaction", limit=40)
def idle_transaction(t):
    """the server ends an idle transaction: its place is free within a second, its client is told"""
    server = Postgres(t)
    pooler = Pooler(t, {"shop": server.port}, pool=1)
    for end, code in ((end_by_limit, "25P03"), (end_by_administrator, "57P01")):
        idle, after = pooler.client(), pooler.client()
        idle.query("begin")
        end(idle, server)
        begun = time.monotonic()
        came = outcome(after.value, "select 'next'", 8)
        took = time.monotonic() - begun
        what = end.__name__.replace("end_by_", "")
        t.check(came == "ok:next" and took < 2, f"the next client, ended by the {what}",
                f"{came} after {took:.1f} s", "served within 2 s")
        told = outcome(idle.query, "select 'late'", 5)
        t.check(f"FATAL {code}" in told, f"the client's own next request, ended by the {what}", told, f"FATAL {code}")
        if came != "ok:next":
            idle.close()
            outcome(after.read_reply, 5)


def half_close_start(pooler):
    stream = connect(pooler.port)
    stream.sendall(startup("shop")[:10])
    return stream


def half_close_after(*texts, more=b""):
    def open_client(pooler):
        client = pooler.client()
        for text in texts:
            client.query(text)
        client.send(more)
        return client.stream

    return open_client


@scenario("half-closed", limit=40)
def half_closed(t):
    """clients that close their sending side in four phases: each connection ends, each place is free"""
    server = Postgres(t)
    pooler = Pooler(t, {"shop": server.port}, pool=1)
    phases = {"within the first packet": half_close_start, "after the login": half_close_after(),
              "in a transaction": half_close_after("begin"),
              "behind a query": half_close_after(more=query_frame("select 'half'"))}
    for phase, open_client in phases.items():
        stream = open_client(pooler)
        stream.shutdown(socket.SHUT_WR)
        begun = time.monotonic()
        end = read_end(stream, 5)
        after = time.monotonic() - begun
        came = outcome(lambda: pooler.client().value("select 'next'", 5))
        t.check(end != "no end" and after < 2 and came == "ok:next", phase,
                f"ended after {after:.2f} s, the next client {came}", "ended within 2 s, the next served")
        stream.close()


def reset_phases():
    """For each phase how far a client goes before it resets its connection."""
    parse = frame(b"P", b"\0select 1\0\0\0") + frame(b"B", b"\0" * 8)

    def logged_in(*texts, more=b"", pause=0.0):
        def go(pooler):
            client = pooler.client()
            for text in texts:
                client.query(text)
            client.send(more)
            time.sleep(pause)
            client.vanish()

        return go

    def first(data):
        def go(pooler):
            stream = connect(pooler.port)
            stream.sendall(data)
            reset(stream)

        return go

    return {"at once": first(b""), "in the first packet": first(startup("shop")[:9]),
            "behind the first packet": first(startup("shop")), "after the login": logged_in(),
            "in a message": logged_in(more=query_frame("select 1")[:7]),
            "behind a query": logged_in(more=query_frame("select repeat('x', 100000)")),
            "in a running query": logged_in(more=query_frame("select pg_sleep(0.5)"), pause=0.05),
            "in a transaction": logged_in("begin", "update t set word = 'x'"),
            "in a group": logged_in(more=parse)}


@scenario("rst", limit=60)
def rst(t):
    """clients reset their connections in nine phases: nothing of them stays"""
    server = Postgres(t)
    server.ask("create table t (word text)")
    server.ask("insert into t values ('one')")
    pooler = Pooler(t, {"shop": server.port}, pool=4)
    pooler.client().query("select 1")
    before = pooler.descriptors()
    for phase, go in reset_phases().items():
        for _ in range(12):
            try:
                go(pooler)
            except (Refused, Lost, Late) as error:
                t.note(f"{phase}: {error}")
        begun = time.monotonic()
        came = outcome(lambda: pooler.client().query("update t set word = 'y'", 6))
        took = time.monotonic() - begun
        t.check(came.startswith("ok") and took < 2.5, phase, f"row lock free after {took:.2f} s: {came}",
                "within 2.5 s")
    rested = wait_until(lambda: pooler.is_at_rest() and pooler.descriptors() <= before + 6, 5)
    t.check(rested is not None, "afterwards", f"{pooler.places()}, descriptors {before} -> {pooler.descriptors()}",
            "no place held, descriptors as before")
