"""Servers that take no connections for a while, with `--server-wait`."""
import threading
import time

from hard.fake import FakeServer
from hard.trial import Pooler, Postgres, scenario
from hard.wire import error_frame, outcome, wait_until


def ask_all(clients, limit):
    """Each client asks for a row of its own at once: what they got, in their order."""
    came = [None] * len(clients)

    def ask(place):
        came[place] = outcome(clients[place].value, f"select 'own {place}'", limit)

    threads = [threading.Thread(target=ask, args=(place,), daemon=True) for place in range(len(clients))]
    for thread in threads:
        thread.start()
    return came, threads


def judge_all(t, what, came):
    wrong = [text for place, text in enumerate(came) if text != f"ok:own {place}"]
    t.check(not wrong, what, f"{len(wrong)} of {len(came)}" + (f": {wrong[0]}" if wrong else ""), "0")


@scenario("wait-refused", limit=40)
def wait_refused(t):
    """nothing listens at the server's port; with --server-wait clients are served once it does"""
    port = t.port()
    pooler = Pooler(t, {"shop": port}, pool=4, words=("--server-wait", "15"))
    came, threads = ask_all([pooler.client() for _ in range(12)], 20)
    time.sleep(2)
    server = FakeServer(port)
    begun = time.monotonic()
    for thread in threads:
        thread.join(20)
    took = time.monotonic() - begun
    judge_all(t, "sessions that ended", came)
    t.check(took < 2.5, "all are served after the server listens", f"{took:.2f} s", "within 2.5 s")
    t.check(len(server.backends) <= 4, "server connections", len(server.backends), "4 at most")


@scenario("wait-over", limit=40)
def wait_over(t):
    """nothing listens at the server's port: a session ends after the time that is given, or at once"""
    for words, least, most in ((("--server-wait", "2"), 1.9, 4), ((), 0, 0.5)):
        pooler = Pooler(t, {"shop": t.port()}, pool=4, words=words)
        client = pooler.client()
        begun = time.monotonic()
        came = outcome(client.value, "select 'own 0'", 20)
        took = time.monotonic() - begun
        t.check("08006" in came, f"{' '.join(words) or 'without'}: the client reads", came[:60], "08006")
        t.check(least <= took <= most, f"{' '.join(words) or 'without'}: after", f"{took:.2f} s", f"{least} to {most} s")
        told = wait_until(lambda: pooler.log_lines("link_connect_failed"), 2) is not None
        t.check(told, "the log has link_connect_failed", told, "True")
        pooler.stop()


@scenario("wait-left", limit=40)
def wait_left(t):
    """a client that leaves while a server is tried again makes room for the next one within half a second"""
    port = t.port()
    pooler = Pooler(t, {"shop": port}, pool=1, words=("--server-wait", "30"))
    first, second = pooler.client(), pooler.client()
    first.start("select 'first'")
    wait_until(lambda: pooler.places().get("opening") == 1, 5)
    second.start("select 'second'")
    wait_until(lambda: any(row[2] == "waiting" for row in pooler.show("CLIENTS")), 5)
    begun = time.monotonic()
    first.vanish()
    moved = wait_until(lambda: not any(row[2] == "waiting" for row in pooler.show("CLIENTS")), 5)
    took = time.monotonic() - begun
    t.check(moved is not None and took < 0.7, "the next one has its turn after", f"{took:.2f} s", "0.7 s at most")
    FakeServer(port)
    came = outcome(lambda: second.read_reply(10)[0][0])
    t.check(came == "ok:second", "and is served", came, "ok:second")


@scenario("wait-starting", limit=60)
def wait_starting(t):
    """a server that starts (57P03), or has no connection left (53300), is tried again; another error isn't"""
    for code, text in (("57P03", "the database system is starting up"), ("53300", "sorry, too many clients already")):
        until = time.monotonic() + 2

        def log_in(backend, code=code, text=text, until=until):
            if time.monotonic() < until:
                backend.send(error_frame(code, text, "FATAL"))
                return False
            backend.send(backend.greeting())
            return True

        pooler = Pooler(t, {"shop": FakeServer(t.port(), on_login=log_in).port}, pool=4, words=("--server-wait", "15"))
        came, threads = ask_all([pooler.client() for _ in range(12)], 20)
        for thread in threads:
            thread.join(20)
        judge_all(t, f"{code}: sessions that ended", came)
        pooler.stop()

    def refuse(backend):
        backend.send(error_frame("28000", "no pg_hba.conf entry", "FATAL"))
        return False

    pooler = Pooler(t, {"shop": FakeServer(t.port(), on_login=refuse).port}, pool=4, words=("--server-wait", "15"))
    begun = time.monotonic()
    came = outcome(pooler.client().value, "select 'own 0'", 20)
    took = time.monotonic() - begun
    t.check("08006" in came and took < 1, "28000: the session ends after", f"{took:.2f} s", "1 s at most, with 08006")


@scenario("wait-restart", limit=60)
def wait_restart(t):
    """a server is restarted under clients that ask between transactions: with --server-wait none of them ends"""
    server = Postgres(t)
    pooler = Pooler(t, {"shop": server.port}, pool=8, words=("--server-wait", "15"))
    clients = [pooler.client() for _ in range(24)]
    for place, client in enumerate(clients):
        client.value(f"select 'own {place}'")
    restart = threading.Thread(target=server.restart, daemon=True)
    restart.start()
    time.sleep(0.1)
    came, threads = ask_all(clients, 30)
    for thread in threads + [restart]:
        thread.join(30)
    judge_all(t, "sessions that ended", came)
