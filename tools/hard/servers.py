"""Servers that are restarted, end their backends, say what nobody asked for, or say nothing."""
import threading
import time

from hard.fake import FOREVER, DeadHost, FakeServer
from hard.others import Others
from hard.trial import Pooler, Postgres, scenario
from hard.wire import error_frame, frame, outcome, row_frames, wait_until

NOTIFICATION = frame(b"A", b"\0\0\0\1channel\0text\0")
SAYS_ENDED = error_frame("57P01", "terminating connection due to administrator command", "FATAL")


def fill_pool(clients, links):
    """Some clients run queries at once, so that as many server connections are open and idle after it."""
    for client in clients[:links]:
        client.start("select pg_sleep(0.3)")
    for client in clients[:links]:
        client.read_reply()


def judge_idle(t, act):
    """16 idle clients with 8 idle server connections; something happens to these; then all clients go on."""
    server = Postgres(t)
    pooler = Pooler(t, {"shop": server.port}, pool=8)
    clients = [pooler.client() for _ in range(16)]
    fill_pool(clients, 8)
    idle = pooler.places().get("idle", 0)
    t.check(idle == 8, "idle server connections before", idle, "8")
    act(server)
    time.sleep(0.3)
    for number, client in enumerate(clients):
        client.start(f"select 'own {number}'")
    came = [outcome(lambda client=client: client.read_reply()[0][0]) for client in clients]
    wrong = [text for number, text in enumerate(came) if text != f"ok:own {number}"]
    t.check(not wrong, "sessions that ended", f"{len(wrong)} of 16" + (f": {wrong[0]}" if wrong else ""), "0")


@scenario("slow-login", limit=40)
def slow_login(t):
    """a client that waited for a server connection opens one slowly: the others go on as quickly as before"""
    slow = threading.Event()

    def log_in(backend):
        if slow.is_set():
            time.sleep(4)
        backend.send(backend.greeting())

    server = FakeServer(t.port(), on_login=log_in)
    pooler = Pooler(t, {"shop": server.port}, pool=2)
    holder, leaver, waiter = (pooler.client() for _ in range(3))
    holder.query("begin")
    leaver.query("begin")
    waiter.start("select 'waited'")
    wait_until(lambda: any(row[2] == "waiting" for row in pooler.show("CLIENTS")), 5)
    slow.set()
    leaver.vanish()
    wait_until(lambda: len(server.backends) == 3, 5)
    holder.query("commit")
    begun = time.monotonic()
    for _ in range(50):
        holder.value("select 'quick'")
    took = time.monotonic() - begun
    t.check(took < 0.5, "50 queries of another client meanwhile", f"{took:.2f} s", "within 0.5 s")
    came = outcome(lambda: waiter.read_reply(10)[0][0])
    t.check(came == "ok:waited", "the client itself", came, "ok:waited")


@scenario("restart-idle", limit=40)
def restart_idle(t):
    """the server is restarted while the server connections are idle: no session ends"""
    judge_idle(t, Postgres.restart)


@scenario("terminate-idle", limit=40)
def terminate_idle(t):
    """an administrator ends idle backends: no session ends"""
    ends = ("select pg_terminate_backend(pid) from pg_stat_activity where datname = 'shop'"
            " and pid <> pg_backend_pid() and backend_type = 'client backend'")
    judge_idle(t, lambda server: server.ask(ends))


@scenario("listen-notify", limit=40)
def listen_notify(t):
    """one client's LISTEN stays at a server connection, notifications come while it is idle: no session ends"""
    server = Postgres(t)
    pooler = Pooler(t, {"shop": server.port}, pool=1)
    outcome(pooler.client().query, "LISTEN news")
    came = []
    for number in range(5):
        client = pooler.client()
        client.query("select 'before'")
        outcome(pooler.client().query, "LISTEN news")
        server.ask("NOTIFY news, 'text'")
        time.sleep(0.1)
        came.append(outcome(client.value, f"select 'own {number}'"))
    wrong = [text for number, text in enumerate(came) if text != f"ok:own {number}"]
    t.check(not wrong, "sessions that ended", f"{len(wrong)} of 5" + (f": {wrong[0]}" if wrong else ""), "0")


@scenario("reported-changes", limit=40)
def reported_changes(t):
    """with --report, transactions leave a reported parameter changed while others run: no other sees that"""
    server = Postgres(t)
    zone = server.client().value("show timezone")
    pooler = Pooler(t, {"shop": server.port}, pool=4, words=("--report", f"TimeZone={zone}"))
    others = Others(pooler.port)
    came, changes, end = [], [], time.monotonic() + 4

    def work(changer):
        client = pooler.client()
        while time.monotonic() < end:
            came.append(outcome(client.value, "show timezone"))
            if changer:
                changes.append(outcome(client.query, "set timezone = 'Asia/Tokyo'"))
                time.sleep(0.02)

    threads = [threading.Thread(target=work, args=(number < 2,), daemon=True) for number in range(8)]
    for thread in threads:
        thread.start()
    for thread in threads:
        thread.join(20)
    wrong = [text for text in came if text != f"ok:{zone}"]
    t.check(not wrong, "transactions that saw another value, or failed",
            f"{len(wrong)} of {len(came)}" + (f": {wrong[0]}" if wrong else ""), "0")
    failed = [text for text in changes if not text.startswith("ok:")]
    t.check(not failed and len(changes) > 50, "changes that failed", f"{len(failed)} of {len(changes)}", "0 of more than 50")
    closed = len(pooler.log_lines("link_closed"))
    t.check(closed > 10, "lines of the log about closed server connections", closed, "more than 10")
    others.judge(t)


def say_later(*data, end=False, pause=0.2):
    """For `on_query`: a proper reply, and this so many seconds after it; the first time only."""

    def answer(backend, text):
        if len(backend.server.backends) > 1 or getattr(backend, "said", False):
            return False
        backend.said = True
        backend.serve_query(text)

        def say():
            time.sleep(pause)
            for piece in data:
                backend.send(piece)
            if end:
                backend.stream.shutdown(2)

        threading.Thread(target=say, daemon=True).start()
        return True

    return answer


UNASKED = {
    "a second reply": say_later(row_frames(b"one")),
    "a second reply in halves": say_later(row_frames(b"one")[:20]),
    "FATAL and its end": say_later(SAYS_ENDED, end=True),
    "FATAL": say_later(SAYS_ENDED),
    "ERROR": say_later(error_frame("XX000", "nobody asked")),
    "a notification": say_later(NOTIFICATION),
    "a notice": say_later(frame(b"N", b"SNOTICE\0C00000\0Mnobody asked\0\0")),
    "a parameter's value": say_later(frame(b"S", b"TimeZone\0UTC\0")),
    "ReadyForQuery": say_later(frame(b"Z", b"I")),
    "one byte": say_later(b"D"),
    "its end": say_later(end=True),
}
UNASKED_SOON = {
    "a second reply, 2 ms later": say_later(row_frames(b"one"), pause=0.002),
    "FATAL and its end, 2 ms later": say_later(SAYS_ENDED, end=True, pause=0.002),
    "a notification, 2 ms later": say_later(NOTIFICATION, pause=0.002),
}


@scenario("unasked", limit=60)
def unasked(t):
    """a server says something while nobody uses its connection: the next client reads its own reply alone"""
    for what, answer in {**UNASKED, **UNASKED_SOON}.items():
        server = FakeServer(t.port(), on_query=answer)
        pooler = Pooler(t, {"shop": server.port}, pool=1)
        first, second = pooler.client(), pooler.client()
        first.value("select 'one'")
        time.sleep(0.05 if what in UNASKED_SOON else 0.4)
        came = [outcome(second.value, f"select '{text}'", 5) for text in ("two", "three")]
        stray = second.asides + ["more"] * second.has_reply(0.05)
        t.check(came == ["ok:two", "ok:three"] and not stray, what, f"{came}" + (f" and {stray}" if stray else ""),
                "the client's own replies")
        pooler.stop()
        server.close()


@scenario("reply-twice-later", limit=20)
def reply_twice_later(t):
    """a server repeats a reply 0.2 s after it: no client reads another one's row"""
    server = FakeServer(t.port(), on_query=say_later(row_frames(b"one")))
    pooler = Pooler(t, {"shop": server.port}, pool=1)
    pooler.client().value("select 'one'")
    time.sleep(0.4)
    came = outcome(pooler.client().value, "select 'two'", 5)
    t.check(came == "ok:two", "the next client reads", came, "ok:two")


def drip_login(backend):
    """Says that a login goes well, a little each second, without an end."""
    for _ in range(60):
        backend.send(frame(b"S", b"name\0value\0"))
        time.sleep(1)
    return False


def wait_for_ever(backend):
    time.sleep(FOREVER)
    return False


class Comer(threading.Thread):
    """A client whose query needs a new server connection."""

    def __init__(self, pooler, database):
        super().__init__(daemon=True)
        self.pooler, self.database, self.came, self.after = pooler, database, "nothing", 0.0
        self.start()

    def run(self):
        begun = time.monotonic()
        self.came = outcome(lambda: self.pooler.client(database=self.database, timeout=40).value("select 'x'", 40))
        self.after = time.monotonic() - begun


@scenario("login-never", limit=70)
def login_never(t):
    """servers that never answer a login, answer it for ever, or drop all packets: 08006 within 15 s"""
    silent = FakeServer(t.port(), on_login=wait_for_ever)
    drips = FakeServer(t.port(), on_login=drip_login)
    gone, good = DeadHost(t.port()), FakeServer(t.port())
    words = {"silent": "never answers", "drips": "answers for ever", "gone": "drops all packets"}
    pooler = Pooler(t, {"silent": silent.port, "drips": drips.port, "gone": gone.port, "shop": good.port}, pool=1)
    others, comers = Others(pooler.port, count=2), [Comer(pooler, name) for name in words]
    for comer in comers:
        comer.join(30)
        good_end = comer.came.startswith("FATAL 08006") and comer.after < 17
        t.check(good_end, f"a server that {words[comer.database]}", f"{comer.came} after {comer.after:.1f} s",
                "FATAL 08006 within 17 s")
    others.judge(t)
    silent.on_login = drips.on_login = None
    for name in ("silent", "drips"):
        came = outcome(lambda name=name: pooler.client(database=name).value("select 'again'", 5))
        t.check(came == "ok:again", f"the place of {name} once it answers", came, "ok:again")


@scenario("reply-never", limit=30)
def reply_never(t):
    """a server never answers a query and its client leaves: the place is free within a second"""
    for way in ("close", "vanish"):
        server = FakeServer(t.port(), on_query=lambda backend, text: text == "select 'never'")
        pooler = Pooler(t, {"shop": server.port}, pool=1)
        client, after = pooler.client(), pooler.client()
        client.start("select 'never'")
        time.sleep(0.3)
        getattr(client, way)()
        begun = time.monotonic()
        came = outcome(after.value, "select 'next'", 5)
        took = time.monotonic() - begun
        t.check(came == "ok:next" and took < 2, f"the next client after {way}", f"{came} after {took:.1f} s",
                "served within 2 s")
        pooler.stop()
        server.close()
