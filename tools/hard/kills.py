"""Nodes that are stopped or killed, with cancels under way."""
import signal
import threading
import time

from hard.fake import Balancer, FakeServer
from hard.trial import Pooler, scenario, start_apart
from hard.wire import CLEAN, MARKED, OPEN, RESET, Refused, ask_cancel, outcome, read_end, wait_until


def kill_once(t, by, victim, asked):
    """A cancel comes to one node, for a client of node 2; once its server has it, a node is killed.
    Returns how the requester's connection ends, and after how many seconds."""
    released = threading.Event()
    server = FakeServer(t.port(), on_cancel=lambda *_: released.wait(20))
    nodes = start_apart(t, {"shop": server.port})
    client = nodes[1].client()
    client.start("select pg_sleep(30)")
    wait_until(lambda: any(backend.running for backend in server.backends), 5)
    requester = ask_cancel(nodes[asked].port, client.key)
    came = wait_until(lambda: server.cancels, 5)
    begun = time.monotonic()
    nodes[victim].process.send_signal(by)
    end = read_end(requester, 5)
    after = time.monotonic() - begun
    released.set()
    for node in nodes:
        node.process.kill()
        node.process.wait()
    server.close()
    return ("the cancel didn't come to the server" if came is None else end), after


@scenario("kill-forward", limit=60)
def kill_forward(t):
    """a node dies that forwards or serves a cancel: its requester sees no clean end"""
    for by in (signal.SIGTERM, signal.SIGKILL):
        for who, victim, asked in (("the forwarding node", 0, 0), ("the serving node behind another", 1, 0),
                                   ("the serving node that was asked", 1, 1)):
            end, after = kill_once(t, by, victim, asked)
            wanted = "a reset" if victim == asked else "a reset or the byte 45"
            good = end == RESET or victim != asked and end == MARKED
            t.check(good, f"{by.name} of {who}", f"{end} after {after * 1000:.0f} ms", wanted)


class Rounds:
    """A pooler X with one server connection, before a group of A and B, which a balancer deals: links to
    B, cancels to A. B's server is slow to act on cancels."""

    def __init__(self, t):
        self.t, self.delay, self.under_way = t, 0.0, 0
        self.server = FakeServer(t.port(), on_cancel=lambda *_: time.sleep(self.delay))
        self.a, self.b = start_apart(t, {"shop": self.server.port})
        self.balancer = Balancer(t.port(), self.a.port, self.b.port)
        self.x = Pooler(t, {"shop": self.balancer.port}, pool=1)
        self.asker, self.stranger = self.x.client(), self.x.client()
        self.struck, self.early, self.asked_struck, self.lost, self.ends = 0, 0, 0, 0, {}

    def kill(self, by, once_it_came):
        """Kills A at some moment, or at some moment while B's server has the cancel."""
        if once_it_came:
            wait_until(lambda: self.server.busy, 1)
        time.sleep(self.t.random.uniform(0.0, self.delay))
        self.under_way += self.server.busy > 0
        self.a.process.send_signal(by)

    def run(self, by, once_it_came):
        """The asker's query is cancelled, A is killed, and a stranger goes on."""
        self.delay = self.t.random.uniform(0.03, 0.15)
        self.asker.start("select pg_sleep(0.03)")
        wait_until(lambda: any(backend.running for backend in self.server.backends), 5)
        requester, end = ask_cancel(self.x.port, self.asker.key), []
        watcher = threading.Thread(target=lambda: end.append((read_end(requester, 30), time.monotonic())))
        killer = threading.Thread(target=self.kill, args=(by, once_it_came))
        watcher.start()
        killer.start()
        self.use_asker()
        self.use_stranger(lambda: not watcher.is_alive() and not killer.is_alive() and not self.server.busy)
        watcher.join()
        killer.join()
        self.a.process.wait()
        self.judge(*end[0])
        requester.close()
        self.a.start()

    def use_asker(self):
        try:
            self.asker.read_reply(20)
        except Refused as refused:
            self.asked_struck += refused.code == "57014"
            if refused.fatal:
                self.lost, self.asker = self.lost + 1, self.x.client()

    def use_stranger(self, is_over):
        """The stranger runs queries until all is over, and one more."""
        more = True
        while more:
            more = not is_over()
            try:
                self.stranger.query("select pg_sleep(0.02)", 20)
            except Refused as refused:
                self.struck += refused.code == "57014"
                if refused.fatal:
                    self.lost, self.stranger = self.lost + 1, self.x.client()

    def judge(self, end, at):
        self.ends[end] = self.ends.get(end, 0) + 1
        self.early += end == CLEAN and any(came < at < done for came, done in self.server.handled)


@scenario("kill-misdirects", limit=400)
def kill_misdirects(t):
    """a group behind a group, whose forwarding node is killed at any moment: nobody but the asker is struck"""
    rounds = Rounds(t)
    for number in range(t.options.rounds):
        rounds.run(t.random.choice((signal.SIGTERM, signal.SIGKILL)), number % 3 > 0)
        if rounds.ends.get(OPEN):
            break
    of = f"of {number + 1} rounds"
    t.check(rounds.struck == 0, "strangers that were struck",
            f"{rounds.struck} {of}, in {rounds.under_way} of which the server had the cancel when the node died", "0")
    t.check(rounds.early == 0, "clean ends while the server still had the cancel", f"{rounds.early} {of}", "0")
    ends = ", ".join(f"{kind} {count}" for kind, count in sorted(rounds.ends.items()))
    t.check(OPEN not in rounds.ends, "ends of cancels", f"{ends}; the asker was struck {rounds.asked_struck} times",
            "no open one")
    t.check(rounds.lost == 0, "sessions that ended", f"{rounds.lost}", "0")


@scenario("restart-at-once", limit=40)
def restart_at_once(t):
    """a pooler with clients is killed and started again at once, at the same ports"""
    server = FakeServer(t.port())
    pooler = Pooler(t, {"shop": server.port})
    clients = [pooler.client() for _ in range(20)]
    for client in clients:
        client.query("select 'before'")
    for by in (signal.SIGKILL, signal.SIGTERM):
        pooler.stop(by)
        begun = time.monotonic()
        pooler.start()
        came = outcome(lambda: pooler.client().value("select 'again'"))
        after = time.monotonic() - begun
        t.check(came == "ok:again" and after < 3, f"after {by.name}", f"{came} after {after:.2f} s",
                "served within 3 s")
