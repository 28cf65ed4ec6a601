"""What `run` does through HAProxy, and what came of it.

The arguments are the two processes of poolers, and HAProxy's."""
import os
import signal
import sys
import time

HERE = os.path.dirname(os.path.realpath(__file__))
sys.dont_write_bytecode = True
sys.path.insert(0, os.path.join(HERE, "../.."))

from hard.wire import CLEAN, Client, Late, Lost, Refused, cancel, wait_until

PORTS = {
    name: int(os.environ[name + "_PORT"]) for name in ("NODE1", "NODE2", "NODE3", "NODES", "GROUP")
}
NODES = [PORTS[name] for name in ("NODE1", "NODE2", "NODE3")]


def require(good, what):
    print(("ok    " if good else "FAIL  ") + what)
    if not good:
        sys.exit(1)


def answers(port):
    try:
        client = Client(port)
        client.query("echo ready")
        client.close()
        return True
    except (Lost, Late, Refused):
        return False


def all_run(processes):
    """Whether none of them has ended."""
    try:
        return all(open(f"/proc/{process}/stat").read().split()[2] != "Z" for process in processes)
    except FileNotFoundError:
        return False


def show(port, what):
    console = Client(port, "pgbouncer")
    rows = console.query(f"SHOW {what}")
    console.close()
    return rows


def cancels(nodes):
    """The counts of all these poolers together."""
    counts = {}
    for port in nodes:
        for kind, count in show(port, "CANCELS"):
            counts[kind] = counts.get(kind, 0) + int(count)
    return counts


def clients_of(port):
    return len(show(port, "CLIENTS"))


def runs_somewhere(nodes):
    return any(row[2] == "link" for port in nodes for row in show(port, "CLIENTS"))


def ask(port, count):
    """Queries, each on a connection of its own."""
    for number in range(count):
        client = Client(port)
        rows = client.query(f"echo {number}")
        if rows != [(str(number),)]:
            require(False, f"echo {number}: {rows}")
        client.close()
    print(f"ok    {count} queries")


def interrupt(port, nodes, count):
    """Long queries, each cancelled by a request on a new connection to the same address."""
    before = cancels(nodes)
    requests = 0
    for _ in range(count):
        client = Client(port)
        client.start("hold")
        if wait_until(lambda: runs_somewhere(nodes), 10) is None:
            require(False, "the query doesn't run")
        # A request that arrives before the query runs at the server has no effect,
        # but it is sent there and ends cleanly: the counts tell it from one that was lost.
        for _ in range(5):
            end = cancel(port, client.key)
            requests += 1
            try:
                client.read_reply(2)
                code = "no error"
            except Late:
                code = "no reply"
                continue
            except Refused as refused:
                code = refused.code
            break
        if (end, code) != (CLEAN, "57014"):
            require(False, f"a cancel: {end}, {code}")
        client.close()
    after = cancels(nodes)
    counts = {kind: after[kind] - before[kind] for kind in ("forwarded", "sent", "ended", "failed")}
    counts["requests"] = requests
    return counts


def none_is_lost(counts):
    """Whether each request was sent to a server and ended."""
    return counts["sent"] == counts["ended"] == counts["requests"] and counts["failed"] == 0


def main():
    processes = [int(word) for word in sys.argv[1:]]
    started = wait_until(
        lambda: all(answers(port) for port in NODES) or not all_run(processes), 400
    )
    require(started is not None and all_run(processes), "the poolers answer")
    # By then HAProxy has seen them all.
    time.sleep(3)
    require(answers(PORTS["NODES"]) and answers(PORTS["GROUP"]), "HAProxy's two ports answer")

    print("== queries and cancel requests through the poolers' own addresses")
    held = [Client(PORTS["NODES"]) for _ in range(6)]
    spread = [clients_of(port) for port in NODES]
    require(all(count >= 2 for count in spread), f"six clients spread over the poolers: {spread}")
    for client in held:
        client.close()
    ask(PORTS["NODES"], 30)
    counts = interrupt(PORTS["NODES"], NODES, 12)
    require(none_is_lost(counts), f"12 queries were cancelled: {counts}")
    require(
        counts["forwarded"] > 0, "some of the requests came to another pooler, and were forwarded"
    )

    print("== the same through the port that two poolers share")
    ask(PORTS["GROUP"], 30)
    counts = interrupt(PORTS["GROUP"], NODES[:2], 12)
    require(none_is_lost(counts), f"12 queries were cancelled: {counts}")

    print("== pooler 3 is stopped")
    os.kill(processes[1], signal.SIGTERM)
    require(wait_until(lambda: not answers(NODES[2]), 10) is not None, "it doesn't answer")
    ask(PORTS["NODES"], 30)
    time.sleep(4)
    counts = interrupt(PORTS["NODES"], NODES[:2], 12)
    require(none_is_lost(counts), f"12 queries were cancelled: {counts}")


if __name__ == "__main__":
    main()
