"""What the manual says of a move from PgBouncer."""
import os
import signal
import subprocess
import threading
import time

from hard.trial import Pooler, Postgres
from hard.wire import Client, outcome, wait_until
from shared import PROCESSES, QUOTES, Bouncer, part, start

WAITING = (*QUOTES, "--server-wait", "15")


def run(*command, **more):
    return subprocess.run(command, text=True, stdout=subprocess.PIPE, stderr=subprocess.STDOUT, **more)


@part("check")
def check(t):
    """what check --all reports of settings of PgBouncer, and the lists of addresses that it doesn't find"""
    path, port, front = f"{t.folder}/pgbouncer.ini", t.port(), t.port()

    def check_file():
        with open(path, "w") as file:
            file.write("\n".join(["[databases]", *databases, "[pgbouncer]", *settings, "[peers]", ""]))
        return run(t.options.program, "check", "--all", path).stdout.strip()

    def lines_of(said):
        return [line.removeprefix(path + ":").split(":")[0] for line in said.split("\n") if line.startswith(path)]

    databases = ["shop = host=127.0.0.1 port=5432 user=app", "crm-old = dbname=crm", "* = host=127.0.0.1"]
    removed = ["auth_file = users.txt", "query_wait_timeout = 60", "server_reset_query = DISCARD ALL",
               "unix_socket_dir = /run/postgresql", "logfile = pgbouncer.log", "client_tls_sslmode = prefer",
               "%include more.ini"]
    others = [f"listen_port = {port}", "peer_id = 1"]
    settings = ["listen_addr = *", "auth_type = md5", "pool_mode = session", *removed, *others]
    found = lines_of(check_file())
    t.check(found == ["3", "4", *(str(line) for line in range(6, 16))], "the lines to change or remove", found)
    databases[1:] = ["crm_old = dbname=crm"]
    settings = ["listen_addr = 127.0.0.1", "auth_type = trust", "pool_mode = transaction", *others]
    found = lines_of(check_file())
    t.check(found == ["3"], "an error that appears when others are corrected", found)

    databases[1:] = []
    for change, line in ((settings, "listen_addr = 127.0.0.1,::1"),
                         (databases, "shop = host=127.0.0.1,127.0.0.2 port=5432 user=app")):
        kept, change[0] = change[0], line
        said = check_file()
        t.check("group of 1 nodes" in said, f"check: {line}", said)
        serving = subprocess.Popen([t.options.program, "serve", "--front", str(front), "--seed", "0" * 64, path],
                                   text=True, stdout=subprocess.PIPE, stderr=subprocess.STDOUT)
        PROCESSES.append(serving)
        wait_until(lambda: serving.poll() is not None, 1)
        if change is settings:
            t.check(serving.poll() == 1, "serve", serving.stdout.read().split("\n")[0])
        else:
            came = outcome(lambda: Client(port).value("select 1"))
            t.check("08006" in came, "a request", came)
        change[0] = kept


@part("entries")
def entries(t):
    """every client may use every entry and the console, with any password, and all of an entry are one role"""
    server = Postgres(t)
    server.ask("create role plain login")
    where = f"host=127.0.0.1 port={server.port} dbname=shop user="
    pooler = Pooler(t, {"admin": where + "postgres", "plain": where + "plain"}, words=QUOTES)
    for user in ("ann", "postgres"):
        came = [pooler.client(database=name, user=user).value("select current_user") for name in ("admin", "plain")]
        t.check(came == ["postgres", "plain"], f"the roles of {user} at two entries", came)
        came = pooler.client(database="pgbouncer", user=user).query("show links")
        t.check(len(came) == 2, f"the console of {user}", f"{len(came)} server connections")
    words = ["-X", "-h", "127.0.0.1", "-p", str(pooler.port), "-U", "ann", "-d", "admin", "-Atc", "show is_superuser"]
    done = run("psql", *words, env={**os.environ, "PGPASSWORD": "wrong"})
    t.check(done.stdout == "on\n", "with a password: is_superuser", done.stdout.strip())


@part("timeouts")
def timeouts(t):
    """the server's own timeouts, by ALTER ROLE"""
    server = Postgres(t)
    server.ask("alter role app set statement_timeout = '1s'")
    server.ask("alter role app set idle_in_transaction_session_timeout = '1s'")
    pooler = start(t, server)
    client = pooler.client()
    came = outcome(client.query, "select pg_sleep(3)")
    t.check(came.startswith("ERROR 57014"), "statement_timeout", came)
    client.query("begin")
    time.sleep(2)
    came = outcome(client.query, "select 1")
    t.check(came.startswith("FATAL 25P03"), "idle_in_transaction_session_timeout", came)


@part("console")
def console(t):
    """commands of PgBouncer's console that pgpeer doesn't have"""
    server = Postgres(t)
    pooler, bouncer = start(t, server), Bouncer(t, server, lines=["admin_users = postgres"])
    for text in ("SHOW POOLS", "SHOW STATS", "RELOAD", "PAUSE", "RESUME", "SHUTDOWN"):
        came = outcome(Client(pooler.port, "pgbouncer").query, text)
        t.check("0A000" in came, text, came)
        if text != "SHUTDOWN":
            came = outcome(Client(bouncer.port, "pgbouncer", "postgres").query, text)
            t.check(came.startswith("ok"), f"{text} at PgBouncer", came[:3])


@part("tls")
def tls(t):
    """clients that require TLS can't connect, those that prefer it do without"""
    pooler = start(t, Postgres(t))
    words = f"host=127.0.0.1 port={pooler.port} user=app dbname=shop sslmode="
    for mode, found in (("require", "server does not support SSL, but SSL was required\n"), ("prefer", "1\n")):
        done = run("psql", "-X", words + mode, "-Atc", "select 1")
        t.check(done.stdout.endswith(found), f"sslmode={mode}", done.stdout.strip())


@part("hangup")
def hangup(t):
    """SIGHUP ends the process, and PgBouncer goes on"""
    server = Postgres(t)
    pooler, bouncer = start(t, server), Bouncer(t, server)
    clients = [pooler.client(), bouncer.client()]
    for client, process in zip(clients, (pooler.process, PROCESSES[-1])):
        client.query("begin")
        process.send_signal(signal.SIGHUP)
    time.sleep(1)
    came = [outcome(client.value, "select 1") for client in clients]
    t.check(pooler.process.poll() == -signal.SIGHUP and came[0].startswith("lost"), "SIGHUP",
            f"status {pooler.process.poll()}, its client: {came[0]}")
    t.check(PROCESSES[-1].poll() is None and came[1] == "ok:1", "PgBouncer's client", came[1])


def start_each(t):
    """pgpeer without and with --server-wait, and PgBouncer, each before a server of its own."""
    for name, make in (("pgpeer", lambda server: start(t, server, pool=8)),
                       ("pgpeer --server-wait 15", lambda server: start(t, server, pool=8, words=WAITING)),
                       ("PgBouncer", lambda server: Bouncer(t, server, pool=8))):
        server = Postgres(t)
        yield name, server, make(server)


@part("stopped")
def stopped(t):
    """a server that is stopped for 3 seconds, and 8 clients that ask for something meanwhile"""
    for name, server, at in start_each(t):
        clients, came, threads = [at.client() for _ in range(8)], {}, []
        for client in clients:
            client.query("select 1")
        server.process.send_signal(signal.SIGINT)
        server.process.wait(20)
        begun = time.monotonic()

        def ask(number):
            well = outcome(clients[number].query, "select 1", 40).startswith("ok")
            came[number] = well, time.monotonic() - begun

        for number in range(8):
            threads.append(threading.Thread(target=ask, args=(number,)))
            threads[-1].start()
            time.sleep(0.3)
        time.sleep(max(0.0, begun + 3 - time.monotonic()))
        server.start()
        for thread in threads:
            thread.join()
        lost, last = sum(not well for well, _ in came.values()), max(took for _, took in came.values())
        wanted = {"pgpeer": 8, "pgpeer --server-wait 15": 0}.get(name, lost)
        t.check(lost == wanted, f"{name}: sessions that ended", f"{lost} of 8, the last answer after {last:.1f} s")


@part("restarted")
def restarted(t):
    """a server that is restarted at once, and 8 clients that query it all the while"""
    for name, server, at in start_each(t):
        stop, ended, longest = threading.Event(), [], [0.0]

        def work(client):
            while not stop.is_set():
                begun = time.monotonic()
                came = outcome(client.query, "select 1", 40)
                longest[0] = max(longest[0], time.monotonic() - begun)
                if not came.startswith("ok"):
                    ended.append(came)
                    return
                time.sleep(0.04)

        threads = [threading.Thread(target=work, args=(at.client(),)) for _ in range(8)]
        for thread in threads:
            thread.start()
        time.sleep(0.5)
        server.restart()
        time.sleep(2)
        stop.set()
        for thread in threads:
            thread.join()
        known = all("08006" in it or "57P01" in it for it in ended)
        t.check(known or name == "PgBouncer", f"{name}: sessions that ended",
                f"{len(ended)} of 8, with {sorted(set(ended))}, the longest query took {longest[0]:.1f} s")


@part("forever", slow=True)
def forever(t):
    """a client that waits for a server connection"""
    server = Postgres(t)
    waiting = []
    for at in (start(t, server, pool=1), Bouncer(t, server, pool=1)):
        holder = at.client()
        holder.query("begin")
        waiter = at.client()
        waiter.start("select 'came'")
        waiting.append((holder, waiter))
    begun = time.monotonic()
    came = outcome(waiting[1][1].read_reply, 150)
    t.check("query_wait_timeout" in came, "PgBouncer's", f"{came} after {time.monotonic() - begun:.0f} s")
    came = waiting[0][1].has_reply(150)
    t.check(not came, "pgpeer's", f"waits after {time.monotonic() - begun:.0f} s")
    waiting[0][0].query("commit")
    came = waiting[0][1].read_reply()
    t.check(came == [("came",)], "when the server connection is free", came)
