"""The parts, a PgBouncer, and what the manual says of state that clients share."""
import collections
import os
import shlex
import shutil
import subprocess
import time

from hard.trial import Pooler, Postgres, as_owner, bind_to_parent
from hard.wire import Client, frame, outcome, wait_until

HOME = os.path.realpath(os.path.join(os.path.dirname(__file__), "../.."))
PARTS, PROCESSES = {}, []
Part = collections.namedtuple("Part", "run words needs slow")
QUOTES = ("--report", "standard_conforming_strings=on")
LOST = "FATAL 08006 server connection lost"


def part(name, needs="postgresql", slow=False):
    """Makes a function a part of this name, which needs a package of Debian."""

    def add(function):
        PARTS[name] = Part(function, function.__doc__.split("\n")[0], needs, slow)
        return function

    return add


def start(trial, server, pool=4, words=QUOTES, **more):
    return Pooler(trial, {"shop": server.port}, pool=pool, words=words, **more)


class Bouncer:
    """PgBouncer with transaction pooling before this server; `lines` are more lines of its settings."""

    def __init__(self, trial, server, pool=4, lines=()):
        self.port = trial.port()
        settings = f"{trial.folder}/pgbouncer.{self.port}.ini"
        with open(settings, "w") as file:
            file.write("\n".join([
                "[databases]", f"shop = host=127.0.0.1 port={server.port} user=app dbname=shop",
                "[pgbouncer]", "listen_addr = 127.0.0.1", f"listen_port = {self.port}", "unix_socket_dir =",
                "auth_type = any", "pool_mode = transaction", f"default_pool_size = {pool}",
                "ignore_startup_parameters = extra_float_digits", *lines, ""]))
        with open(f"{settings}.log", "w") as log:
            program = shutil.which("pgbouncer", path=f"{os.environ['PATH']}:/usr/sbin")
            PROCESSES.append(subprocess.Popen([program, settings], stdout=log, stderr=log, cwd="/",
                                              preexec_fn=bind_to_parent, **as_owner(trial.options)))
        wait_until(lambda: outcome(self.client).startswith("ok"), 10)

    def client(self, database="shop", **more):
        return Client(self.port, database, **more)


def manual_block(beginning):
    """The indented lines of the manual from the one that begins so."""
    with open(f"{HOME}/docs/OPERATING.md") as file:
        lines = file.read().split("\n")
    first = next(number for number, line in enumerate(lines) if line.startswith("    " + beginning))
    block = []
    for line in lines[first:]:
        if not line.startswith("    "):
            break
        block.append(line[4:])
    return "\n".join(block)


def reports_of(server):
    """The options that the manual's command prints for this server."""
    command = manual_block("psql -X -h 10.0.0.9").replace("-h 10.0.0.9", f"-h 127.0.0.1 -p {server.port}")
    return subprocess.run(["sh", "-c", command], check=True, text=True, stdout=subprocess.PIPE).stdout


def pid(client):
    return client.value("select pg_backend_pid()")


@part("reports")
def reports(t):
    """the options that the manual's query prints are a server's values; others, and a change, are found"""
    server = Postgres(t, {"TimeZone": "Etc/UTC"})
    printed = reports_of(server)
    t.check('--report "TimeZone=Etc/UTC"' in printed, "the query prints", printed.replace("\n", " "))
    pooler = start(t, server, words=shlex.split(printed))
    t.check(pooler.client().value("select 1") == "1", "with these options a query", "has its answer")
    pooler.stop()

    pooler = start(t, server, words=(*QUOTES, "--report", "TimeZone=UTC"))
    came = [outcome(lambda: pooler.client().value("select 1")) for _ in range(4)]
    t.check(came == [LOST] * 4, "TimeZone=UTC reported of Etc/UTC: each query", set(came), LOST)
    wait_until(lambda: pooler.log_lines("link_login_failed"), 2)
    line = " ".join(pooler.log_lines("link_login_failed")[0])
    t.check("reported=Etc/UTC told=UTC" in line, "the log", line)
    pooler.stop()

    pooler = start(t, server, words=shlex.split(printed))
    client = pooler.client()
    first = pid(client)
    client.query("begin")
    client.query("set local DateStyle = 'SQL, DMY'")
    client.query("commit")
    t.check(pid(client) == first, "SET LOCAL leaves the server connection", "open")
    client.query("set DateStyle = 'SQL, DMY'")
    second = pid(client)
    t.check(second != first, "after a SET its client's next query has another server connection", second)
    wait_until(lambda: pooler.log_lines("link_closed"), 2)
    line = " ".join(pooler.log_lines("link_closed")[0])
    t.check("parameter=DateStyle" in line, "the log", line)
    pooler.stop()

    pooler = start(t, server, words=(*QUOTES, "--report", "search_path=nowhere"))
    t.check(pooler.client().value("select 1") == "1", "a parameter that the server never reports", "isn't checked")


@part("zone")
def zone(t):
    """initdb on a machine in UTC"""
    folder = f"{t.folder}/initdb"
    os.mkdir(folder)
    if t.options.owner:
        shutil.chown(folder, t.options.owner)
    environment = {name: value for name, value in os.environ.items() if name != "TZ"}
    subprocess.run([f"{t.options.postgres}/initdb", "-D", folder, "-U", "postgres", "-A", "trust", "--no-sync"],
                   stdout=subprocess.DEVNULL, check=True, cwd="/", env=environment, **as_owner(t.options))
    with open(f"{folder}/postgresql.conf") as file:
        found = [line.strip() for line in file if line.startswith("timezone")]
    t.check(found == ["timezone = 'Etc/UTC'"], f"/etc/localtime is {os.path.realpath('/etc/localtime')}", found)


@part("state")
def state(t):
    """what one client leaves, others have; start-up parameters are ignored; PgBouncer restores four"""
    server = Postgres(t)
    server.ask("create table things (name text)")
    leaves = {
        "SET": ("set statement_timeout = '7s'", "show statement_timeout", "7s"),
        "SET ROLE": ("set role postgres", "select current_user", "postgres"),
        "SET SESSION AUTHORIZATION": ("set session authorization postgres", "select session_user", "postgres"),
        "a temporary table": ("create temporary table things (name text)",
                              "select count(*) from pg_class where relname = 'things'", "2"),
        "PREPARE": ("prepare one as select 'prepared'", "execute one", "prepared"),
        "DECLARE WITH HOLD": ("declare c cursor with hold for select 'held'", "fetch c", "held"),
        "an advisory lock": ("select pg_advisory_lock(7)",
                             "select count(*) from pg_locks where locktype = 'advisory'", "1"),
    }
    for words, (leave, ask, found) in leaves.items():
        pooler = start(t, server, pool=1)
        one, other = pooler.client(), pooler.client()
        before = outcome(other.value, ask)
        one.query(leave)
        after = outcome(other.value, ask)
        t.check(after == f"ok:{found}" != before, f"{words}: another client", f"{before[:60]}, then {after}")
        pooler.stop()

    for name, value in (("standard_conforming_strings", "off"), ("client_encoding", "LATIN1"),
                        ("DateStyle", "SQL, DMY"), ("TimeZone", "Asia/Tokyo")):
        pooler, bouncer = start(t, server, pool=1, words=()), Bouncer(t, server, pool=1)
        seen = []
        for at in (pooler, bouncer):
            one, other = at.client(), at.client()
            other.query("select 1")
            one.query(f"set {name} = '{value}'")
            seen.append(other.value(f"show {name}"))
        t.check(seen[0] == value != seen[1], f"SET {name} of another client: without --report, at PgBouncer", seen)
        pooler.stop()


@part("unnamed")
def unnamed(t):
    """the unnamed statement, parsed in one request and bound in the next, while another client parses its own"""
    server = Postgres(t)

    def parse(client, text):
        client.send(frame(b"P", b"\0" + text + b"\0\0\0") + frame(b"S"))
        client.read_reply()

    for name, at in (("pgpeer", start(t, server, pool=1)), ("PgBouncer", Bouncer(t, server, pool=1))):
        one, other = at.client(), at.client()
        parse(one, b"select 'mine'")
        parse(other, b"select 'not mine'")
        one.send(frame(b"B", bytes(8)) + frame(b"E", bytes(5)) + frame(b"S"))
        came = one.read_reply()
        t.check(came == [("not mine",)], f"{name}: the first client", came)


@part("startup")
def startup(t):
    """start-up parameters other than user and database are ignored, replication is refused"""
    server = Postgres(t)
    pooler, bouncer = start(t, server), Bouncer(t, server)
    asked = {"application_name": "mine", "client_encoding": "LATIN1", "DateStyle": "SQL, DMY",
             "TimeZone": "Asia/Tokyo", "search_path": "mine", "options": "-c statement_timeout=7s"}
    shows = {**{name: name for name in asked if name != "options"}, "options": "statement_timeout"}
    for name, value in asked.items():
        plain = server.client().value(f"show {shows[name]}")
        client = pooler.client(parameters=[(name, value)])
        came = client.value(f"show {shows[name]}")
        t.check(came == plain, f"{name}={value}", repr(came))
        if name not in ("search_path", "options"):
            came = bouncer.client(user="app", parameters=[(name, value)]).value(f"show {name}")
            t.check(came == value, f"{name}={value} at PgBouncer", repr(came))
    for name in ("replication", "_pq_.mine"):
        came = outcome(lambda name=name: pooler.client(parameters=[(name, "true")]))
        t.check("08P01" in came, name, came)
    t.check(pooler.client(user="anybody").value("select current_user") == "app", "user anybody", "runs as app")


@part("encoding")
def encoding(t):
    """a role with another client_encoding is refused if there is a --report"""
    server = Postgres(t)
    server.ask("alter role app set client_encoding = 'LATIN1'")
    pooler = start(t, server)
    came = outcome(lambda: pooler.client().value("select 1"))
    wait_until(lambda: pooler.log_lines("link_login_failed"), 2)
    t.check(came == LOST, "with a --report: a query", came)
    line = " ".join(pooler.log_lines("link_login_failed")[0])
    t.check("reported=LATIN1" in line, "the log", line)
    came = outcome(lambda: start(t, server, words=()).client().value("select 1"))
    t.check(came == "ok:1", "without: a query", came)


@part("reset")
def reset(t):
    """PgBouncer's server_reset_query with transaction pooling"""
    server = Postgres(t)
    for line, found in (("server_reset_query = DISCARD ALL", "7s"), ("server_reset_query_always = 1", "0")):
        bouncer = Bouncer(t, server, pool=1, lines=[line])
        bouncer.client().query("set statement_timeout = '7s'")
        came = bouncer.client().value("show statement_timeout")
        t.check(came == found, f"PgBouncer with {line}: another client's statement_timeout", came)


@part("listen")
def listen(t):
    """what LISTEN and NOTIFY cost"""
    server = Postgres(t)
    pooler, bouncer = start(t, server, pool=1), Bouncer(t, server, pool=1)
    listener = pooler.client()
    listener_pid = pid(listener)
    t.check(listener.query("listen channel") == [], "LISTEN", "is accepted")
    server.ask("notify channel, 'one'")
    t.check(not listener.has_reply(1), "the listener", "gets nothing")
    other = pooler.client()
    t.check(pid(other) != listener_pid, "after the notification another client", "has another server connection")

    listener.query("listen channel")
    before = pid(other)
    other.start("select pg_sleep(1)")
    wait_until(lambda: server.is_running("select pg_sleep(1)"), 5)
    server.ask("notify channel, 'two'")
    came = outcome(lambda: other.read_reply())
    t.check(came == LOST, "a notification during another client's query", came, LOST)
    other = pooler.client()
    t.check(pid(other) != before, "the server connection", "is closed")

    listener.query("listen channel")
    came = outcome(listener.query, "notify channel")
    t.check(came == LOST, "a NOTIFY on a connection that listens: its client", came, LOST)

    listener = bouncer.client()
    listener.query("listen channel")
    other = bouncer.client()
    other.start("select pg_sleep(1)")
    wait_until(lambda: server.is_running("select pg_sleep(1)"), 5)
    server.ask("notify channel, 'three'")
    came = outcome(lambda: other.read_reply()[0][0])
    t.note(f"PgBouncer: the other client: {came}, messages that it didn't ask for: {other.asides}")


@part("restore")
def restore(t):
    """pg_restore leaves search_path empty"""
    server = Postgres(t)
    server.ask("create table things (name text)")
    server.ask("insert into things values ('one')")
    dump = f"{t.folder}/dump"
    program = t.options.postgres
    words = ["-h", "127.0.0.1", "-U", "app"]
    dumping = [f"{program}/pg_dump", *words, "-p", str(server.port), "--inserts", "-a", "-Fc", "-f", dump, "shop"]
    subprocess.run(dumping, check=True)
    for name, at in (("pgpeer", start(t, server, pool=1)), ("PgBouncer", Bouncer(t, server, pool=1))):
        other = at.client()
        before = outcome(other.value, "select count(*) from things")
        done = subprocess.run([f"{program}/pg_restore", *words, "-p", str(at.port), "-d", "shop", dump],
                              text=True, stdout=subprocess.PIPE, stderr=subprocess.STDOUT)
        after = outcome(other.value, "select count(*) from things")
        t.check(done.returncode == 0 and before.startswith("ok") and "42P01" in after,
                f"{name}: pg_restore", f"status {done.returncode} {done.stdout[:200]}; others: {before}, then {after}")
        later = outcome(lambda at=at: at.client().value("select count(*) from things"))
        t.check("42P01" in later, f"{name}: a new client", later)
        if name == "pgpeer":
            at.stop()
            at.start()
            again = outcome(lambda at=at: at.client().value("select count(*) from things"))
            t.check(again.startswith("ok"), "after a restart of pgpeer", again)


@part("left")
def left(t):
    """clients that leave during a query: outside a transaction block it is committed, within one rolled back"""
    for interval, kept in (("0", {"outside"}), ("100ms", set())):
        server = Postgres(t, {"client_connection_check_interval": interval})
        server.ask("create table written (name text)")
        pooler = start(t, server)
        for name in ("outside", "within"):
            client = pooler.client()
            if name == "within":
                client.query("begin")
            text = f"insert into written select '{name}' from pg_sleep(1)"
            client.start(text)
            wait_until(lambda text=text: server.is_running(text.replace("'", "''")), 5)
            client.vanish()
            gone = wait_until(lambda: not pooler.show("LINKS"), 2)
            t.check(gone is not None, f"{name} a transaction block: its server connection is closed",
                    f"after {gone:.1f} s")
            wait_until(lambda text=text: not server.is_running(text.replace("'", "''")), 5)
        found = {row[0] for row in server.ask("select name from written")}
        t.check(found == kept, f"client_connection_check_interval {interval}: rows", found)


@part("leftovers")
def leftovers(t):
    """server processes of clients that left during their queries"""
    for name, settings in (("off", {}), ("1s", {"client_connection_check_interval": "1s"})):
        server = Postgres(t, settings)
        watcher = server.client()
        for words, at in (("pgpeer", start(t, server, pool=2)), ("PgBouncer", Bouncer(t, server, pool=2))):
            counted = ("select count(*) from pg_stat_activity where usename = 'app' and pid <> pg_backend_pid()"
                       " and query like '%pg_sleep(12)%'")
            begun, most, sent = time.monotonic(), 0, 0
            while time.monotonic() - begun < 4:
                client = at.client()
                client.start(f"select pg_sleep(12), '{words}'")
                time.sleep(0.1)
                client.vanish()
                sent += 1
                most = max(most, int(watcher.value(counted + f" and query like '%{words}%'")))
            limit = 2 + (sent if name == "off" else 10)
            t.check(most <= limit, f"client_connection_check_interval {name}: {words}",
                    f"{sent} clients that left, at most {most} server processes")
        server.process.terminate()


@part("version")
def version(t):
    """version 16 is reported: psql and pg_dump of version 15, and --report server_version"""
    server = Postgres(t)
    pooler, told = start(t, server), server.client().value("show server_version")
    words = ["-h", "127.0.0.1", "-U", "app", "-p"]

    def dump(at):
        done = subprocess.run([f"{t.options.postgres}/pg_dump", *words, str(at.port), "-s", "shop"],
                              text=True, stdout=subprocess.DEVNULL, stderr=subprocess.PIPE)
        return done.returncode, done.stderr.strip().split("\n")[0]

    # psql asks its questions only at a terminal, which script gives it.
    psql = shlex.join(["psql", "-X", *words, str(pooler.port), "shop"])
    done = subprocess.run(["script", "-qc", psql, "/dev/null"], input="\\q\n", text=True, stdout=subprocess.PIPE)
    line = next((line for line in done.stdout.split("\n") if "WARNING" in line), "").strip()
    t.check(line == "WARNING: psql major version 15, server major version 16.", "psql 15 at a terminal", line)
    t.check(dump(pooler)[0] != 0, "pg_dump 15", dump(pooler))
    pooler = start(t, server, words=(*QUOTES, "--report", f"server_version={told}"))
    t.check(dump(pooler) == (0, ""), f"the same with --report server_version={told}", dump(pooler))
    pooler = start(t, server, words=(*QUOTES, "--report", "server_version=15.1"))
    came = outcome(lambda: pooler.client().value("select 1"))
    t.check(came == LOST, "with another minor version: a query", came)
