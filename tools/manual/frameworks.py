"""What the manual says of drivers and applications."""
import collections
import glob
import os
import shlex
import socket
import struct
import subprocess
import time

from hard.trial import Pooler, Postgres, bind_to_parent
from hard.wire import wait_until
from shared import PROCESSES, QUOTES, Bouncer, part, reports_of, start

HERE = os.path.dirname(os.path.realpath(__file__))
PYTHON = "/usr/bin/python3"
AT = "2024-06-30 12:00:00+00"
RIGHT, LATE = "2024-06-30T12:00:00+00:00", "2024-06-30T14:00:00+00:00"  # in Berlin it is two hours later
SCHEMA = "/usr/share/pdns-backend-pgsql/schema/schema.pgsql.sql"


def said(*command):
    """The lines that a program prints."""
    done = subprocess.run(command, text=True, stdout=subprocess.PIPE, stderr=subprocess.STDOUT, timeout=120)
    return done.stdout.rstrip("\n").split("\n")


def by(script, at, *words):
    """What a script beside this file prints, with the port as its first argument."""
    program = {".py": PYTHON, ".rb": "ruby", ".php": "php"}[os.path.splitext(script)[1]]
    return said(program, f"{HERE}/{script}", str(at.port), *words)


def with_tables(t, settings):
    server = Postgres(t, settings)
    server.ask("create table events (id serial, at timestamptz, worker int)")
    server.ask(f"insert into events (at, worker) select '{AT}', 0")
    server.ask("insert into events (at, worker) select now(), n from generate_series(1, 4) n, generate_series(1, 2000)")
    server.ask("create table spans (id serial primary key, name text, span interval, at timestamptz, bytes bytea)")
    server.ask(f"insert into spans (name, span, at) select 'first', '76 hours', '{AT}'")
    server.ask("create table written (value text)")
    return server


def start_reporting(t, server):
    """A pooler that reports this server's five values."""
    return start(t, server, words=shlex.split(reports_of(server)))


def count_opened(server, act):
    """What an act returns, and how many server connections it opens."""
    ask = "select sessions from pg_stat_database where datname = 'shop'"
    before = int(server.client().value(ask))
    came = act()
    time.sleep(1.5)  # a session is counted with the server's next statistics
    return came, int(server.client().value(ask)) - before - 1


def read_together(port, workers, count):
    """How often Django reads which time, by some connections one after another in each of some workers."""
    command = [PYTHON, f"{HERE}/by_django.py", str(port), "times", str(count)]
    running = [subprocess.Popen(command, text=True, stdout=subprocess.PIPE, stderr=subprocess.STDOUT)
               for _ in range(workers)]
    return dict(collections.Counter(line for one in running for line in one.communicate()[0].strip().split("\n")))


@part("django", needs="python3-django")
def django(t):
    """Django's times where the server's time zone isn't UTC"""
    for zone, reported_zone in (("Europe/Berlin", LATE), ("Etc/UTC", RIGHT)):
        server = with_tables(t, {"TimeZone": zone})
        for name, at, found in (("the server", server, RIGHT), ("PgBouncer", Bouncer(t, server), RIGHT),
                                ("--report", start_reporting(t, server), reported_zone)):
            came, opened = count_opened(server, lambda at=at: read_together(at.port, 6, 12))
            t.check(came == {found: 72}, f"{zone}, {name}: 72 connections", f"{came}, {opened} server connections")
        came, opened = count_opened(server, lambda: read_together(start(t, server).port, 6, 12))
        t.note(f"{zone}, not reported: {came}, {opened} server connections")

    server = with_tables(t, {"TimeZone": "Europe/Berlin"})
    came = collections.Counter()
    for _ in range(6):
        at = start(t, server)
        came.update(read_together(at.port, 12, 1))
        at.stop()
    t.check(came.keys() <= {RIGHT, LATE}, "not reported, six starts, 12 workers that connect at once", dict(came))
    server.ask("alter database shop set TimeZone = 'UTC'")
    at = start(t, server, words=(*QUOTES, "--report", "TimeZone=UTC"))
    came, opened = count_opened(server, lambda: read_together(at.port, 6, 12))
    t.check(came == {RIGHT: 72} and opened <= 5, "ALTER DATABASE, reported", f"{came}, {opened} server connections")

    server = with_tables(t, {"TimeZone": "Europe/Berlin"})
    server.ask("create role django login superuser")
    server.ask("alter role django set TimeZone = 'UTC'")
    entry = f"host=127.0.0.1 port={server.port} user=django dbname=shop"
    at = Pooler(t, {"shop": entry, "other": server.port}, words=QUOTES)
    came = read_together(at.port, 6, 12)
    t.check(came == {RIGHT: 72}, "an entry whose role has the zone, not reported", came)
    zone = at.client(database="other").value("show TimeZone")
    t.check(zone == "Europe/Berlin", "the other entry's zone", zone)


@part("iterator", needs="python3-django")
def iterator(t):
    """Django's iterator() in four forked workers, with and without server-side cursors"""
    server = with_tables(t, {"TimeZone": "UTC"})
    for name, at in (("the server", server), ("pgpeer", start(t, server, pool=2)),
                     ("PgBouncer", Bouncer(t, server, pool=2))):
        for plain in ((), ("plain",)):
            came = [line for _ in range(4) for line in by("by_django.py", at, "iterate", "4", *plain)]
            kinds = dict(collections.Counter(line.split(":")[0] for line in came))
            example = next((line for line in came if line != "right"), "")
            if plain or at is server:
                t.check(kinds == {"right": 16}, f"{name}{', DISABLE_SERVER_SIDE_CURSORS' if plain else ''}", kinds)
            else:
                t.check(kinds != {"right": 16}, f"{name}, the default", f"{kinds}, such as {example}")


@part("rails", needs="ruby-activerecord")
def rails(t):
    """Rails' intervals, and how it writes a backslash and bytes"""
    right, lost = "273600 2024-06-30T12:00:00Z", "0 2024-06-30T12:00:00Z"
    stored, spoiled = [("a\\b", "005cff")], [("a\\\\b", "5c78303035636666")]

    def check(name, server, at, span, rows):
        server.ask("delete from spans where name <> 'first'")
        came, opened = count_opened(server, lambda: by("by_rails.rb", at))
        written = server.ask("select name, encode(bytes, 'hex') from spans where name <> 'first'")
        t.check(came == [span] * 3 + ["written"] and written == rows, name,
                f"{came}, {written}, {opened} server connections")

    server = with_tables(t, {"TimeZone": "UTC"})
    plain = start(t, server)
    check("the server", server, server, right, stored)
    check("PgBouncer", server, Bouncer(t, server), right, stored)
    check("without --report", server, start(t, server, words=()), right, spoiled)
    check("with standard_conforming_strings alone", server, plain, right, stored)
    check("with the five", server, start_reporting(t, server), lost, stored)
    came = by("by_rails.rb", plain, "prepared")[0]
    t.check("not in this profile" in came, "the default", came)

    server = with_tables(t, {"TimeZone": "Europe/Berlin"})
    server.ask("alter role app set IntervalStyle = 'iso_8601'")
    server.ask("alter role app set TimeZone = 'UTC'")
    check("ALTER ROLE, reported", server, start_reporting(t, server), right, stored)
    check("ALTER ROLE, not reported", server, start(t, server), right, stored)


@part("dates", needs="odbc-postgresql")
def dates(t):
    """psqlodbc and psycopg2 where the server's DateStyle isn't ISO"""
    # Debian's settings have it write a log to /tmp.
    with open(f"{t.folder}/odbcinst.ini", "w") as file:
        file.write(f"[psqlodbc]\nDriver = {glob.glob('/usr/lib/*/odbc/psqlodbcw.so')[0]}\nCommLog = 0\n")
    os.environ["ODBCSYSINI"] = t.folder
    right = "2024-06-30T12:00:00"
    wrong = {"psqlodbc": time.strftime("%Y-%m-%dT00:00:00"), "psycopg2": "error unable to parse date"}
    server = with_tables(t, {"DateStyle": "SQL, DMY", "TimeZone": "UTC"})
    targets = (("the server", server, None), ("PgBouncer", Bouncer(t, server), None),
               ("DateStyle not reported", start(t, server), None), ("reported", start_reporting(t, server), wrong))
    for name, at, found in targets:
        for driver in wrong:
            came = by("by_python.py", at, driver)
            t.check(came == [found[driver] if found else right] * 3, f"{name}, {driver}", came)
    server.ask("alter database shop set DateStyle = 'ISO, MDY'")
    at = start_reporting(t, server)
    for driver in wrong:
        came = by("by_python.py", at, driver)
        t.check(came == [right] * 3, f"ALTER DATABASE, reported, {driver}", came)


@part("quoting", needs="python3-psycopg2")
def quoting(t):
    """a backslash and bytes by psycopg2, without --report, and after the workaround"""
    server = Postgres(t)
    plain = start(t, server, words=())
    right, wrong = "a\\b 3", "a\\\\b 8"
    for name, at, what, wanted in (("the server", server, "quoting", right),
                                   ("without --report", plain, "quoting", wrong),
                                   ("after the workaround", plain, "workaround", right),
                                   ("with --report", start(t, server), "quoting", right)):
        came = by("by_python.py", at, what)
        t.check(came == [wanted], name, came)


@part("doctrine", needs="php-doctrine-dbal")
def doctrine(t):
    """Doctrine DBAL's drivers pdo_pgsql and pgsql"""
    server = with_tables(t, {"TimeZone": "UTC"})
    plain, unit = start(t, server, words=()), start(t, server)
    right, wrong = [("a\\b",), ("it's",)], [("a\\\\b",), ("it's",)]
    cases = ((server, "the server", ("pgsql",), right), (Bouncer(t, server), "PgBouncer", ("pgsql",), right),
             (plain, "without --report", ("pdo_pgsql",), right),
             (plain, "without --report", ("pdo_pgsql", "emulate"), wrong),
             (plain, "without --report", ("pgsql",), []), (unit, "with it", ("pdo_pgsql",), right),
             (unit, "with it", ("pdo_pgsql", "emulate"), right), (unit, "with it", ("pgsql",), []))
    for at, name, words, found in cases:
        server.ask("delete from written")
        came = by("by_doctrine.php", at, *words)
        rows = server.ask("select value from written order by value")
        t.check(rows == found, f"{name}, {' '.join(words)}", f"{came}, at the server {rows}")


@part("powerdns", needs="pdns-backend-pgsql")
def powerdns(t):
    """PowerDNS with gpgsql, with and without prepared statements"""
    server = Postgres(t)
    making = ["psql", "-Xq", "-h", "127.0.0.1", "-p", str(server.port), "-U", "app", "-f", SCHEMA, "shop"]
    subprocess.run(making, check=True)
    for name, at in (("PgBouncer", Bouncer(t, server)), ("pgpeer", start(t, server))):
        for prepared in ("yes", "no"):
            server.ask("delete from domains")
            folder, port = f"{t.folder}/{at.port}.{prepared}", t.port()
            os.mkdir(folder)
            with open(f"{folder}/pdns.conf", "w") as file:
                file.write(f"launch=gpgsql\ngpgsql-host=127.0.0.1\ngpgsql-port={at.port}\ngpgsql-dbname=shop\n"
                           f"gpgsql-user=app\ngpgsql-prepared-statements={prepared}\nlocal-address=127.0.0.1\n"
                           f"local-port={port}\nsocket-dir={folder}\nsecurity-poll-suffix=\n")
            where = f"--config-dir={folder}"
            said("pdnsutil", where, "create-zone", "example.org", "ns.example.org")
            made = said("pdnsutil", where, "add-record", "example.org", "www", "A", "192.0.2.7")
            with open(f"{folder}/log", "w") as log:
                PROCESSES.append(subprocess.Popen(
                    ["pdns_server", where, "--daemon=no", "--guardian=no", "--disable-syslog"],
                    stdout=log, stderr=log, preexec_fn=bind_to_parent))
            wait_until(lambda: look_up(port) or PROCESSES[-1].poll() is not None, 5)
            came, wanted = look_up(port), name == "PgBouncer" or prepared == "no"
            t.check(came == ("192.0.2.7" if wanted else ""), f"{name}, gpgsql-prepared-statements={prepared}",
                    came or made[-2:])


def look_up(port):
    """The address of www.example.org, as the name server at this port says it; empty if there is none."""
    name = b"".join(bytes([len(part)]) + part for part in (b"www", b"example", b"org"))
    with socket.socket(socket.AF_INET, socket.SOCK_DGRAM) as asking:
        asking.settimeout(1)
        try:
            asking.connect(("127.0.0.1", port))
            asking.send(struct.pack("!6H", 7, 256, 1, 0, 0, 0) + name + b"\0\0\1\0\1")
            answer = asking.recv(512)
        except OSError:
            return ""
    return ".".join(map(str, answer[-4:])) if struct.unpack("!H", answer[6:8])[0] else ""
