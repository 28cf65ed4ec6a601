"""Large messages where the limit is raised, and what pg_dump needs."""
import os
import re
import shutil
import subprocess

from hard.others import Others
from hard.trial import Pooler, Postgres, scenario
from hard.wire import frame, outcome, wait_until

LIMIT = 33554432
SIZE = 20_000_000
JAVA_SOURCE = """
import java.nio.file.*; import java.sql.*;
public class Large {
    public static void main(String[] words) throws Exception {
        String url = "jdbc:postgresql://127.0.0.1:" + words[0] + "/shop?user=app&prepareThreshold=0";
        String value = new String(Files.readAllBytes(Path.of(words[1])));
        try (Connection connection = DriverManager.getConnection(url)) {
            PreparedStatement insert = connection.prepareStatement("insert into large values ('pgjdbc', ?)");
            insert.setString(1, value);
            insert.executeUpdate();
            ResultSet found = connection.createStatement()
                .executeQuery("select v from large where who = 'pgjdbc'");
            found.next();
            System.out.print(found.getString(1).equals(value) ? "same" : "other");
        }
    }
}
"""
PSYCOPG = """
import psycopg, sys
value = open(sys.argv[2]).read()
with psycopg.connect(f"host=127.0.0.1 port={sys.argv[1]} user=app dbname=shop", prepare_threshold=None) as c:
    c.execute("insert into large values ('psycopg', %s)", (value,))
    c.commit()
    print("same" if c.execute("select v from large where who = 'psycopg'").fetchone()[0] == value else "other", end="")
"""


def make_value(t):
    """A text of 20 MB in which no part is like another, in a file."""
    path = f"{t.folder}/value"
    with open(path, "w") as file:
        file.write(os.urandom(SIZE // 2).hex())
    return path


def run(command):
    done = subprocess.run(command, capture_output=True, text=True, timeout=100, check=False)
    return done.stdout if done.returncode == 0 else "error: " + done.stderr.strip()[-200:]


def through_psql(t, port, path):
    """Writes the value as a literal of a script, and reads it back."""
    script = f"{t.folder}/insert.sql"
    with open(path) as value, open(script, "w") as file:
        file.write(f"insert into large values ('psql', '{value.read()}');\n")
    words = ["psql", "-X", "-q", "-At", "-h", "127.0.0.1", "-p", str(port), "-U", "app", "-d", "shop"]
    wrong = run([*words, "-f", script])
    read = run([*words, "-c", "select v from large where who = 'psql'"])
    with open(path) as value:
        return wrong or ("same" if read == value.read() + "\n" else read[:200])


def drivers_of(t, port, path):
    """Each driver that is there, as a function that returns `same` where it reads what it wrote."""
    found = {}
    if shutil.which("psql"):
        found["psql"] = lambda: through_psql(t, port, path)
    if run(["/usr/bin/python3", "-c", "import psycopg"]) == "":
        found["psycopg"] = lambda: run(["/usr/bin/python3", "-c", PSYCOPG, str(port), path])
    jar = "/usr/share/java/postgresql.jar"
    if shutil.which("java") and os.path.exists(jar):
        with open(f"{t.folder}/Large.java", "w") as file:
            file.write(JAVA_SOURCE)
        found["pgjdbc"] = lambda: run(["java", "-cp", jar, f"{t.folder}/Large.java", str(port), path])
    return found


@scenario("large-values", limit=180)
def large_values(t):
    """With --max-message 33554432 values of 20 MB are written and read; memory comes back"""
    server = Postgres(t)
    pooler = Pooler(t, {"shop": server.port}, words=("--max-message", str(LIMIT)))
    server.ask("create table large (who text, v text)")
    path, before = make_value(t), pooler.memory()
    others = Others(pooler.port)
    for name, pass_value in drivers_of(t, pooler.port, path).items():
        came = pass_value()
        t.check(came == "same", f"20 MB through {name}", came, "same")
    others.judge(t, 2.0)
    writes = pooler.memory()
    reader = pooler.client()
    for _ in range(5):
        reader.query("select v from large", 30.0)
    after = pooler.memory()
    t.check(writes < before + 12, "memory after the writes", f"{before:.0f} -> {writes:.0f} MB", "12 MB more at most")
    t.check(after < writes + 4, "memory after five reads of all", f"{writes:.0f} -> {after:.0f} MB", "4 MB more at most")


@scenario("large-refused", limit=60)
def large_refused(t):
    """Above the limit a query, a group of messages and a row end the session, and the log has their sizes"""
    server = Postgres(t)
    pooler = Pooler(t, {"shop": server.port})
    client = pooler.client()
    came = outcome(lambda: client.value("select length('" + "x" * 2_000_000 + "')", 20.0))
    t.check("08P01" in came, "a query of 2 MB without --max-message", came[:100], "08P01")
    group = pooler.client()
    group.send(frame(b"P", b"\0" + b" " * 600_000 + b"\0\0\0") * 2)
    came = outcome(lambda: group.read_reply(20.0))
    t.check("08P01" in came, "two messages of 0.6 MB before their Sync", came[:100], "08P01")
    reader = pooler.client()
    came = outcome(lambda: reader.value("select repeat('x', 2000000)", 20.0))
    t.check("08006" in came, "a row of 2 MB without --max-message", came[:100], "08006")
    wait_until(lambda: len(pooler.log_lines("message_too_long")) >= 3, 2)
    lines = pooler.log_lines("message_too_long")
    # The query's length field, the two messages with their types, and the row's length field.
    wanted = [("2000022", "client"), ("1200018", "client"), ("2000010", "server")]
    fields = [f"database=shop bytes={size} limit=1048576 from={sender}" for size, sender in wanted]
    found = [" ".join(line[-4:]) for line in lines]
    t.check(found == fields, "the lines of the log", found, fields)


@scenario("dump", limit=60)
def dump(t):
    """pg_dump -s where logins report the server's version"""
    server = Postgres(t)
    server.ask("create table things (name text primary key, made timestamptz default now())")
    version = server.client().value("show server_version")
    pooler = Pooler(t, {"shop": server.port}, words=("--report", f"server_version={version}",
                                                     "--report", "standard_conforming_strings=on"))
    words = ["-s", "-h", "127.0.0.1", "-U", "app", "-d", "shop"]
    direct = run([f"{t.options.postgres}/pg_dump", *words, "-p", str(server.port)])
    pooled = run([f"{t.options.postgres}/pg_dump", *words, "-p", str(pooler.port)])
    # Each dump has a random word of its own.
    direct, pooled = (re.sub(r"(?m)^\\(un)?restrict .*$", "", text) for text in (direct, pooled))
    same = direct == pooled and "CREATE TABLE" in direct
    t.check(same, "the schema", pooled[:200] if not same else f"{len(direct)} bytes, as from the server", "the same")
