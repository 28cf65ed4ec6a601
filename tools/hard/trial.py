"""One scenario as it runs: what it found, its folder, its ports, its processes."""
import collections
import ctypes
import glob
import os
import pwd
import random
import resource
import shutil
import signal
import socket
import subprocess
import sys
import time

from hard.wire import Client, Late, Lost, Refused, wait_until

SCENARIOS = {}
LIBC = ctypes.CDLL(None, use_errno=True)
# As ./pgpeer sets it.
ENVIRONMENT = {**os.environ, "MALLOC_TRIM_THRESHOLD_": "131072"}
Scenario = collections.namedtuple("Scenario", "name run limit slow words")


def scenario(name, limit=60, slow=False):
    """Makes a function a scenario of this name, which may take so many seconds."""

    def add(function):
        SCENARIOS[name] = Scenario(name, function, limit, slow, function.__doc__.split("\n")[0])
        return function

    return add


CLONE_NEWNET = 0x40000000


def enter_network(*settings):
    """A network namespace of the scenario's own, whose loopback has these settings. Returns whether
    there is one: it takes root."""
    if LIBC.unshare(CLONE_NEWNET) != 0:
        return False
    return subprocess.run(["ip", "link", "set", "dev", "lo", *settings, "up"], check=False).returncode == 0


def bind_to_parent():
    """The process ends with the one that starts it."""
    LIBC.prctl(1, signal.SIGKILL, 0, 0, 0)


def take_program(options):
    """Copies the program, so that it stays the same while all this runs, for any user."""
    path = os.path.abspath(options.program)
    if not os.path.exists(path):
        sys.exit(f"{path} isn't there (tools/build makes the program)")
    subprocess.run([path, "--version"], check=True, stdout=subprocess.DEVNULL)
    options.program = os.path.join(options.folder, "pgpeer")
    shutil.copy(path, options.program)
    os.chmod(options.program, 0o755)


def make_template(options):
    """A server's data folder that each scenario copies."""
    found = sorted(glob.glob("/usr/lib/postgresql/*/bin")) or [os.path.dirname(shutil.which("initdb") or "")]
    options.postgres = found[-1]
    if not os.path.exists(f"{options.postgres}/initdb"):
        sys.exit("PostgreSQL's server isn't there (Debian: package postgresql)")
    options.owner = None
    if os.getuid() == 0:
        users = {user.pw_name for user in pwd.getpwall()}
        options.owner = "postgres" if "postgres" in users else "nobody"
        shutil.chown(options.folder, options.owner)
    options.template = os.path.join(options.folder, "template")
    quiet = {"stdout": subprocess.DEVNULL, "stderr": subprocess.DEVNULL, "cwd": "/", "check": True, **as_owner(options)}
    words = ["-D", options.template, "-U", "postgres", "-A", "trust", "-E", "UTF8", "--locale=C", "--no-sync"]
    subprocess.run([f"{options.postgres}/initdb", *words], **quiet)
    single = [f"{options.postgres}/postgres", "--single", "-D", options.template, "-c", "fsync=off", "postgres"]
    for text in ("create role app login superuser", "create database shop owner app"):
        subprocess.run(single, input=(text + "\n").encode(), **quiet)


class Trial:
    def __init__(self, name, options):
        self.name, self.options, self.failed = name, options, 0
        self.folder = os.path.join(options.folder, name)
        os.mkdir(self.folder)
        os.chmod(self.folder, 0o755)
        self.random = random.Random(f"{options.seed} {name}")
        self.next_port = random.SystemRandom().randrange(*options.ports)

    def check(self, good, what, figure, wanted=""):
        """One line of the result."""
        self.failed += not good
        tail = f" (wanted: {wanted})" if wanted and not good else ""
        print(f"{'PASS' if good else 'FAIL'}  {self.name}: {what}: {figure}{tail}", flush=True)
        return good

    def note(self, text):
        print(f"      {self.name}: {text}", flush=True)

    def port(self):
        """A port at which nobody listens."""
        first, last = self.options.ports
        for _ in range(last - first):
            self.next_port = first + (self.next_port + 1 - first) % (last - first)
            with socket.socket() as probe:
                probe.setsockopt(socket.SOL_SOCKET, socket.SO_REUSEADDR, 1)
                try:
                    probe.bind(("127.0.0.1", self.next_port))
                    return self.next_port
                except OSError:
                    continue
        raise OSError("no port is free")


class Postgres:
    """A PostgreSQL server of the scenario's own: user `app`, database `shop`."""

    count = 0
    servers = []

    def __init__(self, trial, settings=None):
        Postgres.count += 1
        self.settings = settings or {}
        self.options, self.port, self.process, self.watcher = trial.options, trial.port(), None, None
        self.data = f"{trial.folder}/data{Postgres.count}"
        self.log = open(f"{trial.folder}/server{Postgres.count}.log", "a")
        Postgres.servers.append(self)
        subprocess.run(["cp", "-a", self.options.template, self.data], check=True)
        self.start()

    def start(self):
        words = {"port": self.port, "listen_addresses": "127.0.0.1", "unix_socket_directories": "",
                 "fsync": "off", "max_connections": 200, "shared_buffers": "32MB", **self.settings}
        command = [f"{self.options.postgres}/postgres", "-D", self.data]
        for name, value in words.items():
            command += ["-c", f"{name}={value}"]
        self.process = subprocess.Popen(command, cwd="/", stdout=self.log, stderr=self.log,
                                        **as_owner(self.options))
        if wait_until(self.is_ready, 20) is None:
            raise OSError("PostgreSQL doesn't start: see " + self.log.name)

    def is_ready(self):
        try:
            self.client().close()
            return True
        except (Lost, Late, Refused):
            return False

    def client(self, user="app", database="shop"):
        return Client(self.port, database, user)

    def ask(self, text):
        """Runs a query at the server, past the poolers."""
        client = self.client()
        try:
            return client.query(text)
        finally:
            client.close()

    def is_running(self, text):
        """Whether a client runs this query."""
        self.watcher = self.watcher or self.client()
        found = f"select count(*) from pg_stat_activity where state = 'active' and query = '{text}'"
        return self.watcher.value(found) != "0"

    def restart(self):
        self.watcher = None
        self.process.send_signal(signal.SIGINT)
        self.process.wait(20)
        self.start()


def stop_servers():
    """Ends all servers at once. They remove their shared memory, which a killed one would leave."""
    started = [server.process for server in Postgres.servers if server.process]
    for process in started:
        process.send_signal(signal.SIGQUIT)
    for process in started:
        process.wait(10)


def as_owner(options):
    """PostgreSQL's server doesn't run as root."""
    if options.owner is None:
        return {}
    return {"user": options.owner, "group": options.owner, "extra_groups": []}


def write_settings(number, port, databases, peers, pool, clients):
    lines = ["[pgbouncer]", "pool_mode = transaction", "auth_type = trust", "listen_addr = 127.0.0.1",
             f"listen_port = {port}", f"peer_id = {number}", f"default_pool_size = {pool}",
             f"max_client_conn = {clients}", "[databases]"]
    for name, at in databases.items():
        lines.append(f"{name} = " + (at if isinstance(at, str) else f"host=127.0.0.1 port={at} user=app dbname=shop"))
    lines += ["[peers]"]
    lines += [f"{peer} = host=127.0.0.1 port={at}" for peer, at in peers.items() if peer != number]
    return "\n".join(lines) + "\n"


class Pooler:
    """A process of pgpeer, with one node or more.

    `databases` are the servers' ports by the names of the entries, or the whole text of an entry.
    `ports` are those of its nodes by their numbers, `peers` those of nodes elsewhere. `limits` are
    limits of the process by their names (`NOFILE`, ..), `closed` are descriptors that it doesn't get,
    `stdin` is its standard input, `words` are more arguments of `serve`. With `boot` 0 it gets no boot
    number."""

    count = 0
    started = []

    def __init__(self, trial, databases, ports=None, peers=None, pool=4, clients=100, limits=None,
                 user=None, stdin=subprocess.DEVNULL, stderr=None, closed=(), words=(), boot=None):
        Pooler.count += 1
        Pooler.started.append(self)
        self.trial, self.limits, self.user, self.stdin, self.stderr = trial, limits or {}, user, stdin, stderr
        self.closed, self.words, self.boot = closed, words, boot
        self.ports = ports or {1: trial.port()}
        self.port, self.front = next(iter(self.ports.values())), trial.port()
        self.base, self.starts, self.process = f"{trial.folder}/pooler{Pooler.count}", 0, None
        self.files = []
        for number, port in self.ports.items():
            self.files.append(f"{self.base}.node{number}.ini")
            with open(self.files[-1], "w") as file:
                every = {**self.ports, **(peers or {})}
                file.write(write_settings(number, port, databases, every, pool, clients))
        self.start()

    def command(self):
        boot = [] if self.boot == 0 else ["--boot", str(int(time.time()) % 2**31 + self.starts)]
        return [self.trial.options.program, "serve", "--front", str(self.front), "--seed",
                os.urandom(32).hex(), *boot, *self.words, *self.files]

    def before_exec(self):
        bind_to_parent()
        for name, value in self.limits.items():
            resource.setrlimit(getattr(resource, f"RLIMIT_{name}"), (value, value))
        if self.user is not None:
            os.setgroups([])
            os.setgid(self.user)
            os.setuid(self.user)
        for number in self.closed:
            os.close(number)

    def start(self):
        self.starts += 1
        with open(f"{self.base}.out", "w") as out, open(f"{self.base}.err", "a") as err:
            self.process = subprocess.Popen(
                self.command(), stdin=self.stdin, stdout=out, cwd="/", env=ENVIRONMENT,
                stderr=err if self.stderr is None else self.stderr, preexec_fn=self.before_exec)
        if wait_until(self.listens, 10) is None:
            raise OSError(f"{self.trial.options.program} doesn't listen: {self.errors()}")

    def listens(self):
        with open(f"{self.base}.out") as out:
            return "listening" in out.read()

    def log_lines(self, event):
        """The words of the log's lines of this event; a thread of its own writes the log."""
        with open(f"{self.base}.err") as log:
            return [line.split() for line in log if f" {event} " in line]

    def errors(self):
        with open(f"{self.base}.err", errors="replace") as err:
            return err.read()[-300:]

    def stop(self, by=signal.SIGKILL):
        self.process.send_signal(by)
        self.process.wait(10)

    def is_running(self):
        return self.process.poll() is None

    def client(self, node=None, database="shop", **more):
        return Client(self.ports[node] if node else self.port, database, **more)

    def show(self, what, node=None):
        """Rows of the console."""
        console = self.client(node, "pgbouncer")
        try:
            return console.query(f"SHOW {what}")
        finally:
            console.close()

    def places(self, node=None):
        """How many server connections are idle, held, quarantined."""
        return dict(collections.Counter(row[2] for row in self.show("LINKS", node)))

    def is_at_rest(self, node=None):
        """Whether within a second no server connection is held or quarantined, and no client opens or waits for one."""
        return wait_until(lambda: self.rests(node), 1.0) is not None

    def rests(self, node):
        states = {row[2] for row in self.show("CLIENTS", node)}
        return not ({"held", "quarantined"} & set(self.places(node)) or {"opening", "waiting", "link"} & states)

    def counts(self, node=None):
        return {kind: int(count) for kind, count in self.show("CANCELS", node)}

    def memory(self):
        """Resident memory in MB."""
        with open(f"/proc/{self.process.pid}/status") as status:
            return next(int(line.split()[1]) for line in status if line.startswith("VmRSS")) / 1024

    def descriptors(self):
        return len(os.listdir(f"/proc/{self.process.pid}/fd"))

    def threads(self):
        return len(os.listdir(f"/proc/{self.process.pid}/task"))


def start_apart(trial, databases, count=2, **more):
    """Nodes that are peers, each a process of its own."""
    ports = {number: trial.port() for number in range(1, count + 1)}
    return [Pooler(trial, databases, {number: port}, ports, **more) for number, port in ports.items()]


def remove(folder):
    shutil.rmtree(folder, ignore_errors=True)
