"""The drivers: their packages, their programs, and their ways of passing values."""
import collections
import json
import os
import shutil
import subprocess
import tempfile

HERE = os.path.dirname(os.path.realpath(__file__))
HOME = os.path.realpath(os.path.join(HERE, "../.."))

# A driver: the packages that it needs, of which the first has its version; its program, if that
# isn't made of a file here; and the ways of passing values, with their words for the table.
Driver = collections.namedtuple("Driver", "packages command ways")
DRIVERS = {
    "psql": Driver(
        ["postgresql-client"],
        ["bash", f"{HERE}/psql.sh"],
        {"variables": "`:'name'`", "script": "a script with literals"},
    ),
    "psycopg2": Driver(
        ["python3-psycopg2"],
        ["/usr/bin/python3", f"{HERE}/values.py"],
        {"psycopg2": "`execute` with values (it quotes them)"},
    ),
    "psycopg 3": Driver(
        ["python3-psycopg"],
        ["/usr/bin/python3", f"{HERE}/values.py"],
        {"parameters": "`prepare_threshold=None`", "quoting": "`ClientCursor`"},
    ),
    "pg8000": Driver(
        ["python3-pg8000"], ["/usr/bin/python3", f"{HERE}/values.py"], {"pg8000": "parameters"}
    ),
    "pgjdbc": Driver(
        ["libpostgresql-jdbc-java", "default-jdk-headless"],
        None,
        {
            "parameters": "`prepareThreshold=0`",
            "simple": "`preferQueryMode=simple`",
            "literal": "a literal, and a parameter behind it",
        },
    ),
    "Ruby pg": Driver(
        ["ruby-pg"],
        ["ruby", f"{HERE}/values.rb"],
        {"parameters": "`exec_params`", "escaped": "`escape_string`, `escape_bytea`"},
    ),
    "PHP pgsql": Driver(
        ["php-pgsql", "php-cli"],
        ["php", f"{HERE}/values.php"],
        {"parameters": "`pg_query_params`", "escaped": "`pg_escape_string`, `pg_escape_bytea`"},
    ),
    "PHP PDO": Driver(
        ["php-pgsql", "php-cli"],
        ["php", f"{HERE}/values.php"],
        {
            "prepared": "the default",
            "unprepared": "`PGSQL_ATTR_DISABLE_PREPARES`",
            "emulated": "`ATTR_EMULATE_PREPARES`",
            "quote": "`quote`",
        },
    ),
    "DBD::Pg": Driver(
        ["libdbd-pg-perl"],
        ["perl", f"{HERE}/values.pl"],
        {
            "parameters": "`pg_server_prepare=0`",
            "quote": "`quote`",
            "literal": "a literal, and a parameter behind it",
        },
    ),
    "node-postgres": Driver(
        ["node-pg"],
        ["node", f"{HERE}/values.js"],
        {"parameters": "parameters", "escaped": "`escapeLiteral`"},
    ),
    "pgx": Driver(
        ["golang-github-jackc-pgx-v4-dev", "golang-go"],
        None,
        {"parameters": "`statement_cache_mode=describe`", "simple": "`PreferSimpleProtocol`"},
    ),
}
# What sends named statements or Flush, which pgpeer refuses.
REFUSED = {("pg8000", "pg8000"), ("PHP PDO", "prepared"), ("node-postgres", "parameters")}
# Debian's node-postgres, unpacked where another node keeps it from being installed.
NODE_FOLDER = os.path.join(HOME, "out/drivers/node")
NODE_PACKAGES = ["node-pg", "node-xtend", "node-split2", "node-readable-stream"]


def version_of(package):
    """The version of an installed package, and nothing if it isn't there."""
    asked = subprocess.run(
        ["dpkg-query", "-W", "-f=${db:Status-Abbrev}${Version}", package],
        capture_output=True,
        text=True,
    )
    status, version = asked.stdout[:3], asked.stdout[3:]
    return version.split(":")[-1].split("-")[0].split("+")[0] if status.startswith("ii") else ""


def version_of_driver(name):
    """The version of a driver, and nothing if it isn't there."""
    if name == "psql" and shutil.which("psql"):
        return subprocess.run(["psql", "--version"], capture_output=True, text=True).stdout.split()[
            2
        ]
    if name == "node-postgres" and shutil.which("node") and os.path.isdir(NODE_FOLDER):
        with open(f"{NODE_FOLDER}/usr/share/nodejs/pg/package.json") as file:
            return json.load(file)["version"]
    versions = [version_of(package) for package in DRIVERS[name].packages]
    return versions[0] if all(versions) else ""


def install(name):
    """Installs a driver's packages, or unpacks node's if they don't fit the node here."""
    words = ["-y", "-q", "--no-install-recommends", "--no-upgrade"]
    quiet = {
        "stdout": subprocess.DEVNULL,
        "env": {**os.environ, "DEBIAN_FRONTEND": "noninteractive"},
    }
    done = subprocess.run(
        ["apt-get", "install", *words, *DRIVERS[name].packages], timeout=600, **quiet
    )
    if done.returncode != 0 and name == "node-postgres" and shutil.which("node"):
        with tempfile.TemporaryDirectory() as folder:
            os.chmod(folder, 0o777)
            subprocess.run(
                ["apt-get", "download", *NODE_PACKAGES], cwd=folder, timeout=300, **quiet
            )
            os.makedirs(NODE_FOLDER, exist_ok=True)
            for file in os.listdir(folder):
                subprocess.run(
                    ["dpkg-deb", "-x", os.path.join(folder, file), NODE_FOLDER], check=True
                )


def make_programs(options, names):
    """The programs of drivers whose language is compiled, by the drivers' names."""
    made = {}
    if "pgjdbc" in names:
        subprocess.run(
            ["javac", "-d", options.folder, f"{HERE}/Values.java"], check=True, timeout=300
        )
        made["pgjdbc"] = [
            "java",
            "-XX:+UseSerialGC",
            "-cp",
            f"{options.folder}:/usr/share/java/postgresql.jar",
            "Values",
        ]
    if "pgx" in names:
        environment = {
            **os.environ,
            "GO111MODULE": "off",
            "GOPATH": "/usr/share/gocode",
            "GOCACHE": f"{options.folder}/go",
        }
        program = f"{options.folder}/values"
        subprocess.run(
            ["go", "build", "-o", program, f"{HERE}/values.go"],
            check=True,
            timeout=300,
            env=environment,
        )
        made["pgx"] = [program]
    return made
