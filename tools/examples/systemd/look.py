"""What `run` starts beside the unit: starts it, looks at it, kills it and drains it."""
import os
import resource
import signal
import subprocess
import sys

HERE = os.path.dirname(os.path.realpath(__file__))
sys.dont_write_bytecode = True
sys.path.insert(0, os.path.join(HERE, "../.."))

from hard.wire import Client, Late, Lost, Refused, wait_until

SETTINGS = "/etc/pgpeer/node1.ini"


def require(good, what):
    print(("ok    " if good else "FAIL  ") + what, flush=True)
    if not good:
        sys.exit(1)


def systemctl(*words):
    return subprocess.run(["systemctl", *words], timeout=30).returncode


def shown(name):
    """A property of the unit."""
    words = ["systemctl", "show", "-P", name, "pgpeer"]
    return subprocess.run(words, stdout=subprocess.PIPE, text=True, timeout=30).stdout.strip()


def answers():
    try:
        client = Client(6432)
        client.query("echo ready")
        client.close()
        return True
    except (Lost, Late, Refused):
        return False


def pooler():
    """The process of pgpeer, which the unit's shell started."""
    shell = shown("MainPID")
    with open(f"/proc/{shell}/task/{shell}/children") as children:
        return int(children.read())


def is_anew(before):
    """Whether the unit runs, with another shell than before."""
    return shown("MainPID") not in ("0", str(before))


def refused(client):
    """The code of the error that the client gets."""
    try:
        client.read_reply()
    except Refused as error:
        return error.code
    return None


def drains():
    """A stop ends sessions between transactions, and waits for the open one."""
    idle, busy = Client(6432), Client(6432)
    busy.query("begin")
    stop = subprocess.Popen(["systemctl", "stop", "pgpeer"])
    require(refused(idle) == "57P01", "systemctl stop: an idle session ends with 57P01")
    require(busy.value("echo more") == "more", "an open transaction goes on")
    require(stop.poll() is None, "systemctl waits for it")
    busy.query("commit")
    require(refused(busy) == "57P01", "its session ends behind it")
    require(stop.wait(30) == 0, "systemctl stop pgpeer")
    ended = [shown(name) for name in ("ActiveState", "Result", "ExecMainCode", "ExecMainStatus")]
    require(ended == ["inactive", "success", "1", "0"], f"it has ended with status 0: {ended}")


def of_process(process, file, name):
    with open(f"/proc/{process}/{file}") as lines:
        return next(line.removeprefix(name).split() for line in lines if line.startswith(name))


def main():
    require(systemctl("start", "pgpeer") == 0, "systemctl start pgpeer")
    require(wait_until(answers, 20) is not None, "it answers a query")
    first = pooler()
    require(of_process(first, "status", "Uid:")[0] != "0", "its user isn't root")
    most = min(65536, resource.getrlimit(resource.RLIMIT_NOFILE)[1])
    require(
        of_process(first, "limits", "Max open files")[0] == str(most), f"it may open {most} files"
    )
    require(of_process(first, "status", "CapBnd:") == ["0" * 16], "it has no capabilities")
    require(of_process(first, "status", "Seccomp:") == ["2"], "its system calls are filtered")
    with open(f"/proc/{first}/environ") as environment:
        set_ = "MALLOC_TRIM_THRESHOLD_=131072" in environment.read().split("\0")
    require(set_, "MALLOC_TRIM_THRESHOLD_ is set")

    for who, find in (("pgpeer", pooler), ("its shell", lambda: int(shown("MainPID")))):
        shell, process = shown("MainPID"), find()
        os.kill(process, signal.SIGKILL)
        anew = wait_until(lambda: is_anew(shell), 20) is not None
        require(anew, f"{who} killed, it is started again")
        require(wait_until(answers, 20) is not None, "it answers a query")
    require(systemctl("restart", "pgpeer") == 0, "systemctl restart pgpeer")
    require(wait_until(answers, 20) is not None, "it answers a query")
    with open(f"/proc/{pooler()}/cmdline") as arguments:
        words = arguments.read().split("\0")
    require("/dev/urandom" in words and "--seed" not in words, "its seed isn't in its arguments")

    drains()

    with open(SETTINGS, "a") as settings:
        settings.write("no setting\n")
    systemctl("start", "pgpeer")
    require(
        wait_until(lambda: shown("ActiveState") == "failed", 20) is not None,
        "with a bad line in its settings it fails",
    )
    require((shown("ExecMainStatus"), shown("NRestarts")) == ("2", "0"), "and isn't started again")

    for name in os.listdir(os.path.dirname(SETTINGS)):
        os.remove(os.path.join(os.path.dirname(SETTINGS), name))
    systemctl("reset-failed", "pgpeer")
    systemctl("start", "pgpeer")
    require(
        wait_until(lambda: shown("ActiveState") == "failed", 20) is not None,
        "without a settings file it fails",
    )
    require((shown("ExecMainStatus"), shown("NRestarts")) == ("2", "0"), "and isn't started again")
    print("all is as it should be")


if __name__ == "__main__":
    main()
