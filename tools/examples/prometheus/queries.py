"""Four queries at one pooler, and one that is cancelled by a request at another: the arguments are
their ports."""
import os
import sys
import time

HERE = os.path.dirname(os.path.realpath(__file__))
sys.dont_write_bytecode = True
sys.path.insert(0, os.path.join(HERE, "../.."))

from hard.wire import CLEAN, Client, Refused, cancel


def require(good, what):
    print(("ok    " if good else "FAIL  ") + what, flush=True)
    if not good:
        sys.exit(1)


def main():
    one, two = (int(port) for port in sys.argv[1:])
    client = Client(one)
    for word in ("a", "b", "c", "d"):
        require(client.value(f"echo {word}") == word, f"echo {word}")
    client.start("hold")
    time.sleep(0.5)
    require(cancel(two, client.key) == CLEAN, "a cancel request at the other pooler")
    try:
        client.read_reply()
        require(False, "the query is cancelled")
    except Refused as refused:
        require(refused.code == "57014", f"the query is cancelled: {refused}")
    client.close()


if __name__ == "__main__":
    main()
