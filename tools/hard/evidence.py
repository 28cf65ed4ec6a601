"""What an operator has of a running group: its log, the metrics, and the pages of sessions and server connections."""
import collections
import datetime
import re
import time
import urllib.request

# A line of the log, a sample or a row: its fields, and as it is written.
Fact = collections.namedtuple("Fact", "source fields text")
WORD = re.compile(r'(\w+)=("(?:[^"\\]|\\.)*"|[^\s,]*)')
SAMPLE = re.compile(r"(\w+)(?:\{(.*)\})? (\S+)$")


def has(fields, wanted):
    return wanted.items() <= fields.items()


class Evidence:
    """The logs of processes, and the ports of their metrics, by the processes' names."""

    def __init__(self, logs, ports):
        self.logs, self.ports, self.pages, self.taken = logs, ports, {}, 0.0

    def look(self):
        """Takes each page anew. One is made at most once a second, and a thread of its own writes the log."""
        time.sleep(max(0.3, self.taken + 1.1 - time.monotonic()))
        self.pages.clear()
        self.taken = time.monotonic()
        return self

    def lines(self, *events, **wanted):
        """The log's lines of these events with these fields."""
        found = []
        for path in self.logs:
            with open(path) as log:
                for text in log:
                    moment, node, level, event = text.split()[:4]
                    seconds = datetime.datetime.fromisoformat(moment.replace("Z", "+00:00")).timestamp()
                    fields = {name: value.strip('"') for name, value in WORD.findall(text)}
                    fields.update(event=event, level=level, time=seconds)
                    if event in events and has(fields, wanted):
                        found.append(Fact("log", fields, text.strip()))
        return sorted(found, key=lambda line: line.fields["time"])

    def page(self, port, name):
        if (port, name) not in self.pages:
            try:
                with urllib.request.urlopen(f"http://127.0.0.1:{port}/{name}", timeout=3) as answer:
                    self.pages[port, name] = answer.read().decode().splitlines()
            except OSError:
                self.pages[port, name] = []
        return self.pages[port, name]

    def samples(self, name, **wanted):
        """The samples of a metric with these labels that aren't 0. The field `value` is the number."""
        found = []
        for port in self.ports:
            for text in self.page(port, "metrics"):
                parts = SAMPLE.match(text)
                if parts and parts[1] == name and float(parts[3]):
                    fields = {label: value.strip('"') for label, value in WORD.findall(parts[2] or "")}
                    if has(fields, wanted):
                        found.append(Fact("/metrics", {**fields, "value": float(parts[3])}, text))
        return found

    def rows(self, name, **wanted):
        """The rows of the page `clients` or `links` with these values, those first that are so for longest."""
        found = []
        for port in self.ports:
            page = self.page(port, name)
            for text in page[1:]:
                fields = dict(zip(page[0].split(), text.split()))
                if has(fields, wanted):
                    found.append(Fact(f"/{name}", {**fields, "seconds": float(fields["seconds"])}, text.rstrip()))
        return sorted(found, key=lambda row: -row.fields["seconds"])
