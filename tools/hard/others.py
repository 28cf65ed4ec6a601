"""Clients that have nothing to do with a scenario and may not be harmed by it."""
import threading
import time

from hard.wire import Client, Late, Lost, Refused


class Others:
    """Clients that run short queries all the while. Each asks for a text of its own and looks whether
    it gets that one."""

    def __init__(self, port, database="shop", count=4, rest=0.01, timeout=10.0):
        self.port, self.database, self.rest, self.timeout = port, database, rest, timeout
        self.times, self.faults, self.stopping = [], [], threading.Event()
        self.clients = [Client(port, database) for _ in range(count)]
        self.threads = [threading.Thread(target=self.work, args=(number,), daemon=True) for number in range(count)]
        for thread in self.threads:
            thread.start()

    def work(self, number):
        client, turn = self.clients[number], 0
        while not self.stopping.is_set():
            turn += 1
            wanted, begun = f"other-{number}-{turn}", time.monotonic()
            try:
                came = client.value(f"select '{wanted}'", self.timeout)
                if came != wanted:
                    self.faults.append(f"read {came} for {wanted}")
            except (Refused, Lost, Late) as error:
                self.faults.append(str(error))
                if not self.log_in_again(number):
                    return
                client = self.clients[number]
            self.times.append(time.monotonic() - begun)
            self.stopping.wait(self.rest)

    def log_in_again(self, number):
        try:
            self.clients[number] = Client(self.port, self.database)
            return True
        except (Refused, Lost, Late) as error:
            self.faults.append(f"no new login: {error}")
            return False

    def stop(self):
        self.stopping.set()
        for thread in self.threads:
            thread.join(self.timeout + 5)
        for client in self.clients:
            client.close()

    def measure(self):
        """Stops them. Returns within how many seconds 99 of 100 replies came."""
        self.stop()
        self.times.sort()
        return self.times[int(len(self.times) * 0.99)] if self.times else 0.0

    def judge(self, trial, limit=0.5):
        """Stops them: they had no error, read their own replies, and 99 of 100 came in this time."""
        high, times = self.measure(), self.times
        fault = f", first {self.faults[0]}" if self.faults else ""
        figure = f"{len(times)} queries, p99 {high * 1000:.1f} ms, worst {max(times, default=0) * 1000:.0f} ms"
        figure += f", {len(self.faults)} faults{fault}"
        trial.check(times and not self.faults and high < limit, "other clients", figure,
                    f"no fault, p99 below {limit * 1000:.0f} ms")
