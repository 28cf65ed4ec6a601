"""Django's ORM: by_django.py PORT times COUNT | iterate WORKERS [plain]

`times` reads a time by COUNT connections, one after another, and prints each. `iterate` has forked workers read
their own 2,000 rows with `iterator()`, `plain` without server-side cursors, and prints what each got.
"""
import os
import sys
import time

import django
from django.conf import settings
from django.db import connection, models

port, what, count, *more = sys.argv[1:]
settings.configure(USE_TZ=True, TIME_ZONE="UTC", DATABASES={"default": {
    "ENGINE": "django.db.backends.postgresql", "HOST": "127.0.0.1", "PORT": port, "USER": "app", "NAME": "shop",
    "DISABLE_SERVER_SIDE_CURSORS": "plain" in more}})
django.setup()


class Event(models.Model):
    at = models.DateTimeField()
    worker = models.IntegerField()

    class Meta:
        app_label, db_table = "events", "events"


def read_own(worker, begin):
    time.sleep(max(0, begin - time.time()))
    for _ in range(5):
        try:
            found = [event.worker for event in Event.objects.filter(worker=worker).iterator(chunk_size=100)]
        except Exception as error:
            return "error: " + str(error).split("\n")[0]
        others = sum(it != worker for it in found)
        if others or len(found) != 2000:
            return f"wrong: {len(found)} rows, {others} of another worker"
    return "right"


if what == "times":
    for _ in range(int(count)):
        print(Event.objects.filter(worker=0).get().at.isoformat(), flush=True)
        connection.close()
else:
    begin, children = time.time() + 0.5, []
    for worker in range(1, int(count) + 1):
        child = os.fork()
        if child == 0:
            os.write(1, (read_own(worker, begin) + "\n").encode())  # at once, beside the others
            os._exit(0)
        children.append(child)
    for child in children:
        os.waitpid(child, 0)
