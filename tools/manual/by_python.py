"""psqlodbc and psycopg2: by_python.py PORT psqlodbc|psycopg2|quoting|workaround

The first two read a time by three connections, and print each. `quoting` prints what psycopg2 makes of a backslash,
`workaround` the same after the three requests of the manual.
"""
import sys

port, what = sys.argv[1:]
if what == "psqlodbc":
    import pyodbc

    where = f"DRIVER={{psqlodbc}};SERVER=127.0.0.1;PORT={port};DATABASE=shop;UID=app;UseServerSidePrepare=0"
else:
    import psycopg2


def connect():
    if what == "psqlodbc":
        return pyodbc.connect(where)
    return psycopg2.connect(host="127.0.0.1", port=port, user="app", dbname="shop")


if what in ("quoting", "workaround"):
    connection = connect()
    connection.autocommit = True
    cursor = connection.cursor()
    if what == "workaround":
        for text in ("BEGIN", "SET LOCAL standard_conforming_strings = off", "COMMIT"):
            cursor.execute(text)
    cursor.execute("select %s, length(%s)", ("a\\b", b"a\\b"))
    print(*cursor.fetchone())
    sys.exit()

for _ in range(3):
    connection = connect()
    cursor = connection.cursor()
    try:
        cursor.execute("select at at time zone 'UTC' from events where worker = 0")
        print(cursor.fetchone()[0].isoformat())
    except Exception as error:
        print("error", str(error).strip().split("\n")[0])
    connection.close()
