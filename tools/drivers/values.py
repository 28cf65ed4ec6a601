#!/usr/bin/python3
"""Values through Python's drivers: values.py PORT WAY NAME.

Standard input has a line for each value."""
import datetime
import sys

HOST, USER, DATABASE = "127.0.0.1", "app", "shop"


def connect(port, way):
    if way == "psycopg2":
        import psycopg2

        return psycopg2.connect(host=HOST, port=port, user=USER, dbname=DATABASE)
    if way == "pg8000":
        import pg8000

        return pg8000.connect(host=HOST, port=port, user=USER, database=DATABASE)
    import psycopg

    factory = {"parameters": psycopg.Cursor, "quoting": psycopg.ClientCursor}[way]
    return psycopg.connect(
        host=HOST,
        port=port,
        user=USER,
        dbname=DATABASE,
        prepare_threshold=None,
        cursor_factory=factory,
    )


def decoded(kind, hexadecimal):
    if hexadecimal == "-":
        return None
    data = bytes.fromhex(hexadecimal)
    if kind == "bytea":
        return data
    return (
        datetime.datetime.fromisoformat(data.decode()) if kind == "timestamptz" else data.decode()
    )


def encoded(value):
    if value is None:
        return "NULL"
    if isinstance(value, datetime.datetime):
        utc = value.astimezone(datetime.timezone.utc)
        value = utc.strftime("%Y-%m-%d %H:%M:%S.") + f"{utc.microsecond // 1000:03}+00"
    return value.encode().hex() if isinstance(value, str) else bytes(value).hex()


def main():
    port, way, name = int(sys.argv[1]), sys.argv[2], sys.argv[3]
    for line in sys.stdin:
        kind, type_, hexadecimal = line.split()
        try:
            connection = connect(port, way)
            cursor = connection.cursor()
            cursor.execute(
                f"insert into written (name, kind, as_{type_}) values (%s, %s, %s)",
                (name, kind, decoded(type_, hexadecimal)),
            )
            connection.commit()
            cursor.execute(f"select as_{type_} from given where kind = %s", (kind,))
            print(kind, "read", encoded(cursor.fetchone()[0]))
            connection.close()
        except Exception as error:
            print(kind, "error", " ".join(str(error).split()))


if __name__ == "__main__":
    main()
