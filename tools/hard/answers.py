"""Questions that an operator asks, answered from what there is to read (`Evidence`) and nothing else."""
import collections

# What is answered, in words, and the lines, samples and rows that say it.
Answer = collections.namedtuple("Answer", "value words facts")
FAILURES = ("link_lost", "link_connect_failed", "link_login_failed")


def listed(words):
    return "; ".join(words) or "none"


def lost_sessions(evidence):
    """Which clients lost their session, and with which error?"""
    lines = evidence.lines("session_ended", "link_lost")
    lines = [line for line in lines if "client" in line.fields]
    codes = {line.fields["client"]: line.fields["code"] for line in lines}
    words = []
    for line in lines:
        fields = line.fields
        why = fields.get("refused", "got no connection")
        why = "idle in its transaction" if fields["event"] == "link_lost" else why
        words.append(f"{fields['client']} ({fields['code']}, {why})")
    counts = evidence.samples("pgpeer_sessions_ended_total")
    return Answer(codes, listed(words), lines + [count for count in counts if count.fields["code"] != "none"])


def counted_ends(evidence):
    """How many sessions ended with an error of pgpeer's own?"""
    counts = [count for count in evidence.samples("pgpeer_sessions_ended_total") if count.fields["code"] != "none"]
    number = int(sum(count.fields["value"] for count in counts))
    return Answer(number, str(number), counts)


def server_at_fault(evidence):
    """Which server of which database is at fault, and what does it say?"""
    lines = [line for line in evidence.lines(*FAILURES) if "server" in line.fields]
    faults = {(line.fields["database"], line.fields["server"], line.fields.get("code")) for line in lines}
    words = [f"{database} at {server}" + (f", {code}" if code else "")
             for database, server, code in sorted(faults, key=str)]
    return Answer(faults, listed(words), lines[:2])


def logged_in(evidence):
    """Which clients are still logged in?"""
    rows = evidence.rows("clients")
    return Answer({row.fields["client"] for row in rows}, listed(row.fields["client"] for row in rows), rows)


def waiting(evidence, *states):
    """Which clients wait, in these states?"""
    rows = [row for row in evidence.rows("clients") if row.fields["state"] in states]
    words = [f"{row.fields['client']} for {row.fields['seconds']:.1f} s" for row in rows]
    return Answer({row.fields["client"]: row.fields["seconds"] for row in rows}, listed(words), rows)


def oldest_wait(evidence):
    """At which node and database does a client wait longest, and for how long?"""
    waits = sorted(evidence.samples("pgpeer_oldest_wait_seconds"), key=lambda wait: -wait.fields["value"])[:1]
    value = [(wait.fields["node"], wait.fields["database"], wait.fields["value"]) for wait in waits]
    words = [f"node {node}, {database}: {seconds:.1f} s" for node, database, seconds in value]
    return Answer(value, listed(words), waits)


def holders(evidence):
    """Who has a server connection, and for how long?"""
    rows = evidence.rows("links", state="active")
    words = [f"{row.fields['client']} for {row.fields['seconds']:.1f} s" for row in rows]
    return Answer({row.fields["client"]: row.fields["seconds"] for row in rows}, listed(words), rows)


def to_look_for(evidence):
    """Which process, at which client_port, is to be looked for first in pg_stat_activity?"""
    row = evidence.rows("links", state="active")[0]
    value = row.fields["pid"], row.fields["local_port"]
    return Answer(value, "pid %s, client_port %s" % value, [row])


def own_connections(evidence, server):
    """How many of the server's connections are the group's?"""
    rows = evidence.rows("links", server=server)
    return Answer(len(rows), str(len(rows)), rows)


def slow_transactions(evidence, bound):
    """How many transactions took longer than so many seconds?"""
    every = evidence.samples("pgpeer_transaction_seconds_count")
    quick = evidence.samples("pgpeer_transaction_seconds_bucket", le=bound)
    number = int(sum(it.fields["value"] for it in every) - sum(it.fields["value"] for it in quick))
    return Answer(number, str(number), every + quick)


def peer_at_fault(evidence):
    """Which peer doesn't take cancel requests?"""
    lines = evidence.lines("cancel_connect_failed", "cancel_failed")
    faults = {(line.fields["peer"], line.fields["address"]) for line in lines if "peer" in line.fields}
    words = [f"node {peer} at {address}" for peer, address in sorted(faults)]
    return Answer(faults, listed(words), lines + evidence.samples("pgpeer_forwards_failed_total"))


def ended_cancels(evidence, result):
    """Who sent a cancel request that was forwarded and ended so, for which client of which node?"""
    lines = [line for line in evidence.lines("cancel_ended", result=result) if "peer" in line.fields]
    sent = {(line.fields["client"], line.fields["peer"]): line.fields["slot"] for line in lines}
    words = [f"{client}, for slot {slot} of node {peer}" for (client, peer), slot in sent.items()]
    return Answer(sent, listed(words), lines)


def interval(line):
    """From when to when the request of a line was served."""
    return line.fields["time"] - int(line.fields["millis"]) / 1000, line.fields["time"]


def is_within(inner, outer):
    """A thread of its own writes each time, and millis are cut: 50 ms are allowed."""
    return outer[0] - 0.05 <= interval(inner)[0] and interval(inner)[1] <= outer[1] + 0.05


def who_cancelled(evidence, client, moment):
    """Who cancelled the query of a client that got 57014 at this time, and where did it run?"""
    (seat,) = evidence.rows("clients", client=client)
    node, slot = seat.fields["node"], seat.fields["slot"]
    struck = [line for line in evidence.lines("cancel_ended", node=node, slot=slot)
              if "peer" not in line.fields and abs(line.fields["time"] - moment) < 1]
    if not struck:
        return Answer(None, f"no cancel request: node {node} had none for slot {slot} then", [seat])
    line = struck[0]
    passed = [other for other in evidence.lines("cancel_ended", peer=node, slot=slot)
              if is_within(line, interval(other))]
    first = (passed or struck)[0]
    value = first.fields["client"], line.fields["server"], line.fields["pid"]
    words = "%s; it ran at %s in process %s" % value
    words += f" (node {first.fields['node']} forwarded the request)" if passed else ""
    return Answer(value, words, [seat, line, *passed])
