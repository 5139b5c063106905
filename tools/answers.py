"""What hxeval, hxtrace and hxdiff write, line by line, as values: answers to requests, replies to
lines of the management socket, differences, counts, totals and refusals.

Each value is a dictionary that can be written as JSON; docs/manual/annotate.md says its names. A
line that is none of these is a value of its own, with the key `line`.
"""
import re

VERDICT = re.compile(r"(\d+) (pass|deny|redirect|error|bad) (\S+)")
HEAD = re.compile(r"\| (\S+) (\S+) (HTTP/\d\.\d)")
WHY = re.compile(r"> (\d+) (\d+)((?: \S+)*)")
ENTRY = re.compile(r"#(\d+)/(0x[0-9a-f]{16})")
REPLY = re.compile(r"@(\d+)(?: (.*))?", re.S)
REPLIED = re.compile(r"ok|error (\d+) (\S+)")
LOCATION = "| location: "

DIFFERENCE = re.compile(r"@@ (\d+) (\S+) (\S+) (.*)", re.S)
COMMAND = re.compile(r"@@ cli (\d+)(?: (.*))?", re.S)
COUNT = re.compile(r"(\d+) (\w+ \S+)(?: -> (\w+ \S+)|, other lines), first (\d+)")
TOTALS = re.compile(r"(requests|commands) (\d+), (\d+) differ")
REFUSAL = re.compile(r"(config|old|new|record) (\d+) (\d+)")


def text_of(line):
    """A line of bytes as text: bytes that aren't UTF-8 are written as `\\xNN`."""
    return line.rstrip(b"\n").decode(errors="backslashreplace")


def ground_of(reason):
    """What a term of a condition held by."""
    entry = ENTRY.fullmatch(reason)
    return {"list": int(entry[1]), "entry": entry[2]} if entry else {"holds": reason}


def why_of(line):
    """Why a request has its verdict, or nothing where the line doesn't say it."""
    parts = WHY.fullmatch(line)
    if not parts:
        return None
    found = {"line": int(parts[1]), "conjunction": int(parts[2])}
    return found | {"terms": [ground_of(it) for it in parts[3].split()]}


def answer_of(verdict):
    """The answer to a request, of the parts of its first line."""
    number, kind, value = verdict.groups()
    found = {"request": int(number), "verdict": kind}
    if kind == "pass":
        return found | {"backend": None if value == "-" else value}
    return found | {"status": int(value) if value.isdecimal() else value}


def add_line(answer, line):
    """Adds one more line to the answer to a request: of its location, its head, or why."""
    head, why = HEAD.fullmatch(line), why_of(line)
    if line.startswith(LOCATION) and answer["verdict"] == "redirect":
        answer["location"] = line.removeprefix(LOCATION)
    elif head and "head" not in answer:
        names = ("method", "target", "version")
        answer["head"] = dict(zip(names, head.groups())) | {"headers": []}
    elif line.startswith("| ") and "head" in answer:
        name, _, value = line[2:].partition(":")
        answer["head"]["headers"].append([name, value.removeprefix(" ")])
    elif why:
        answer["why"] = why
    else:
        return False
    return True


def answers(lines):
    """The answers and replies that these lines of text are, each when it is whole."""
    answer, reply = None, []
    for line in lines:
        if answer and add_line(answer, line):
            continue
        if answer:
            yield answer
        verdict, parts = VERDICT.fullmatch(line), REPLY.fullmatch(line)
        answer = answer_of(verdict) if verdict else None
        if parts:
            reply.append(parts[2] or "")
            end = REPLIED.fullmatch(reply[-1])
            if end:
                yield replied(int(parts[1]), reply[:-1], end)
                reply = []
        elif not answer:
            yield refusal_of(line)
    if answer:
        yield answer


def replied(session, reply, end):
    """A reply that has ended so."""
    error = {"code": int(end[1]), "name": end[2]} if end[1] else None
    return {"session": session, "reply": reply} | ({"error": error} if error else {})


def refusal_of(line):
    """A line that refuses a configuration or the record, or any other."""
    parts = REFUSAL.fullmatch(line)
    if not parts:
        return {"line": line}
    place = "offset" if parts[1] == "record" else "line"
    return {"refused": parts[1], place: int(parts[2]), "code": int(parts[3])}


# Differences.


def title_of(line):
    """What has two answers: a request, or a line of the management socket; or nothing."""
    command, request = COMMAND.fullmatch(line), DIFFERENCE.fullmatch(line)
    if command:
        return {"session": int(command[1]), "command": command[2] or ""}
    if request:
        host = None if request[4] == "-" else request[4]
        return {"request": int(request[1]), "method": request[2], "target": request[3],
                "host": host}
    return None


def whole(title, sides):
    """A difference with both of its answers; one is missing where a side gave none."""
    both = {name: next(answers(lines), None) for name, lines in sides.items()}
    for it in both.values():
        if it:
            it.pop("request" if "request" in title else "session", None)
    return title | both


def total_of(line):
    """A count of verdicts or a total of differences; or nothing."""
    count, totals = COUNT.fullmatch(line), TOTALS.fullmatch(line)
    if count:
        new = {"new": count[3]} if count[3] else {"new": count[2], "other_lines": True}
        return {"count": int(count[1]), "old": count[2]} | new | {"first": int(count[4])}
    if totals:
        return {totals[1]: int(totals[2]), "differ": int(totals[3])}
    return None


def differences(lines):
    """The differences, counts and totals that these lines are, each when it is whole."""
    sides = {"- ": "old", "+ ": "new"}
    title, both = None, {}
    for line in lines:
        if title and line[:2] in sides:
            both[sides[line[:2]]].append(line[2:])
            continue
        if title:
            yield whole(title, both)
        title, both = title_of(line), {"old": [], "new": []}
        if not title:
            yield total_of(line) or refusal_of(line)
    if title:
        yield whole(title, both)


def values(lines):
    """The values that these lines are, whichever program wrote them."""
    lines = iter(lines)
    first = next(lines, None)
    if first is None:
        return
    again = (it for part in ([first], lines) for it in part)
    is_of_two = title_of(first) or total_of(first)
    yield from differences(again) if is_of_two else answers(again)
