"""What can be made of differences: of each the lines alone that differ, and how many requests there
are of each pair of verdicts and lines that decided."""
import collections
import json

import answers
import reasons
import told


def without_shared(old, new):
    """The lines of two answers, but for those below their verdicts that both have: of a head, or a
    location. Each goes as often as both have it."""
    shared = list((collections.Counter(old) & collections.Counter(new)).elements())
    shared = [line for line in shared if line.startswith("| ")]
    return without(old, shared), without(new, shared)


def without(lines, others):
    """Lines but for others, each as often as it is among these."""
    others, found = list(others), []
    for line in lines:
        if line in others:
            others.remove(line)
        else:
            found.append(line)
    return found


def changed(lines):
    """Lines of hxdiff; of each difference those alone that differ, where the verdicts are the same
    below that one."""
    title, both = None, {}
    for line in lines:
        if title is not None and line[:2] in ("- ", "+ "):
            both[line[0]].append(line[2:])
            continue
        if title is not None:
            yield from changed_lines(title, both)
        title, both = (line if answers.title_of(line) else None), {"-": [], "+": []}
        if title is None:
            yield line
    if title is not None:
        yield from changed_lines(title, both)


def changed_lines(title, both):
    """A difference, by the lines that differ."""
    yield title
    old, new = without_shared(both["-"], both["+"])
    if old and new and old[0] == new[0]:
        yield f"  {old[0]}"
        old, new = old[1:], new[1:]
    yield from (f"- {it}" for it in old)
    yield from (f"+ {it}" for it in new)


# Counts by the lines that decided.


def verdict_of(answer):
    """The verdict of an answer, as it is written; `-` where a side gave none."""
    if not answer:
        return "-"
    value = answer.get("status", answer.get("backend"))
    return f"{answer['verdict']} {'-' if value is None else value}"


def line_of(answer):
    """The line that decided; 0 where none did, and where a side gave no answer."""
    if answer and "why" not in answer:
        raise told.Stop("the differences have no reasons: `hxdiff lines --why` writes them")
    return answer["why"]["line"] if answer else 0


class Counts:
    """How many requests have the same verdicts, by the same lines, under two configurations."""

    def __init__(self, configs):
        self.configs, self.rows = configs, {}

    def add(self, value):
        """Counts a difference of a request."""
        both = [value[side] for side in ("old", "new")]
        key = (*map(verdict_of, both), *map(line_of, both))
        self.rows.setdefault(key, [0, value["request"]])[0] += 1

    def decided(self, side, line):
        """The line of a side that decided, as a value."""
        config = self.configs.get(side)
        text = config.line(line) if config and line else None
        return {"line": line, "file": config.name if config and line else None, "text": text}

    def values(self):
        """The counts, the largest first, and those of one size by their first requests."""
        rows = sorted(self.rows.items(), key=lambda it: (-it[1][0], it[1][1]))
        for (old, new, *lines), (count, first) in rows:
            whys = [self.decided(side, it) for side, it in zip(("old", "new"), lines)]
            yield {"count": count, "old": old, "new": new, "first": first,
                   "old_line": whys[0], "new_line": whys[1]}


def line_text(why):
    """The line that decided, in words."""
    if not why["line"]:
        return "no line decided"
    if not why["file"]:
        return f"line {why['line']}"
    return f"{why['file']}:{why['line']}: {why['text'] or ''}".rstrip()


def by_line(lines, configs, as_json):
    """The lines that are written of the counts; of a record that is refused, that alone."""
    counts, others = Counts(configs), []
    for value in answers.differences(lines):
        if "request" in value:
            counts.add(value)
        elif "session" not in value:
            others.append(value)
    is_whole = not any("refused" in it for it in others)
    found = [*(counts.values() if is_whole else []), *others]
    for it in found:
        yield from [json.dumps(it)] if as_json else count_lines(it)


def count_lines(value):
    """A count, a total or a refusal, as lines."""
    if "count" in value:
        alike = value["old"] == value["new"]
        verdicts = f"{value['old']}, other lines" if alike else f"{value['old']} -> {value['new']}"
        yield f"{value['count']} {verdicts}, first {value['first']}"
        for mark, name in (("-", "old_line"), ("+", "new_line")):
            if name in value:
                yield f"{mark} {line_text(value[name])}"
    elif "differ" in value:
        name = "requests" if "requests" in value else "commands"
        yield f"{name} {value[name]}, {value['differ']} differ"
    elif "refused" in value:
        place = value.get("offset", value.get("line"))
        yield f"{value['refused']} {place} {value['code']}"
    else:
        yield value["line"]


def written(lines, configs, asked):
    """The lines that are written of these, as the options of a tool say."""
    if asked.by_line:
        return by_line(lines, configs, asked.json)
    return reasons.written(changed(lines) if asked.changed else lines, configs, asked.json)
