"""What the reasons of hxtrace and hxdiff name, as a configuration has it: the line that decided,
the terms of its condition, and the entries that these held by.

Lists and entries have the numbers that hxeval gives them, so it is asked for them: it runs the
configuration over a record of commands that show a list.
"""
import functools
import json
import re
import tempfile

import answers
import programs
import told

# A word as it stands in a line, with its quotes and backslashes.
WORD = re.compile(r'(?:\\.|"(?:\\.|[^"\\])*"|\'[^\']*\'|[^\s"\'\\#])+|#')
LISTED = re.compile(r"(\d+) \((.*)\) curr_ver=\d+ next_ver=\d+ entry_cnt=\d+")
SESSION = 1
# What stands before a reason: of a trace nothing, of a difference its side.
SIDES = {"> ": None, "- > ": "old", "+ > ": "new"}


def words_of(line):
    """The words of a line, up to a comment."""
    found = []
    for it in WORD.findall(line):
        if it == "#":
            break
        found.append(it)
    return found


def terms_of(words):
    """The terms of a condition, as texts, by its conjunctions: each with its `!` before it."""
    conjunctions, sign, inner = [[]], "", None
    for word in words:
        if inner is not None:
            inner.append(word)
            if word == "}":
                conjunctions[-1].append(sign + " ".join(inner))
                sign, inner = "", None
            continue
        marks = len(word) - len(word.lstrip("!"))
        sign, word = sign + word[:marks], word[marks:]
        if word in ("or", "||") and not sign:
            conjunctions.append([])
        elif word == "{":
            inner = [word]
        elif word:
            conjunctions[-1].append(sign + word)
            sign = ""
    return conjunctions


def condition_of(line):
    """The terms of the condition of a statement, by its conjunctions."""
    words = words_of(line)
    at = next((at for at, word in enumerate(words) if word in ("if", "unless")), len(words))
    return terms_of(words[at + 1:])


def said_by(config, commands):
    """The replies of hxeval to these lines of the management socket, or none where it can't run."""
    with tempfile.TemporaryFile() as rec:
        rec.write("".join(f"cli {SESSION} {it}\n" for it in commands).encode())
        rec.seek(0)
        ran = programs.run([programs.path_of("hxeval"), "run", config], rec)
    if ran.returncode != 0:
        return []
    lines = map(answers.text_of, ran.stdout.splitlines(keepends=True))
    return [it.get("reply", []) for it in answers.answers(lines)]


class Configuration:
    """A configuration that hxeval takes. `known` are lines with the same numbers that a person
    knows, by this name: those of the whole one from which hxconfig wrote it."""

    def __init__(self, path, name=None, known=None):
        self.path, self.name = path, name or path
        self.lines = self.read(path)
        self.known = known or self.lines

    @staticmethod
    def read(path):
        with told.reading(path) as it:
            return [answers.text_of(line).rstrip("\r") for line in it.bytes]

    def line(self, number):
        """The text of a line as a person knows it, with single blanks."""
        return " ".join(self.known[number - 1].split()) if number <= len(self.known) else None

    def terms(self, number, conjunction):
        """The terms of a conjunction of a line."""
        found = condition_of(self.lines[number - 1]) if 0 < number <= len(self.lines) else []
        return found[conjunction - 1] if 0 < conjunction <= len(found) else []

    @functools.cached_property
    def files(self):
        """The files of lists, and those of maps: of both by their numbers."""
        replies = said_by(self.path, ("show acl", "show map"))
        rows = [[row for row in map(LISTED.fullmatch, reply) if row] for reply in replies]
        return [{int(row[1]): row[2] for row in own} for own in rows] or [{}, {}]

    def file_of(self, number):
        """The file of a list, or none."""
        lists, maps = self.files
        return lists.get(number) or maps.get(number) or None

    @functools.lru_cache(64)
    def keys(self, number):
        """The keys of the entries that a list has before the record, by the numbers of entries.
        Behind the key of a map stands its value; a list has keys alone, which may have blanks."""
        is_map = number in self.files[1]
        rows = (line.split(" ", 2 if is_map else 1)
                for reply in said_by(self.path, [f"show acl #{number}"]) for line in reply)
        return {row[0]: row[1] for row in rows if len(row) > 1}

    def add_to(self, why):
        """Adds to a reason the line's text, and of each term its text, its entry's key and the
        file of its list, where there are such."""
        is_one = why["line"] > 0
        found = {"file": self.name if is_one else None,
                 "text": self.line(why["line"]) if is_one else None}
        texts = self.terms(why["line"], why["conjunction"])
        if len(texts) != len(why["terms"]):
            texts = [None] * len(why["terms"])
        terms = [self.term_with(text, term) for text, term in zip(texts, why["terms"])]
        return why | found | {"terms": terms}

    def term_with(self, text, term):
        """A term with its text, and with the key of its entry and the file of its list."""
        found = {"term": text} | term
        if "list" in term:
            found["key"] = self.keys(term["list"]).get(term["entry"])
            found["list_file"] = self.file_of(term["list"])
        return found


def term_text(term):
    """A term in words: what it is, and the entry that it held by."""
    text = term["term"] or "?"
    if "list" not in term:
        return text
    key, file = term["key"], term["list_file"]
    found = f"#{term['list']}/{term['entry']}" if key is None else f'"{key}"'
    return f"{text}: {found}" + (f" in {file}" if file else "")


def why_text(why):
    """A reason in words: where the line stands, its text, and by what its condition held."""
    if why["line"] == 0:
        return "no line decided"
    text = f"{why['file']}:{why['line']}: {why['text'] or ''}".rstrip()
    terms = "; ".join(map(term_text, why["terms"]))
    return f"{text}  [{terms}]" if terms else text


def annotated(line, configs):
    """A line with its reason in words, where it is one of a configuration that is known."""
    for begin, side in SIDES.items():
        if line.startswith(begin) and side in configs:
            why = answers.why_of(line[len(begin) - 2:])
            if why:
                return begin + why_text(configs[side].add_to(why))
    return line


def with_texts(value, configs):
    """A value with the texts that its reasons name, where their configuration is known."""
    for side in SIDES.values():
        answer = value.get(side) if side else value
        if isinstance(answer, dict) and "why" in answer and side in configs:
            answer["why"] = configs[side].add_to(answer["why"])
    return value


def written(lines, configs, as_json):
    """The lines that are written of these."""
    if as_json:
        for value in answers.values(lines):
            yield json.dumps(with_texts(value, configs))
    else:
        for line in lines:
            yield annotated(line, configs)
