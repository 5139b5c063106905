"""A frontend as hxconfig takes it out of a whole file for hxeval: with replacements of lines, the
lines that hxeval refuses, and what lint tells of the others.

Everything keeps its line: what is told of a line is told by the name and the number that a person
knows.
"""
import collections
import os
import re
import sys
import tempfile

import programs
import told

REFUSED = 3
# What stands between a line and the one that is to be in its place.
ARROW = re.compile(r"\s+->(?:\s+|$)")
REFUSAL = re.compile(r"config (\d+) \d+")
WARNING = re.compile(r".*:(\d+): .*?(warning: .*)")
LINT = re.compile(r"(?:.*:)?(\d+):? (differs|unset) (\S+)")

Replacement = collections.namedtuple("Replacement", "place line text")


def words_of(line):
    """A line without the blanks that don't matter."""
    return " ".join(line.split())


def text_lines(path):
    """The lines of a file as texts, from which the same bytes can be made again."""
    with told.reading(path) as it:
        text = it.bytes.read().decode(errors="surrogateescape")
    return text.split("\n")


def write_lines(path, lines):
    with told.writing(path, "utf-8") as it:
        it.reconfigure(errors="surrogateescape", newline="\n")
        it.write("\n".join(lines))


def replacements_of(path):
    """The replacements of a file: `LINE -> LINE`, each on a line of its own."""
    found = []
    for number, line in enumerate(text_lines(path), 1):
        if not line.strip() or line.lstrip().startswith("#"):
            continue
        parts = ARROW.split(line.strip(), maxsplit=1)
        if len(parts) != 2 or not parts[0]:
            raise told.Stop(f"{path}:{number}: this isn't LINE -> LINE")
        found.append(Replacement(f"{path}:{number}", words_of(parts[0]), parts[1]))
    return found


class Stopped(Exception):
    """That a program ended otherwise than it should, with its status. It has said why."""

    def __init__(self, status):
        super().__init__(status)
        self.status = status


class Frontend:
    """A frontend of a file, taken out of it into a file of a folder."""

    def __init__(self, path, name, folder, replacements, ports):
        self.path, self.name = path, name
        self.whole = os.path.join(folder, os.path.basename(path) or "haproxy.cfg")
        self.taken = os.path.join(folder, "frontend.cfg")
        os.makedirs(folder)
        self.lines, self.replaced_lines = text_lines(path), 0
        self.replaced = {it.place for it in replacements if self.replace(it)}
        write_lines(self.whole, self.lines)
        # of each the number of the line, its text, and what is said of it
        self.warnings, self.refused = [], []
        self.take(ports)

    def replace(self, replacement):
        """Puts a text in the place of each such line; the answer is whether there is one."""
        found = False
        for at, line in enumerate(self.lines):
            if words_of(line) == replacement.line:
                indent = line[:len(line) - len(line.lstrip())]
                self.lines[at], found = f"{indent}{replacement.text}", True
                self.replaced_lines += 1
        return found

    def known_line(self, number):
        """The text of a line as a person knows it, or nothing where the file ends before it."""
        return words_of(self.lines[number - 1]) if number <= len(self.lines) else ""

    def named(self, text):
        """What a program says, by the name that a person knows."""
        return text.replace(self.taken, self.path).replace(self.whole, self.path)

    def run(self, program, *words, expected=(0,)):
        """Runs a program that ends with one of these statuses; the answer is its status, what it
        wrote, and what it said."""
        with tempfile.TemporaryFile() as err:
            ran = programs.run([programs.path_of(program), *words], err=err)
            err.seek(0)
            said = self.named(err.read().decode(errors="backslashreplace"))
        if ran.returncode not in expected:
            sys.stderr.write(said)
            raise Stopped(ran.returncode if ran.returncode > 0 else told.UNREADABLE)
        return ran.returncode, ran.stdout, said

    def take(self, ports):
        """Has hxconfig write the frontend."""
        options = [word for port in ports for word in ("--tls", port)]
        _, text, said = self.run("hxconfig", "frontend", self.name, self.whole, *options)
        with open(self.taken, "wb") as out:
            out.write(text)
        rows = filter(None, map(WARNING.fullmatch, said.splitlines()))
        self.warnings = [(int(row[1]), self.known_line(int(row[1])), row[2]) for row in rows]

    def drop_refused(self):
        """Takes out each line that hxeval refuses, until it takes the others, and keeps what it
        said of each."""
        lines = text_lines(self.taken)
        while True:
            status, out, said = self.run("hxeval", "check", self.taken, expected=(0, REFUSED))
            parts = REFUSAL.match(out.decode()) if status == REFUSED else None
            if not parts:
                return
            number = int(parts[1])
            if not 0 < number <= len(lines) or not lines[number - 1].strip():
                raise told.Stop(f"hxeval refuses what no line has: {said}".rstrip())
            # a rule below the last line of the file stands in what is written alone
            text = self.known_line(number) or words_of(lines[number - 1])
            self.refused.append((number, text, reason_of(said, number)))
            lines[number - 1] = ""
            write_lines(self.taken, lines)

    def lint(self):
        """What lint tells of the lines that hxeval takes: topics and variables, each with the
        numbers of its lines."""
        _, out, _ = self.run("hxconfig", "lint", self.taken, expected=(0, 1))
        found = {"differs": collections.defaultdict(list), "unset": collections.defaultdict(list)}
        for parts in filter(None, map(LINT.fullmatch, out.decode().splitlines())):
            found[parts[2]][parts[3]].append(int(parts[1]))
        return found


def reason_of(said, number):
    """What hxeval said of a line, without its place."""
    line = said.splitlines()[0] if said else ""
    _, found, reason = line.partition(f":{number}: ")
    return reason if found else line


def told_lint(found):
    """What lint tells, in a few words."""
    parts = []
    for word, form in (("differs", "HAProxy may answer otherwise: {}"),
                       ("unset", "variables that no line sets: {}")):
        rows = [f"{name} ({', '.join(map(str, lines))})" for name, lines in found[word].items()]
        if rows:
            parts.append(form.format(", ".join(rows)))
    return parts
