"""What is stored twice: the files of an example that lines of cases have whole, and those that the
stored runs of programs have. Each copy must be as its file is. And lines of cases that a script
makes must be as it makes them."""
import glob
import os
import sys
from functools import partial

from groups.compared import TOP, Check, Outcome, bytes_of, ended, run, text_outcome

RUNS = "crates/hx_cases_runs"
EXAMPLES = "examples/"
# How a line feed, CR with a line feed, and ^ are written in the texts of these cases.
TEXT = {"~": "\n", "^": "\r\n", "`": "^"}
# The file of an example that a part of a run has. A configuration has the one name that ends so.
PARTS = {"config": "*.cfg", "old": "old.cfg", "new": "new.cfg", "record": "traffic.rec"}
BEGINS = ("config", "old")
# The file of an example that a call answers, and the status before it.
CALLS = {
    "run": ("answers.txt", "0 "),
    "trace": ("trace.txt", "0 "),
    "lines": ("differences.txt", "1 "),
    "lines --why": ("reasons.txt", "1 "),
    "counts": ("counts.txt", "1 "),
}
# The files that the stored runs of programs have of an example.
STORED = {
    "crates/hxconfig/data/haproxy.cfg": "examples/whole/haproxy.cfg",
    "crates/hxconfig/stdout": "examples/whole/shop.cfg",
    "crates/hxdiff/stdin": "examples/change/traffic.rec",
    "crates/hxdiff/stdout": "examples/change/differences.txt",
} | {f"crates/hxdiff/data/{it}": f"examples/change/{it}"
     for it in ("old.cfg", "new.cfg", "barred.lst", "sites.map")}
# The scripts that make lines of cases, and compare them with those that are stored.
MAKERS = ("tools/references",)
# The crate whose copies have the names of files without the folder of the example.
RENAMED = "crates/hxdiff"


def text_of(written):
    """The bytes that a text of a case stands for."""
    return written.translate(str.maketrans(TEXT)).encode(errors="surrogateescape")


def lines_of(name):
    """The lines of what is stored of the cases of whole runs."""
    return bytes_of(f"{TOP}/{RUNS}/{name}").decode(errors="surrogateescape").split("\n")


def runs():
    """The runs of these cases: of each the rows of its parts and calls, with the number, the line
    and what it is answered."""
    calls = lines_of("stdin")
    found = [[]]
    for row in zip(range(1, len(calls) + 1), calls, lines_of("stdout")):
        if row[1].split(" ")[0] in BEGINS:
            found.append([])
        found[-1].append(row)
    return found


def folder_of(rows):
    """The folder of the example whose files a run has, or nothing."""
    named = [line.split(" ")[1] for _, line, _ in rows if line.startswith(f"file {EXAMPLES}")]
    return os.path.dirname(named[0]) if named else None


def copied(folder, line, answer):
    """The file that a line of a run copies, and the text that it has of it, or nothing."""
    word, _, text = line.partition(" ")
    if line in CALLS:
        file, status = CALLS[line]
        return f"{folder}/{file}", answer.removeprefix(status)
    if word == "file":
        file, _, text = text.partition(" ")
        return file, text
    if word in PARTS:
        return next(iter(glob.glob(f"{folder}/{PARTS[word]}", root_dir=TOP)), None), text
    return None, None


def compared(name, file, text, folder=None):
    """Compares a copy with its file, without the folder in the names that the file has."""
    if not file or not os.path.isfile(f"{TOP}/{file}"):
        return Outcome(0, 1, [f"{name}: it copies {file or 'a file'}, which isn't there"])
    own = bytes_of(f"{TOP}/{file}")
    if folder:
        own = own.replace(f"{folder}/".encode(), b"")
    return text_outcome(f"{name} copies {file}", own, text)


def run_compared(folder, rows):
    """Compares each line of a run that copies a file of this example."""
    outcome = Outcome()
    for number, line, answer in rows:
        file, text = copied(folder, line, answer)
        if text is not None:
            name = f"{RUNS}/{'stdout' if line in CALLS else 'stdin'}, line {number},"
            outcome.add(compared(name, file, text_of(text)))
    return outcome


def stored_compared(folder):
    """Compares each file of the stored run of a crate that is one of an example."""
    outcome = Outcome()
    for name, file in STORED.items():
        if name.startswith(f"{folder}/"):
            without = os.path.dirname(file) if folder == RENAMED else None
            outcome.add(compared(name, file, bytes_of(f"{TOP}/{name}"), without))
    return outcome


def made_compared(script):
    """Has a script compare what it makes with what is stored."""
    text = ended(f"{script} --check", run([sys.executable, f"{TOP}/{script}", "--check"]), 0)
    return Outcome(0, 1, [text]) if text else Outcome(1)


def missing():
    return Outcome(0, 1, [f"{RUNS}/stdin: no line copies a file of {EXAMPLES}, though some should"])


def checks(_):
    found = [Check(f"what {RUNS} copies of {folder_of(rows)}",
                   partial(run_compared, folder_of(rows), rows))
             for rows in runs() if folder_of(rows)]
    crates = sorted({"/".join(name.split("/")[:2]) for name in STORED})
    return [*(found or [Check(RUNS, missing)]),
            *(Check(f"what {it} copies of {EXAMPLES}", partial(stored_compared, it))
              for it in crates),
            *(Check(f"what {it} makes", partial(made_compared, it), lasts=True)
              for it in MAKERS if os.path.isfile(f"{TOP}/{it}"))]
