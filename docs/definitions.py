#!/usr/bin/env python3
"""Counts the definitions on which contracts rest, and prints the tables of DEFINITIONS.md.

It goes from name to name through crates/*/specs, and prints three totals: of the definitions under
`Headline`, of those under all clauses of `run`, and of the types of the code that either name, with
those types that are private to their crate. The tables are those of `Headline`. A name that stands
in the text of a definition counts as used by it, so that the count is never too low. Lines are
those of code: comments, imports, attributes and blank lines aren't counted.
"""
import collections
import pathlib
import re
import signal
import sys

ROOT = pathlib.Path(__file__).resolve().parent.parent
HEADLINE = [("hx_run.specs.Run", "Headline")]
RUN = ("crates/hx_run/src/run.rt", "run")
CRATES = (
    "hx_run hx_replay hx_core hx_cli hx_record hx_http hx_rules hx_acl hx_expr hx_fetch hx_lists "
    "hx_conv_text hx_conv_val hx_sample hx_match hx_refs hx_versions hx_load hx_filling hx_spell hx_calls hx_ast "
    "hx_words hx_program hx_gen hx_text hx_outside hx_base"
).split()
NAME = r"[A-Za-z_][\w'-]*"


class Module:
    """A file of specs/: its definitions with their lines, and the names that it imports."""

    def __init__(self, path):
        self.path = path
        self.definitions = {}
        self.imports = {}
        self.aliases = {}
        self.about = []
        self.order = []
        current = None
        for line in path.read_text().split("\n"):
            if line.startswith("--") and not self.order and not self.imports:
                self.about.append(line[2:].strip())
            if re.match(r"(pub )?use ", line):
                self.read_import(line)
                current = None
            elif line.strip() and not line.startswith(("--", "infix", "pub mod")):
                current = self.read_line(line, current)

    def read_import(self, line):
        items = re.match(r"(?:pub )?use (\S+?)\.\{(.*)\}", line)
        if items:
            for item in items.group(2).split(","):
                name, _, other = item.strip().partition(" as ")
                self.imports[other or name] = (module_name(items.group(1)), name)
            return
        alias = re.match(r"(?:pub )?use (\S+) as (\w+)", line)
        if alias:
            self.aliases[alias.group(2)] = module_name(alias.group(1))

    def read_line(self, line, current):
        """Adds a line to the definition that it belongs to, and answers that one's name."""
        if line[0].isspace():
            if current:
                self.definitions[current].append(re.sub(r'(?<!")--.*', "", line))
            return current
        words = re.match(r"(?:(?:pub|abbrev|unfoldable|record|data) )*", line).group(0)
        name = re.match(r"[^\s:({]+", line[len(words):])
        signs = words or (re.match(r"[^=]*:", line) and name.group(0) not in self.definitions)
        if signs:
            current = name.group(0)
            self.definitions[current] = []
            self.order.append(current)
        if current:
            self.definitions[current].append(line)
        return current

    def owner(self, name):
        """The type that has this constructor or field."""
        word = re.escape(name)
        field = re.compile(r"\s+(?:pub )?(?:[^\s:]+ )*" + word + r"(?: [^\s:]+)* :")
        for owner, lines in self.definitions.items():
            if any(field.match(line) for line in lines):
                return owner
        return None


def module_name(path):
    return path.removeprefix("Rattle.")


def read_modules():
    modules = {}
    for path in sorted(ROOT.glob("crates/*/specs/**/*.antt")):
        crate = path.relative_to(ROOT / "crates").parts[0]
        inside = path.relative_to(ROOT / "crates" / crate / "specs").with_suffix("")
        modules[f"{crate}.specs.{'.'.join(inside.parts)}"] = Module(path)
    return modules


def used_names(modules, module, name):
    """The definitions that one names, each as a module and a name."""
    here = modules[module]
    text = "\n".join(here.definitions[name])
    for word in set(re.findall(NAME + r"(?:\.[A-Za-z_]\w*)*", text)):
        first, _, rest = word.partition(".")
        if first in here.imports:
            yield here.imports[first]
        elif first in here.aliases and rest:
            yield here.aliases[first], rest.split(".")[0]
        elif first != name and (first in here.definitions or first[0].isupper()):
            yield module, first
    for operator in [*here.imports, *here.definitions]:
        if "◌" in operator and operator != name and uses_operator(text, operator):
            yield here.imports.get(operator, (module, operator))


def uses_operator(text, operator):
    """Whether a text has all signs of an operator; a `do` block has those of `◌>>=◌`."""
    signs = [sign for sign in operator.split("◌") if sign]
    return all(sign in text for sign in signs) or (signs == [">>="] and "←" in text)


def clause_names(path, function):
    """The definitions that the clauses of a public function name, as its file imports them."""
    text = path.read_text()
    start = text.index(f"pub fn {function}<")
    clauses = text[start : text.index("\n{\n", start)]
    words = set(re.findall(NAME, clauses))
    for module, names in re.findall(r"ghost use Rattle\.(hx\S+)\.\{(.*)\};", text):
        for name in names.split(", "):
            if name in words:
                yield module, name


def reached_from(modules, starts):
    """All definitions that some rest on, by module, with their numbers of lines, and the types of
    the code that these name, each as a crate and a name."""
    reached = collections.defaultdict(dict)
    types = set()
    waiting = list(starts)
    while waiting:
        module, name = waiting.pop()
        crate, _, declared = module.partition(".specs.declared.")
        if declared and crate in CRATES and not declared.endswith("TheConstants"):
            types.add((crate, declared.removesuffix(".TheVariants")))
        if module not in modules or name in reached[module]:
            continue
        here = modules[module]
        if name not in here.definitions:
            owner = here.owner(name)
            if owner:
                waiting.append((module, owner))
            elif name in here.imports:
                waiting.append(here.imports[name])
            continue
        reached[module][name] = sum(1 for line in here.definitions[name] if line.strip())
        waiting.extend(used_names(modules, module, name))
    return {module: found for module, found in reached.items() if found}, types


def total_of(reached):
    """The lines and the definitions of all modules."""
    lines = sum(sum(found.values()) for found in reached.values())
    return f"{lines:,} lines in {sum(len(found) for found in reached.values()):,} definitions"


class CodeType:
    """A struct or an enum of src/: its lines, and whether other crates can name it."""

    def __init__(self, crate, name):
        self.crate = crate
        self.name = name
        folder = ROOT / "crates" / crate / "src"
        head = re.compile(r"^(pub(?:\(crate\))? )?(?:enum|struct) " + name + r"\b")
        for path in sorted(folder.glob("**/*.rt")):
            lines = path.read_text().split("\n")
            for at, line in enumerate(lines):
                found = head.match(line)
                if found:
                    self.lines = type_lines(lines[at:])
                    self.shown = found.group(1) == "pub " and is_exported(folder, name)
                    return
        sys.exit(f"no type {name} in {folder}")


def type_lines(lines):
    """How many lines of code a type has, which begins with the first of these."""
    count = 0
    for line in lines:
        if line.strip() and not re.match(r"\s*(//|#)", line):
            count += 1
        if line.startswith("}") or (count == 1 and line.endswith((";", "}"))):
            break
    return count


def is_exported(folder, name):
    """Whether a library lets others name a type; of a program none is asked for."""
    library = folder / "lib.rt"
    if not library.exists():
        return True
    return bool(re.search(r"pub use [^;]*\b" + name + r"\b", library.read_text()))


def types_of(names):
    """The types of the code that definitions name, each once."""
    types = {(crate, path.split(".")[-1]) for crate, path in names}
    return [CodeType(crate, name) for crate, name in sorted(types)]


def print_types(where, names):
    """Prints how many types there are, and those that are private to their crate."""
    types = types_of(names)
    total = sum(kind.lines for kind in types)
    hidden = [kind for kind in types if not kind.shown]
    print(f"{total:,} lines in {len(types)} types of the code {where}")
    crates = {kind.crate: None for kind in hidden}
    lists = [
        f"{crate}: {', '.join(kind.name for kind in hidden if kind.crate == crate)}"
        for crate in crates
    ]
    lines = sum(kind.lines for kind in hidden)
    print(f"of these {lines:,} lines in {len(hidden)} that are private to their crate: "
          f"{'; '.join(lists) or 'none'}")


def main():
    modules = read_modules()
    reached, types = reached_from(modules, HEADLINE)
    starts = [*clause_names(ROOT / RUN[0], RUN[1])]
    under_run, run_types = reached_from(modules, starts)
    print(f"{total_of(reached)} under `Headline`")
    print(f"{total_of(under_run)} under all clauses of `run`")
    print_types("under `Headline`", types)
    print_types("under all clauses of `run`", run_types)
    for crate in CRATES:
        files = [m for m in modules if m.split(".")[0] == crate and m in reached]
        if not files:
            continue
        print(f"\n## {crate}\n")
        print("| File | What it defines, and the section that it restates | Definitions | Lines |")
        print("|---|---|---|---|")
        for module in files:
            found = reached[module]
            about = " ".join(modules[module].about)
            file = modules[module].path.name
            print(f"| `{file}` | {about} | {len(found)} | {sum(found.values())} |")
    missing = {m.split(".")[0] for m in reached} - set(CRATES)
    if missing:
        sys.exit(f"not in the order of reading: {', '.join(sorted(missing))}")


if __name__ == "__main__":
    signal.signal(signal.SIGPIPE, signal.SIG_DFL)
    main()
