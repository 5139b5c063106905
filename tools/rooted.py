"""The files that the configurations of two checkouts name, each looked for beside its own
configuration; and the commands of a record that name them.

A file that both checkouts have alike has one name for both, so that a command reaches it on either
side.
"""
import os
import re

import told
from record import REQUEST_BYTES

# What stands before the name of a file in a line of a configuration, and the name.
NAME = re.compile(r"""((?:^|\s)-f\s+["']?|"""
                  r"""(?<![\w.-])(?:map(?:_[a-z]+)*|(?:add|del)-acl|(?:set|del)-map)\(["']?)"""
                  r"""([^\s"'(),]+)""")
# What stands before the name of a reference in a command of a record, and the name.
COMMAND = re.compile(rb"(cli \d+[ \t]+(?:add|clear|commit|del|get|prepare|set|show)"
                     rb"[ \t]+(?:acl|map)[ \t]+(?:@\d+[ \t]+)?)([^\s#@]\S*)(.*)", re.S)
# What the word for a file can't have where it stands without quotes.
UNWRITABLE = re.compile(r"""[\s"'(),#\\$]""")


def below(root, name):
    """The part of a name that lies below a folder, or none where it doesn't."""
    if root in ("", "."):
        return None if name.startswith("/") else name.removeprefix("./")
    begin = root.rstrip("/") + "/"
    return name.removeprefix(begin) if name.startswith(begin) else None


def bytes_of(path):
    """What a file has, or none where it can't be read: who opens it by its name says why."""
    try:
        with open(path, "rb") as it:
            return it.read()
    except OSError:
        return None


class Files:
    """Where the files of two configurations stand that name them below one folder."""

    def __init__(self, root, paths):
        self.root = root
        self.folders = [os.path.dirname(path) or "." for path in paths]
        self.known = {}
        for it in self.folders:
            if UNWRITABLE.search(it):
                raise told.Stop(f"{it}: no word of a configuration can name a folder with such a"
                                " character")

    def paths(self, rest):
        """Where the two sides have the file that is called so below the root."""
        if rest not in self.known:
            both = [os.path.normpath(os.path.join(it, rest)) for it in self.folders]
            texts = [bytes_of(it) for it in both]
            if texts[0] == texts[1] or texts[1] is None:
                both[1] = both[0]
            elif texts[0] is None:
                both[0] = both[1]
            self.known[rest] = both
        return self.known[rest]

    def path(self, name, side):
        """Where a side has a file, or its name as it is."""
        rest = below(self.root, name)
        return name if rest is None else self.paths(rest)[side]

    def line_of(self, line, side):
        """A line of a configuration with the names that its files have on this side."""
        return NAME.sub(lambda found: found[1] + self.path(found[2], side), line)

    def command_of(self, line):
        """A line of a record with the name that its file has on both sides."""
        parts = COMMAND.fullmatch(line)
        if not parts:
            return line
        name = parts[2].decode(errors="surrogateescape")
        old, new = self.path(name, 0), self.path(name, 1)
        if old != new:
            raise told.Stop(f"the record has a command on {name}, but OLD and NEW have different"
                            " files of this name: it can't reach both", status=4)
        return parts[1] + old.encode(errors="surrogateescape") + parts[3]

    def copy(self, record, out):
        """Copies a record; its commands name files as both sides have them."""
        for line in record:
            words = line.split()
            out.write(self.command_of(line) if line.startswith(b"cli ") else line)
            if words[:1] == [b"req"] and len(words) == 3 and words[2].isdigit():
                # a request may have lines that look like those of a record
                out.write(record.read(min(int(words[2]), REQUEST_BYTES) + 1))
