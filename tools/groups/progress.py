"""How far long work is must be said on a terminal, and nowhere else."""
import os
import pty
import subprocess
import sys

from groups.compared import TOP, Check, Outcome, text_outcome

# Three items of which a terminal is told one by one, and what it shows of them.
SCRIPT = """
import told
told.INTERVAL = 0
done = 0
for _ in told.progress("abc", "tool", 3, "lines", lambda: done, lambda: 7):
    done += 1
told.say("tool", "the end")
"""
SHOWN = (b"\r\x1b[Ktool: 0% of 3 lines, 7 requests\r\x1b[Ktool: 33% of 3 lines, 7 requests, 0 s left"
         b"\r\x1b[Ktool: 66% of 3 lines, 7 requests, 0 s left\r\x1b[K")
SAID = b"tool: the end\n"


def said(errors):
    """Runs the script with this standard error."""
    words = [sys.executable, "-c", SCRIPT]
    return subprocess.run(words, cwd=f"{TOP}/tools", stderr=errors, check=False).stderr


def on_terminal():
    terminal, end = pty.openpty()
    said(end)
    os.close(end)
    text = os.read(terminal, 10000).replace(b"\r\n", b"\n")
    os.close(terminal)
    return text_outcome("how far work is, on a terminal", SHOWN + SAID, text)


def elsewhere():
    return text_outcome("how far work is, elsewhere", SAID, said(subprocess.PIPE))


def outcome():
    found = Outcome()
    found.add(on_terminal())
    found.add(elsewhere())
    return found


def checks():
    return [Check("tools/told.py", outcome)]
