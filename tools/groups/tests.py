"""The functions #[test] of the crates, by `rt try --test`, which runs them without a proof."""
import glob
import re
import shutil
import subprocess
from functools import partial

from groups.compared import TOP, Check, Outcome

# Crates whose tests aren't run here.
LEFT_OUT = {
    "hxeval": "two of the four don't end in the minute that `rt try` gives them; `rt ci` runs them",
}
# What `rt try` says of a test, and at the end.
TEST = re.compile(r"^test (\S+) \.\.\. (\w+)$", re.M)
END = re.compile(r"^test result: ok\. (\d+) passed; 0 failed", re.M)


def crates():
    """The crates that have tests."""
    found = set()
    for path in glob.glob(f"{TOP}/crates/*/src/**/*.rt", recursive=True):
        with open(path, encoding="utf-8") as it:
            if "#[test]" in it.read():
                found.add(path.removeprefix(f"{TOP}/crates/").split("/")[0])
    return sorted(found)


def tried(name):
    """Runs the tests of a crate; each counts."""
    ran = subprocess.run(["rt", "try", "--test"], cwd=f"{TOP}/crates/{name}", errors="replace",
                         stdin=subprocess.DEVNULL, stdout=subprocess.PIPE,
                         stderr=subprocess.STDOUT, check=False)
    outcome = Outcome()
    for test, how in TEST.findall(ran.stdout):
        if how == "ok":
            outcome.passed += 1
        else:
            outcome.fail(f"crates/{name}: the test {test} is {how}")
    end = END.search(ran.stdout)
    if not outcome.failed and (ran.returncode != 0 or not end or int(end[1]) != outcome.passed):
        outcome.fail(f"crates/{name}: its tests weren't all run")
    if outcome.failed:
        outcome.told[-1] += f"; rt says\n{ran.stdout.strip()[-2000:]}"
    return outcome


def left_out():
    """The crates whose tests aren't run here, each with the reason."""
    if not shutil.which("rt"):
        return [f"the tests of crates/{it}: there is no `rt` on PATH" for it in crates()]
    return [f"the tests of crates/{it}: {LEFT_OUT[it]}" for it in crates() if it in LEFT_OUT]


def checks(_):
    if not shutil.which("rt"):
        return []
    return [Check(f"the tests of crates/{it}", partial(tried, it), lasts=True)
            for it in crates() if it not in LEFT_OUT]
