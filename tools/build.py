#!/usr/bin/env python3
"""Proves a program and every crate below it, and links it: each crate as soon as those that it
stands on are done, on all processors.

Usage: tools/build.py [CRATE ..]

With names of crates, these and what they stand on are proved in place of hxeval. Single runs of rt
in one checkout wait for one another, so each crate is proved in a room of its own: a folder with
its files, and with what was built of the crates below it. What it kept is then moved back, so that
rt finds it here later. A crate whose files are as they were is passed over. Standard error says
what is at work; what rt printed of a crate that isn't proved follows. Of each program that was
proved, the sum of its sources is kept beside the rooms, so that it is known to stand for them.
"""
import contextlib
import fcntl
import glob
import hashlib
import heapq
import os
import shutil
import subprocess
import sys
import tempfile
import threading
import time

TOP = os.path.dirname(os.path.dirname(os.path.realpath(__file__)))
# The rooms: on the disk of the crates, so that a file can have a second name there, and where
# neither git nor the gate looks.
KEPT = f"{TOP}/.git/build" if os.path.isdir(f"{TOP}/.git") else f"{TOP}/.build"
# What rt reads of a crate.
PARTS = ("src", "specs", "proofs", "must-fail", "data", "args", "stdin", "stdout", "status")
LOCK = threading.Condition()


def listed():
    """The crates of crates.txt, each with the crates of this repository that it names."""
    rows = {}
    with open(f"{TOP}/crates.txt", encoding="utf-8") as lines:
        for line in lines:
            name, _, deps = line.partition("#")[0].partition(":")
            if name.strip():
                rows[name.strip()] = deps.split()
    return {name: [dep for dep in deps if dep in rows] for name, deps in rows.items()}


def below(crates, name, found=None):
    """The crates that this one stands on, directly or not, lowest first."""
    found = [] if found is None else found
    for dep in crates[name]:
        if dep not in found:
            below(crates, dep, found)
            found.append(dep)
    return found


def sum_of(crates, name, parts, *texts):
    """The sum of these parts of a crate and of those below it, their rows, and these texts."""
    wanted, whole = [*below(crates, name), name], hashlib.sha256(repr((name, texts)).encode())
    with open(f"{TOP}/crates.txt", encoding="utf-8") as lines:
        rows = [line for line in lines if line.partition(":")[0].strip() in wanted]
    whole.update(repr(sorted(rows)).encode())
    for folder in (f"{TOP}/crates/{crate}/{part}" for crate in sorted(wanted) for part in parts):
        for path in sorted(glob.glob(f"{folder}/**", recursive=True)):
            if os.path.isfile(path):
                with open(path, "rb") as file:
                    text = file.read()
                whole.update(f"{os.path.relpath(path, TOP)} {len(text)}\n".encode() + text)
    return whole.hexdigest()


def standing(crates, name):
    """What is kept of a proved program: the sum of what was proved, and that of the program."""
    with open(f"{TOP}/crates/{name}/out/{name}", "rb") as program:
        own = hashlib.sha256(program.read()).hexdigest()
    # a proof is no part of what was proved
    return f"{sum_of(crates, name, ('src', 'specs'))} {own}\n"


def proved(name):
    """The path of the proved program of these sources, or None."""
    try:
        with open(f"{KEPT}/proved/{name}", encoding="utf-8") as record:
            if record.read() == standing(listed(), name):
                return f"{TOP}/crates/{name}/out/{name}"
    except OSError:
        pass
    return None


def record(crates, name, before):
    """Keeps that a program was proved, unless its sources have changed since its sum was `before`."""
    now = standing(crates, name)
    if now.split()[0] == before:
        os.makedirs(f"{KEPT}/proved", exist_ok=True)
        with open(f"{KEPT}/proved/{name}", "w", encoding="utf-8") as out:
            out.write(now)
    else:
        say(f"the sources of {name} changed while it was proved")


def size(name):
    """How long a crate takes, roughly: the lines of its code. Definitions and lemmas cost little."""
    total = 0
    for folder, _, files in os.walk(f"{TOP}/crates/{name}/src"):
        for file in files:
            with open(f"{folder}/{file}", "rb") as it:
                total += it.read().count(b"\n")
    return total


def weights(crates, wanted):
    """For each crate the lines on the longest way from it up."""
    found = {}
    for name in reversed(wanted):
        above = [found[other] for other in wanted if name in crates[other]]
        found[name] = size(name) + max(above, default=0)
    return found


def write_rows(room, names):
    """Writes the rows of these crates into the crates.txt of a folder."""
    with open(f"{TOP}/crates.txt", encoding="utf-8") as lines, open(
        f"{room}/crates.txt", "w", encoding="utf-8"
    ) as kept:
        kept.writelines(line for line in lines if line.partition(":")[0].strip() in names)


def copy_crate(room, name, parts=PARTS):
    """Copies these parts of a crate into a folder that is laid out as the repository is."""
    os.makedirs(f"{room}/crates/{name}")
    for part in parts:
        path = f"{TOP}/crates/{name}/{part}"
        if os.path.isdir(path):
            shutil.copytree(path, f"{room}/crates/{name}/{part}")
        elif os.path.isfile(path):
            shutil.copy2(path, f"{room}/crates/{name}/{part}")


def room_for(crates, name, room):
    """Lays out a folder in which rt finds the crate, and what it stands on as it was built."""
    deps = below(crates, name)
    os.makedirs(f"{room}/crates")
    write_rows(room, (*deps, name))
    for dep in deps:
        # built crates are only read, so that a second name for each file is enough
        for part in ("src", "specs", "proofs", "out/rlib"):
            if os.path.isdir(f"{TOP}/crates/{dep}/{part}"):
                shutil.copytree(
                    f"{TOP}/crates/{dep}/{part}",
                    f"{room}/crates/{dep}/{part}",
                    copy_function=os.link,
                )
    copy_crate(room, name)
    if os.path.isdir(f"{TOP}/crates/{name}/out"):
        shutil.move(f"{TOP}/crates/{name}/out", f"{room}/crates/{name}/out")


def prove(crates, name, rooms, jobs):
    """Proves one crate, and answers its status and what rt printed."""
    room = f"{rooms}/{name}"
    folder = f"{room}/crates/{name}"
    room_for(crates, name, room)
    words = ["rt", "lib", "--jobs", str(jobs)]
    if os.path.isfile(f"{folder}/src/main.rt"):
        # linking is a part of running: each program tells what it takes
        words[1] = "run"
        words += ["--", "--help"]
    ran = subprocess.run(
        words,
        cwd=folder,
        stdin=subprocess.DEVNULL,
        stdout=subprocess.PIPE,
        stderr=subprocess.STDOUT,
        errors="replace",
    )
    if os.path.isdir(f"{folder}/out"):
        shutil.rmtree(f"{TOP}/crates/{name}/out", ignore_errors=True)
        shutil.move(f"{folder}/out", f"{TOP}/crates/{name}/out")
    shutil.rmtree(room, ignore_errors=True)
    return ran.returncode, ran.stdout


def left(seconds, lines, done):
    """How much time is left, in words, where these crates of those with lines took so many seconds."""
    whole, made = sum(lines.values()), sum(lines[name] for name in done)
    if seconds < 60 or 10 * made < whole:
        return ""
    minutes = seconds * (whole - made) / made / 60
    return f", about {minutes:.0f} minutes left" if minutes >= 1.5 else ", a minute or two left"


def say(text):
    print(f"hxeval: {text}", file=sys.stderr, flush=True)


@contextlib.contextmanager
def alone():
    """Waits until no other build is at work here, and takes away what one that was killed left."""
    os.makedirs(KEPT, exist_ok=True)
    with open(f"{KEPT}/lock", "w", encoding="utf-8") as lock:
        fcntl.flock(lock, fcntl.LOCK_EX)
        for left in os.listdir(KEPT):
            if left.startswith("rooms-"):
                shutil.rmtree(f"{KEPT}/{left}", ignore_errors=True)
        yield


def build(names):
    crates = listed()
    wanted = []
    for name in names:
        wanted += [it for it in (*below(crates, name), name) if it not in wanted]
    behind = weights(crates, wanted)
    lanes = len(os.sched_getaffinity(0))
    lines = {name: size(name) for name in wanted}
    programs = [it for it in names if os.path.isfile(f"{TOP}/crates/{it}/src/main.rt")]
    before = {name: sum_of(crates, name, ("src", "specs")) for name in programs}
    begin, waiting, running, done, failed = time.monotonic(), set(wanted), {}, [], []

    def work(name, jobs, rooms):
        try:
            status, said = prove(crates, name, rooms, jobs)
        except OSError as fault:
            status, said = 1, f"{fault}\n"
        with LOCK:
            del running[name]
            (failed if status else done).append(name)
            seconds = int(time.monotonic() - begin)
            if status:
                sys.stderr.write(said)
                say(f"{name} is not proved ({seconds} s so far)")
            else:
                rest = left(seconds, lines, done)
                say(f"{name} is proved: {len(done)} of {len(wanted)} crates, {seconds} s so far{rest}")
            LOCK.notify_all()

    with alone(), tempfile.TemporaryDirectory(prefix="rooms-", dir=KEPT) as rooms, LOCK:
        while running or (waiting and not failed):
            ready = [(-behind[it], it) for it in waiting if all(dep in done for dep in crates[it])]
            heapq.heapify(ready)
            while ready and sum(running.values()) < lanes and not failed:
                # A proof that several processors share takes three times as much of them, so only
                # those that no other crate waits for share one.
                jobs = max(1, (lanes - sum(running.values())) // len(ready))
                _, name = heapq.heappop(ready)
                waiting.remove(name)
                running[name] = jobs
                threading.Thread(target=work, args=(name, jobs, rooms)).start()
            LOCK.wait()
    for name in before if not failed else ():
        record(crates, name, before[name])
    return 1 if failed else 0


if __name__ == "__main__":
    sys.exit(build(sys.argv[1:] or ["hxeval"]))
