"""Builds and runs programs of this repository, and measuring programs over its crates, for the scripts beside this file."""
import contextlib, os, shutil, subprocess, sys, tempfile

TOP = os.path.dirname(os.path.dirname(os.path.abspath(__file__)))
FRONTEND = os.path.join('examples', 'frontend', 'frontend.cfg')
HEAD = (b'GET /a/b?c=1 HTTP/1.1\r\nHost: books.example\r\nUser-Agent: Mozilla/5.0 (X11; Linux x86_64)\r\n'
        b'Accept: text/html\r\nX-Forwarded-Proto: https\r\nCookie: a=1; preview=on\r\nX-Trace: 1\r\n\r\n')


def built(name):
    """The path of a program, which is proved first where the proved one isn't of these sources."""
    made = subprocess.run([os.path.join(TOP, 'tools', 'prove'), name], stdout=subprocess.DEVNULL, check=False)
    if made.returncode != 0:
        sys.exit(f'{name} can\'t be proved')
    return os.path.join(TOP, 'crates', name, 'out', name)


def once(words, record):
    """The processor seconds of one run; the script ends where it fails."""
    with open(record, 'rb') as source:
        child = subprocess.Popen(words, stdin=source, stdout=subprocess.DEVNULL, cwd=TOP)
        _, status, usage = os.wait4(child.pid, 0)
    if status != 0:
        sys.exit(f'{words}: status {os.waitstatus_to_exitcode(status)}')
    return usage.ru_utime + usage.ru_stime


def beside_run(record, commands):
    """Prints the least processor time of five runs of `hxeval run` over a record under FRONTEND, and of each command, words
    that begin with a program's name, and what that is of hxeval's."""
    hxeval = built('hxeval')
    least = min(once([hxeval, 'run', FRONTEND], record) for _ in range(5))
    print(f'hxeval run: {least:.2f} s')
    for name, *words in commands:
        own = min(once([built(name), *words], record) for _ in range(5))
        print(f'{name} {words[0]}: {own:.2f} s, {own / least:.2f} times that')


@contextlib.contextmanager
def frontend_record(words, usage):
    """The name of a record of equal requests, as many as the one word of a command line says, or 100,000 without one."""
    if len(words) > 1 or not all(word.isdecimal() for word in words):
        sys.exit(usage)
    count = int(words[0]) if words else 100_000
    with tempfile.NamedTemporaryFile() as record:
        record.write(b'conn 1 192.0.2.33 40000 198.51.100.1 80\n')
        record.write(b'req 1 %d\n%s\n' % (len(HEAD), HEAD) * count)
        record.write(b'close 1\n')
        record.flush()
        yield record.name


@contextlib.contextmanager
def copied(changes=()):
    """A folder with a copy of the crates. Each of the changes is a file, a text that stands in it once, and the one in its place."""
    with tempfile.TemporaryDirectory() as folder:
        for name in sorted(os.listdir(os.path.join(TOP, 'crates'))):
            shutil.copytree(os.path.join(TOP, 'crates', name), os.path.join(folder, 'crates', name), ignore=shutil.ignore_patterns('out', 'must-fail'))
        shutil.copy(os.path.join(TOP, 'crates.txt'), folder)
        for file, old, new in changes:
            path = os.path.join(folder, file)
            with open(path) as source:
                text = source.read()
            if text.count(old) != 1:
                sys.exit(f'{file}: not once there: {old}')
            with open(path, 'w') as out:
                out.write(text.replace(old, new))
        yield folder


def rows(main, crates):
    """What the program of this text prints, which stands on these crates: the words of each line that begins with a digit.

    It is built by `rt try`, in a folder of its own: a measuring program needs no proof, and its times are to be read
    against one another alone. Where it fails, its words and those of rt are printed, and the script ends with status 1.
    """
    with copied() as folder:
        crate = os.path.join(folder, 'crates', 'measure')
        os.makedirs(os.path.join(crate, 'src'))
        with open(os.path.join(crate, 'src', 'main.rt'), 'w') as out:
            out.write(main)
        with open(os.path.join(folder, 'crates.txt'), 'a') as out:
            out.write(f'measure: {crates}\n')
        done = subprocess.run(['rt', 'try'], cwd=crate, capture_output=True, text=True)
    found = [line.split() for line in done.stdout.splitlines() if line[:1].isdigit()]
    if done.returncode != 0 or not found:
        sys.exit(done.stdout + done.stderr)
    return found
