"""A canned program that answers questions as `ttm --ask` does, and a way to work in a folder."""

import contextlib
import os
import stat
import textwrap
from pathlib import Path
from typing import Iterator


@contextlib.contextmanager
def standing_in(folder: Path) -> Iterator[None]:
    """Runs what is in the block in a folder."""
    before = os.getcwd()
    os.chdir(folder)
    try:
        yield
    finally:
        os.chdir(before)


def script(path: Path, text: str) -> str:
    """Writes a program."""
    path.write_text(text)
    path.chmod(path.stat().st_mode | stat.S_IXUSR)
    return str(path)


# Answers each question by a matrix of one cell: at which minute the window begins, in seconds. The origin of a question
# is a file: one called kill, short, bad .. makes that happen.
CANNED = """\
#!/usr/bin/python3
import os, signal, sys, time
words = sys.argv[1:]
def say(status, body):
    sys.stdout.buffer.write(b"answer %d %d\\n" % (status, len(body)) + body)
    sys.stdout.buffer.flush()
print("ttm: stops: 2", file=sys.stderr, flush=True)
if "20270101" in words:
    print("ttm: warning: no trip runs on the date itself", file=sys.stderr, flush=True)
if "--walk" in words and words[words.index("--walk") + 1] == "7":
    print("ttm: bad walk\\nttm: --walk is \\"7\\"; none of seven", file=sys.stderr, flush=True)
    sys.exit(2)
block = []
for line in sys.stdin:
    if line != "\\n":
        block.append(line.rstrip("\\n"))
        continue
    asked, block = dict(zip(block[::2], block[1::2])), []
    hour, minute = map(int, asked["--from"].split(":"))
    what = open(asked["--origins"]).read().split()[-1] if "--origins" in asked else ""
    if what == "kill":
        print("ttm: question 3", file=sys.stderr, flush=True)
        os.kill(os.getpid(), signal.SIGKILL)
    elif what == "end":
        print("ttm: out of memory", file=sys.stderr, flush=True)
        sys.exit(3)
    elif what == "short":
        sys.stdout.write("answer 0 100\\nscenario")
        sys.exit(5)
    elif what == "bad":
        print("hello", flush=True)
    elif what == "wait":
        open(os.path.join(os.path.dirname(sys.argv[0]), "asked"), "w").close()
        time.sleep(600)
    elif what == "meet":  # answers when four processes are asked at the same time
        room = os.path.join(os.path.dirname(sys.argv[0]), "met")
        os.makedirs(room, exist_ok=True)
        open(os.path.join(room, str(os.getpid())), "w").close()
        while len(os.listdir(room)) < 4:
            time.sleep(0.01)
        say(0, b"scenario,origin,share,access_1800,A\\nbase,A,50,1,0\\n")
    elif what == "fault":
        say(2, b"ttm: origins: record 2: unknown stop\\n")
    else:
        time.sleep(0.001)
        process = os.getpid() if what == "process" else 60 * hour + minute
        say(0, b"scenario,origin,share,access_1800,A\\nbase,A,50,1,%d\\n" % (60 * process))
"""


def canned(folder: Path) -> str:
    """The canned program, in a folder."""
    return script(folder / "canned", textwrap.dedent(CANNED))
