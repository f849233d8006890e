"""Conversations with `ttm --ask` that are drawn by a seed, and what runs of the program say in each question's place.

Valid questions are mixed with bad values, files that can't be read or are wrong, options that no question has, and
bytes that are no question.
"""

from __future__ import annotations

import random
import re
from collections.abc import Iterator, Sequence
from dataclasses import dataclass
from pathlib import Path

from random_feeds import Drawn

MOST_BYTES = 65_536  # of a question
HEAD = re.compile(rb"answer (0|[1-9][0-9]{0,2}) (0|[1-9][0-9]*)\n")
QUESTIONS = 7  # at most in a conversation
NOT_TEXT, TOO_LONG = "ttm: words that are not UTF-8", "ttm: question: too long"

# values that are out of range, or no values of their options
BAD = {
    "from": ("24:00", "8:00", "", "08:60", "x", "23:59"),
    "to": ("00:00", "24:00", "0800", "", "08:00:00"),
    "trips": ("0", "9", "", "1.5", "+2", "99999999999", "1 2", "two"),
    "share": ("", "0", "101", "50,25", "50,50", "25, 50", ",50", "1,2,3,4,5,6,7,8,9"),
    "within": ("", "x", "1800,900", "4294967296", "900,", "1,2,3,4,5,6,7,8,9"),
    "workers": ("0", "65", "", "one"),
    "tries": ("0", "9", "", "-"),
}
# values that are unusual and good
ODD = {
    "trips": (" 2 ", "03", "8"),
    "within": ("0", "4294967295", "00700"),
    "share": ("050", "100", "1"),
    "tries": ("8",),
}
FILES = ("origins", "opportunities", "destinations")
# words of other options, of none, and of a command line; none of them is a question's
STRANGE = [
    ["--nothing", "1"],
    ["--walk", "300"],
    ["--feed", "."],
    ["--date", "20260504"],
    ["--back", "0"],
    ["--ahead", "0"],
    ["--footpaths", "footpaths.csv"],
    ["--report"],
    ["--ask"],
    ["--help"],
    ["-h"],
    ["--version"],
    ["-V"],
    ["--From", "08:00"],
    ["--fro", "08:00"],
    ["-x"],
]


@dataclass(frozen=True)
class Question:
    """A question of a conversation."""

    words: tuple[bytes, ...]
    line: bytes | None = None  # by which it is refused, where a run with these words isn't or can't be

    @property
    def block(self) -> bytes:
        """Its bytes."""
        return b"".join(word + b"\n" for word in self.words) + b"\n"


@dataclass(frozen=True)
class Answer:
    """An answer, or what a run leaves in its place."""

    status: int
    body: bytes


def question(*arguments: str | bytes) -> Question:
    """A question of these words."""
    return Question(tuple(word.encode() if isinstance(word, str) else word for word in arguments))


def refused(line: str, *arguments: str | bytes) -> Question:
    """A question that is refused by this line, as no run has its words."""
    return Question(question(*arguments).words, line.encode() + b"\n")


def unexpected(word: str, *arguments: str | bytes) -> Question:
    """A question with a word that no question has."""
    return refused(f"error: unexpected argument '{word}' found", *arguments)


def answers_in(out: bytes) -> Iterator[Answer]:
    """The answers that a conversation printed, which are all that it printed."""
    at = 0
    while at < len(out):
        head = HEAD.match(out, at)
        assert head, f"no answer: {out[at:at + 80]!r}"
        at = head.end() + int(head[2])
        assert at <= len(out), "an answer is cut short"
        yield Answer(int(head[1]), out[head.end() : at])


def words_of_run(kept: Sequence[str], question: Question) -> list[bytes]:
    """The words of the run in a question's place: those of the command line, with the question's instead where it names
    an option. Scenario files come last.
    """
    named = {word.partition(b"=")[0] for word in question.words if word.startswith(b"--")}
    arguments = [word.encode() for word in kept]
    scenarios = arguments.index(b"--") if b"--" in arguments else len(arguments)
    pairs = zip(arguments[:scenarios:2], arguments[1:scenarios:2])
    return [word for pair in pairs if pair[0] not in named for word in pair] + [*question.words, *arguments[scenarios:]]


class Talk:
    """A drawn feed in a folder, the words of a command line, and questions."""

    def __init__(self, seed: int, folder: Path) -> None:
        self.drawn, self.folder = Drawn(seed), folder
        self.random = random.Random(10_000 + seed)
        self.drawn.put_into(folder)
        self.draw_files()
        arguments = self.drawn.words(folder)
        last = next((at for at in range(0, len(arguments), 2) if not arguments[at].startswith("--")), len(arguments))
        self.kept = [*arguments[:last], "--", *arguments[last:]]
        self.questions = [self.question() for _ in range(self.random.randint(3, QUESTIONS))]
        if self.random.random() < 0.3:
            self.questions.append(self.questions[0])

    @property
    def command(self) -> list[str]:
        """The words of the command line."""
        return ["--ask", *self.kept]

    def draw_files(self) -> None:
        """Files that questions name: right ones, and others."""
        stops = self.drawn.stops
        some = self.random.sample(stops, self.random.randint(1, len(stops)))
        texts = {
            "some.csv": "".join(f'"{stop}",3\n'.replace('a "b", c', 'a ""b"", c') for stop in some),
            "twice.csv": 2 * f'"{stops[-1]}",2\n',
            "none.csv": "",
            "strange.csv": '"nowhere at all",1\n',
            "number.csv": f'"{stops[-1]}",-1\n',
        }
        for name, text in texts.items():
            (self.folder / name).write_text("stop_id,opportunities\n" + text, encoding="utf-8")
        (self.folder / "empty.csv").write_bytes(b"")
        (self.folder / "header.csv").write_text("stop_name\nAlpha\n")
        (self.folder / "bytes.csv").write_bytes(b"stop_id,opportunities\n\xff\xfe,1\n")

    def question(self) -> Question:
        """A question: valid ones are as frequent as all others together."""
        kinds = [self.valid] * 6 + [self.bad, self.bad, self.of_files, self.of_files, self.strange, self.hostile]
        return self.random.choice(kinds)()

    def pairs(self) -> dict[str, str]:
        """Some options with valid values."""
        draw, arguments = self.random, self.drawn.words(self.folder)
        values = {name[2:]: value for name, value in zip(arguments[::2], arguments[1::2]) if name.startswith("--")}
        values["workers"] = str(draw.randint(1, 3))
        names = [name for name in ("trips", "share", "within", "workers", "tries", *FILES) if name in values]
        chosen = draw.sample(names, draw.randint(0, len(names))) + (["from", "to"] if draw.random() < 0.6 else [])
        return {name: values[name] for name in chosen}

    def asked(self, pairs: dict[str, str]) -> Question:
        """The question of some options, in a drawn order, each as two words or as one."""
        names = self.random.sample(sorted(pairs), len(pairs))
        forms = [self.form(name, pairs[name]) for name in names]
        return question(*(word for form in forms for word in form))

    def form(self, name: str, value: str) -> list[str]:
        as_one = not value or value.startswith("-") or self.random.random() < 0.2
        return [f"--{name}={value}"] if as_one else [f"--{name}", value]

    def valid(self) -> Question:
        pairs = self.pairs()
        if self.random.random() < 0.3:
            name = self.random.choice(sorted(ODD))
            pairs[name] = self.random.choice(ODD[name])
        return self.asked(pairs)

    def bad(self) -> Question:
        """One or two values that are bad."""
        names = self.random.sample(sorted(BAD), self.random.randint(1, 2))
        return self.asked(self.pairs() | {name: self.random.choice(BAD[name]) for name in names})

    def of_files(self) -> Question:
        """Files that are right, wrong, or can't be read."""
        names = "some twice none strange number empty header bytes nothing".split()
        paths = [str(self.folder / f"{name}.csv") for name in names] + [str(self.folder), "/", "x" * 5000, "no\x1b[31m"]
        chosen = self.random.sample(FILES, self.random.randint(1, 2))
        return self.asked(self.pairs() | {name: self.random.choice(paths) for name in chosen})

    def strange(self) -> Question:
        """Words that are no question's, behind some that are."""
        valid, draw = self.asked(self.pairs()).words, self.random
        if draw.random() < 0.2:
            word = draw.choice(["cut.csv", "-", " ", "a b", "é"])
            return unexpected(word, *valid, word)
        if draw.random() < 0.3:
            return question("--trips", "1", "--workers", "2", "--trips", draw.choice(["1", "2"]))
        if draw.random() < 0.3:
            return question("--workers", "1", draw.choice(["--tries", "--nothing", "--from"]))
        arguments = draw.choice(STRANGE)
        return unexpected(arguments[0], *valid, *arguments)

    def hostile(self) -> Question:
        """Bytes that are no question, and some as long as a question may be."""
        not_text = [[b"--from", b"\xff\xfe", b"--trips", b"1"], [b"\x80"], [b"--origins=\xc3", b"--nothing"]]
        long = [["--trips", "1" * (2 * MOST_BYTES)], ["--trips=1"] * MOST_BYTES, ["x" * 99] * 700]
        return self.random.choice(
            [
                *(refused(NOT_TEXT, *line) for line in not_text),
                *(refused(TOO_LONG, *line) for line in long),
                question("--trips=1", "--origins=" + "o" * (MOST_BYTES - 1000)),
                unexpected("x", *["x"] * 30_000),
            ]
        )
