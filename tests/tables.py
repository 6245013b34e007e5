"""The tables of tests/: their text becomes cases. docs/CONTRIBUTING.md describes the tables."""

from __future__ import annotations

import os
import re
from collections.abc import Iterator
from dataclasses import dataclass, replace
from pathlib import Path

TOP = Path(__file__).resolve().parent.parent
SEEDS = ("0", "1", "4294967295")  # the seeds under which what `step` writes is judged
TOLD = ("step --brief", "run --brief --limit 100000000", "run --brief --limit 100000000 --workers 4")  # what tells replies
RACES = {1: 63, 2: 12, 3: 12, 4: 25}  # how often a world with a race is run on threads, by its number of workers
JUDGES = ("check", "why --place 0")  # what reads a journal
COMMANDS = ("run", "run --brief", "step", "step --brief", *JUDGES)  # what reads a world text
ENDINGS = {"failed": 3, "stuck": 3, "limit": 8}  # how a script may end early, and the status
ESCAPES = {"t": "\t", "r": "\r", "\\": "\\", '"': '"'}
END = "--"  # the line that ends a block
CLOSED = Path()  # stands for an output that is a pipe which nobody reads


class Unreadable(Exception):
    """What is wrong with a table that cannot be read."""


@dataclass(frozen=True)
class Torn:
    """Bytes behind which the next read or write fails."""

    text: bytes


@dataclass(frozen=True)
class Case:
    """One run of the program and what it must give."""

    place: str
    name: str
    words: list[bytes]
    source: bytes | Torn | Path  # standard input: its bytes, or what is opened for it
    output: bytes | Torn | Path | None  # its bytes, what is opened for it (or CLOSED) and not compared, or None: any legal journal
    status: int
    whole: bool = False  # whether it stands in full; such a case is run by the launcher
    program: str = "gaspirun"  # the program that is run
    once: tuple[bytes, ...] = ()  # what each stands in exactly one line of the journal, where any legal one will do
    pictured: bool = False  # whether it is the pictures of a journal that are judged, by what `check` says of it


def under_seeds(place: str, name: str, world: bytes) -> Iterator[Case]:
    """What `step` writes of a world under each seed must be legal."""
    for seed in SEEDS:
        words = [b"step", b"--limit", b"1000", b"--seed", seed.encode()]
        yield Case(place, f"{name}: what step --seed {seed} writes is legal", words, world, None, 0)


def encoded(text: str) -> bytes:
    return text.encode("utf-8", "surrogateescape")


def escaped(text: str) -> str:
    """A text that is written in one line: `|` is a line feed, and a backslash begins an escape."""

    def meant(found: re.Match[str]) -> str:
        byte, repeated, times, last, single, bar = found.groups()
        if byte:
            return bytes.fromhex(byte).decode("utf-8", "surrogateescape")
        if repeated and last:
            return "".join(escaped(repeated.replace("@", str(number))) for number in range(int(times), int(last) + 1))
        if repeated:
            return escaped(repeated) * int(times)
        if not bar and single not in ESCAPES:
            raise Unreadable(f"unknown escape in {text}")
        return "\n" if bar else ESCAPES[single]

    return re.sub(r"\\(?:x([0-9a-f]{2})|\{([^*]+)\*(\d+)(?:\.\.(\d+))?\}|(.?))|(\|)", meant, text)


def words_of(text: str) -> list[bytes]:
    """The words of a command: parted by blanks, or in double quotes with escapes."""
    words = []
    for quoted, plain in re.findall(r'"((?:[^"\\]|\\.)*)"(?=\s|$)|(\S+)', text):
        if '"' in plain:
            raise Unreadable(f"a quote inside the word {plain}")
        words.append(encoded(plain or escaped(quoted)))
    return words


def parted(row: str) -> tuple[str, str]:
    """What stands before the first colon of a row and what stands behind it, without one blank between."""
    before, colon, behind = row.partition(":")
    if not colon:
        raise Unreadable(f"no colon in {row}")
    return before, behind[1:] if behind.startswith(" ") else behind


class Table:
    """A table, read line by line."""

    def __init__(self, path: Path, titles: set[str]) -> None:
        self.path = path
        self.lines: list[str] = []
        self.taken = 0
        self.texts: dict[str, str] = {}
        self.titles = titles  # the names of the cases so far, of other tables too

    def place(self) -> str:
        """The place of the line that was taken last."""
        return f"{os.path.relpath(self.path, TOP)}:{self.taken}"

    def cases(self) -> Iterator[Case]:
        """All cases of the table."""
        self.lines = self.path.read_bytes().decode("utf-8", "surrogateescape").split("\n")
        sections = {
            "case": self.case,
            "stepped": self.stepped,
            "pictured": self.pictured,
            "raced": self.raced,
            "told": self.told,
            "scripts": self.scripts,
            "calls": self.calls,
            "journals": self.journals,
            "no-journals": self.no_journals,
            "faults": self.faults,
            "line-faults": self.line_faults,
            "cuts": self.cuts,
            "journal-cuts": self.journal_cuts,
            "torn": self.torn,
        }
        while self.taken < len(self.lines):
            word, _, rest = self.take().partition(" ")
            if word == "text":
                if not rest or rest in self.texts:
                    raise Unreadable(f"a text needs a name of its own: {rest}")
                self.texts[rest] = self.block()
            elif word in sections:
                yield from sections[word](rest)
            elif word and not word.startswith("#"):
                raise Unreadable(f"unknown word {word}")

    def take(self) -> str:
        if self.taken == len(self.lines):
            raise Unreadable("the table ends too early")
        self.taken += 1
        return self.lines[self.taken - 1]

    def block(self) -> str:
        """A text that stands verbatim up to the end of the block."""
        lines = []
        while (line := self.take()) != END:
            lines.append(line + "\n")
        return "".join(lines)

    def rows(self) -> Iterator[str]:
        """The lines up to the end of the block, without comments and empty lines."""
        yield from filter(None, self.rows_and_gaps())

    def rows_and_gaps(self) -> Iterator[str]:
        """The same with the empty lines, and one more at the end."""
        while (line := self.take()) != END:
            if not line.startswith("#"):
                yield line
        yield ""

    def text(self, name: str) -> str:
        if name not in self.texts:
            raise Unreadable(f"no text has the name {name}")
        return self.texts[name]

    def new_title(self, name: str) -> str:
        if not name or name in self.titles:
            raise Unreadable(f"a case needs a name of its own: {name}")
        self.titles.add(name)
        return name

    def next_word(self) -> str:
        """The first word of the next line that is no comment, which is not taken."""
        while self.taken < len(self.lines) and self.lines[self.taken].startswith("#"):
            self.taken += 1
        return self.lines[self.taken].split(" ")[0] if self.taken < len(self.lines) else ""

    def part(self, wanted: str) -> str:
        """What stands behind the word of the next line that is no comment; it must be this word."""
        self.next_word()
        word, _, rest = self.take().partition(" ")
        if word != wanted:
            raise Unreadable(f"wanted {wanted}, found {word}")
        return rest

    def case(self, name: str) -> Iterator[Case]:
        """Words, input, output and status, of a program where it is named; each further line of words is one more run."""
        place, title = self.place(), self.new_title(name)
        program = self.part("program") if self.next_word() == "program" else "gaspirun"
        all_words = [self.part("words")]
        while self.next_word() == "words":
            all_words.append(self.part("words"))
        source = self.stream(self.part("input"))
        said = self.part("output")
        output = CLOSED if said == "closed" else self.stream(said)
        status = self.part("status")
        if not status.isdigit():
            raise Unreadable(f"no number of a status: {status}")
        for words in all_words:
            yield Case(place, f"{title}: {words}", words_of(words), source, output, int(status), True, program=program)

    def stream(self, said: str) -> bytes | Path:
        """What is said of an input or an output: its bytes, or what is opened for it."""
        how, _, rest = said.partition(" ")
        if said == "":
            return encoded(self.block())
        if said == "lines":
            return encoded(escaped(self.block()))
        if said == "nothing":
            return b""
        if how == "line":
            return encoded(escaped(rest))
        if how == "text":
            return encoded("".join(self.text(name) for name in rest.split(" ")))
        if how == "file":
            return b"".join((TOP / path).read_bytes() for path in rest.split(" "))
        if how == "opened" and rest:
            return TOP / rest
        raise Unreadable(f"unknown word {how}")

    def row(self, name: str, words: str, source: str, output: str, status: int) -> Case:
        return Case(self.place(), name, words_of(words), encoded(source), encoded(output), status)

    def stepped(self, name: str) -> Iterator[Case]:
        """A world of which nothing is said but that what `step` writes is legal."""
        place, title = self.place(), self.new_title(name)
        yield from under_seeds(place, title, encoded(self.block()))

    def pictured(self, folder: str) -> Iterator[Case]:
        """Each world of a folder, with the journal that `step` writes of it, and each journal behind its world: their pictures."""
        place = self.place()
        for path in sorted((TOP / folder).glob("*.world")) + sorted((TOP / folder).glob("*.check")):
            words = [b"step"] if path.suffix == ".world" else []
            yield Case(place, f"the pictures of {path.relative_to(TOP)}", words, path.read_bytes(), None, 0, True, pictured=True)

    def raced(self, name: str) -> Iterator[Case]:
        """A world that is run on threads again and again: each journal is legal, and has each text in one line.

        Behind `NUMBER times by WORKERS:` it is run so often with so many workers.
        """
        own = re.fullmatch(r"(\d+) times by ([1-4]): (.+)", name)
        races, name = (RACES | {int(own[2]): int(own[1])}, own[3]) if own else (RACES, name)
        place, title, world = self.place(), self.new_title(name), encoded(self.block())
        once = tuple(encoded(row) for row in self.rows())
        for workers, times in races.items():
            words = [b"run", b"--limit", b"100000000", b"--workers", b"%d" % workers]
            for turn in range(1, times + 1):
                yield Case(place, f"{title}: workers {workers}, run {turn}", words, world, None, 0, once=once)

    def told(self, name: str) -> Iterator[Case]:
        """A world with what its callers are told, whoever comes first: each line of theirs is `LINE -> REPLY`.

        Callers stand by rank, then thread. What is repeated may have many lines.
        """
        place, title = self.place(), self.new_title(name)
        lines = escaped("\n".join(self.rows())).removesuffix("\n").split("\n")
        source, output, caller, ending, statuses = "", "", "", "ended", {0}
        for number, row in enumerate(lines, 1):
            line, *replies = row.split(" -> ")
            source += f"{line}\n"
            begun = re.fullmatch(r"rank (\d+) thread (\d)", line)
            if begun and caller:
                output += f"{caller} {ending}\n"
            if begun:
                caller, ending = f"{begun[1]}.{begun[2]}", "ended"
            elif bool(replies) != bool(caller and ending == "ended"):
                raise Unreadable(f"a line with no reply, or with one behind the end: {row}")
            if replies and replies[-1] in ENDINGS:
                statuses.add(ENDINGS[replies[-1]])
                ending = f"{replies.pop()} {number}"
            output += "".join(f"{caller} {number} {reply}\n" for reply in replies)
        output += f"{caller} {ending}\n" if caller else ""
        status = next(it for it in (3, 8, 0) if it in statuses)
        for words in TOLD:
            yield Case(place, f"{title}: {words}", words_of(words), encoded(source), encoded(output), status)
        words = "run --limit 100000000 --workers 4"
        yield Case(place, f"{title}: what {words} writes is legal", words_of(words), encoded(source), None, 0)

    def scripts(self, world: str) -> Iterator[Case]:
        """Scripts of 0.0 behind a world, parted by empty lines."""
        script: list[str] = []
        for row in self.rows_and_gaps():
            if row:
                script.append(row)
            elif script:
                yield self.script(world, script)
                script = []

    def calls(self, behind: str) -> Iterator[Case]:
        """Rows of a world and one line, which is a script of its own."""
        if behind:
            raise Unreadable(f"unknown word {behind}")
        for row in self.rows():
            world, _, line = row.partition(" ")
            yield self.script(world, [line])

    def script(self, world: str, rows: list[str]) -> Case:
        """One script: each line is `LINE -> REPLY`, with a reply for each try and maybe how the run ended there."""
        source, told, ending = self.text(world), "", ""
        for number, row in enumerate(rows, source.count("\n") + 1):
            line, *replies = row.split(" -> ")
            if bool(replies) == bool(ending):
                raise Unreadable(f"a line with no reply, or with one behind the end: {row}")
            source += escaped(line) + "\n"
            if replies and replies[-1] in ENDINGS:
                ending = f"{replies.pop()} {number}"
            told += "".join(f"0.0 {number} {escaped(reply)}\n" for reply in replies)
        status = ENDINGS[ending.split(" ")[0]] if ending else 0
        return self.row(rows[0], "step --brief", source, f"{told}0.0 {ending or 'ended'}\n", status)

    def journals(self, world: str) -> Iterator[Case]:
        """Journals over a world, parted by empty lines.

        `not EVENT: WHY` is no step at its place, and `why K: WRITES` is what the whole journal says of place K.
        """
        front = self.text(world) + "journal 1\n"
        events, place = "", 0
        asked: list[Case] = []
        for row in self.rows_and_gaps():
            if row.startswith("not "):
                event, colon, why = row[4:].rpartition(": ")
                if not colon:
                    raise Unreadable(f"no cause in {row}")
                journal = f"{front}{events}{place} {event}\nend {place + 1}\n"
                for words in JUDGES:
                    yield self.row(f"{words}: {row}", words, journal, f"illegal {place} {why}\n", 4)
            elif row.startswith("why "):
                asked.append(self.explained(row))
            elif row:
                events, place = f"{events}{place} {row}\n", place + 1
            else:
                journal = f"{front}{events}end {place}\n"
                yield self.row("the journal that ends here", "check", journal, f"legal {place}\n", 0)
                yield from (replace(case, source=encoded(journal)) for case in asked)
                events, place, asked = "", 0, []

    def explained(self, row: str) -> Case:
        """A row `why K: WRITES`, whose journal does not stand yet."""
        words, told = parted(row)
        place = words.removeprefix("why ")
        if told == "none":
            return self.row(row, f"why --place {place}", "", f"no notification {place}\n", 4)
        writes = told.split(", ") if told else []
        lines = [f"why {place} writes {len(writes)}", *writes]
        return self.row(row, f"why --place {place}", "", "".join(f"{line}\n" for line in lines), 0)

    def no_journals(self, world: str) -> Iterator[Case]:
        """Rows `LINE: TEXT` of texts behind a world that are no journal."""
        for row in self.rows():
            line, text = parted(row)
            for words in JUDGES:
                yield self.row(f"{words}: {row}", words, self.text(world) + escaped(text), f"not a journal {line}\n", 4)

    def faults(self, words: str) -> Iterator[Case]:
        """Rows `FAULT: TEXT` of world texts with a fault, for these words or for all commands."""
        for row in self.rows():
            fault, text = parted(row)
            for asked in [words] if words else COMMANDS:
                yield self.row(f"{asked}: {row}", asked, escaped(text), f"fault {fault}\n", 2)

    def line_faults(self, world: str) -> Iterator[Case]:
        """Rows `FAULT: LINE` of one line behind a world text that has this fault."""
        front = self.text(world)
        number = front.count("\n") + 1
        for row in self.rows():
            fault, line = parted(row)
            for asked in COMMANDS:
                text = f"{front}{escaped(line)}\n"
                yield self.row(f"{asked}: {row}", asked, text, f"fault {fault} line {number}\n", 2)

    def cuts(self, name: str) -> Iterator[Case]:
        """Rows `FIRST..LAST STATUS: OUTPUT` of a world text cut after so many of its bytes, from none to all.

        A fault is that of all commands. Where there is none, `run` gives what `step` gives, and no journal follows.
        """
        text, next_cut = self.text(name), 0
        for row in self.rows():
            said, output = parted(row)
            found = re.fullmatch(r"(\d+)\.\.(\d+) (\d+)", said)
            if not found or int(found[1]) != next_cut:
                raise Unreadable(f"wanted {next_cut}..LAST STATUS: OUTPUT")
            status = int(found[3])
            for cut in range(next_cut, int(found[2]) + 1):
                title, front = f"the first {cut} bytes", text[:cut]
                for words in COMMANDS if status == 2 else ("step --brief", "run --brief --limit 100000000"):
                    yield self.row(f"{words}: {title}", words, front, escaped(output), status)
                for words in () if status == 2 else JUDGES:
                    yield self.row(f"{words}: {title}", words, front, f"not a journal {len(front.splitlines()) + 1}\n", 4)
            next_cut = int(found[2]) + 1
        if next_cut != len(text) + 1:
            raise Unreadable(f"the rows end with {next_cut - 1} bytes, and the text with {len(text)}")

    def journal_cuts(self, world: str) -> Iterator[Case]:
        """A legal journal behind a world text, cut after each of its bytes, from none to all.

        The line is named that is cut, or the one behind the last line feed. A prefix of its first word is a line of
        the world text.
        """
        front, journal = self.text(world), self.block()
        for cut in range(len(journal)):
            text = front + journal[:cut]
            line = text.count("\n") + 1
            output, status = (f"fault S3 line {line}\n", 2) if 0 < cut < len("journal") else (f"not a journal {line}\n", 4)
            for words in JUDGES:
                yield self.row(f"{words}: the first {cut} bytes", words, text, output, status)
        yield self.row("check: the whole journal", "check", front + journal, f"legal {journal.count(chr(10)) - 2}\n", 0)

    def torn(self, names: str) -> Iterator[Case]:
        """Rows `WORDS STATUS: OUTPUT` of what a command gives of texts, or, without their names, of what reads nothing.

        Where a read fails behind a prefix of the texts, nothing is written; where a write fails behind a prefix of
        the output, that is all.
        """
        source = "".join(self.text(name) for name in names.split(" ") if names)
        for row in self.rows():
            said, output = parted(row)
            words, _, status = said.rpartition(" ")
            if not status.isdigit():
                raise Unreadable(f"no number of a status: {status}")
            whole = self.row(f"{words}: the whole", words, source, escaped(output), int(status))
            yield whole
            for count in range(len(whole.source) + 1) if names else ():
                title = f"{words}: a read fails behind {count} bytes"
                yield replace(whole, name=title, source=Torn(whole.source[:count]), output=b"", status=5)
            for count in range(len(whole.output)):
                title = f"{words}: a write fails behind {count} bytes"
                yield replace(whole, name=title, output=Torn(whole.output[:count]), status=6)


def read_tables(paths: list[Path]) -> tuple[list[Case], list[str]]:
    """The cases of all tables, and what is wrong with those that cannot be read."""
    cases: list[Case] = []
    wrong: list[str] = []
    titles: set[str] = set()
    for path in paths:
        table = Table(path, titles)
        try:
            found = list(table.cases())
            if not found:
                raise Unreadable("the table has no case")
            cases += found
        except (Unreadable, OSError) as fault:
            wrong.append(f"UNREADABLE {table.place()}: {fault}")
    return cases, wrong


def stepped_worlds(cases: list[Case]) -> Iterator[Case]:
    """Each world that a case of `step` runs to an end, once for each seed."""
    worlds: set[bytes] = set()
    for case in cases:
        ends = case.words[:1] == [b"step"] and case.status in (0, 3, 8) and case.output is not None
        if ends and isinstance(case.source, bytes) and case.source not in worlds:
            worlds.add(case.source)
            yield from under_seeds(case.place, case.name, case.source)


