"""Checks of a crate by Rattle, over built libraries, and what they say of each function."""

from __future__ import annotations

import os
import re
import shutil
import subprocess
import tempfile
import threading
import time
from dataclasses import dataclass, field
from pathlib import Path

from edits import PARTS, Function, texts_of, write

MASKED = re.compile(r"no proof: it calls `([^`]+)`, which is not proved")

# An error at a named declaration of src/ or specs/ says that its text cannot be read, where it has these words, and else
# that what it states is false.
UNREAD = re.compile(r"is not in scope|has no field|is no name|operand is missing|expected the end|cannot continue")


@dataclass
class Libraries:
    """The crates of a repository, and where their libraries are built."""

    top: Path  # the clone whose crates/*/out/rlib are used
    below: dict[str, list[str]]  # what each crate names, as crates.txt has it
    kit: Path
    turns: threading.Semaphore  # held during a check

    @classmethod
    def of(cls, top: Path, crates: Path, jobs: int) -> Libraries:
        lines = [it.partition("#")[0] for it in crates.read_text().splitlines()]
        halves = [it.split(":") for it in lines if ":" in it]
        return cls(top, {it[0].split()[0]: it[1].split() for it in halves}, kit(), threading.Semaphore(jobs))

    def own_below(self, crate: str) -> list[str]:
        """The repository's crates below this one, each once."""
        found: dict[str, None] = {}
        for name in self.below[crate]:
            if name in self.below:
                found |= dict.fromkeys([*self.own_below(name), name])
        return list(found)

    def library(self, crate: str) -> Path:
        return self.top / "crates" / crate / "out" / "rlib" / f"{crate}.rlib"

    def is_proved(self, crate: str, texts: dict[str, str]) -> bool:
        """Whether the library there is of these files, and was put there after each of them."""
        folder, library = self.top / "crates" / crate, self.library(crate)
        if not library.is_dir() or texts_of(folder) != texts:
            return False
        # The files of a library may be older, where rt ci keeps it from an earlier run.
        since = max(it.stat().st_mtime for it in (library, library.parent))
        return all((folder / it).stat().st_mtime <= since for it in texts)

    def words(self, crate: str, root: str) -> list[str]:
        """What `rattle check` is given to check the crate over the libraries."""
        kept = self.kit / "rlibs"
        outer = ["std", *[it for it in self.below[crate] if it not in self.below]]
        words = [str(self.kit / "bin" / "rattle"), "check", "--crate-name", crate, root]
        words += [word for it in outer for word in ("--extern", f"{it}={kept / it}.rlib")]
        words += ["-L", f"dependency={kept}"]
        words += [word for it in self.below[crate] if it in self.below for word in ("--extern", f"{it}={self.library(it)}")]
        words += [word for it in self.own_below(crate) for word in ("-L", f"dependency={self.library(it).parent}")]
        words += ["--antt-project", str(self.kit / "rattle" / "logic" / "antt-project.json")]
        return [*words, "--logic-built", str(self.kit / "logic_built"), "--links", f"{crate}=", "--jobs", "1"]


def kit() -> Path:
    """The folder of the kit whose `rt` is the first on the path."""
    said = subprocess.run(["rt", "doc"], capture_output=True, text=True).stdout.split()
    page = next((Path(it) for it in said if it.endswith("START-HERE.md")), None)
    if page is None:
        raise SystemExit("rt doc does not name the kit's first page")
    return page.parent


@dataclass
class Said:
    """What a check said of one function."""

    verdict: str
    goals: list[str] = field(default_factory=list)
    seconds: float = 0  # what its proof, or the search for one, took

    @property
    def masked_by(self) -> str | None:
        found = MASKED.match(self.verdict)
        return found[1] if found else None

    @property
    def is_proved(self) -> bool:
        """Whether it is proved, or would be with the proofs of the stubs."""
        return self.verdict.startswith(("proved", "no holes", "depends on a hole"))

    @property
    def is_at_limit(self) -> bool:
        return self.verdict.startswith("could not tell")

    @property
    def is_uncovered(self) -> bool:
        """Whether its form is one that the borrow checker does not cover, so that nothing of its meaning is judged."""
        return self.verdict.startswith("no proof: ") and "the borrow checker does not cover" in self.verdict


@dataclass
class Check:
    """What a check said: of each function, of each line that could not be compiled or read, and the status."""

    status: int
    output: str
    functions: dict[str, Said]
    unread: list[tuple[str, int, str]]  # a path, a line and what is wrong there
    has_ended: bool  # whether each function that was asked for has a verdict
    seconds: float = 0

    def of(self, crate: str, function: Function) -> dict[str, Said]:
        """What is said of a function and of the closures in it, by their names."""
        inner = re.sub(r"(\w+)\Z", r"fn::\1", function.name)
        is_own = lambda name: name.startswith(f"{crate}::") and (name.endswith(f"::{function.name}") or f"::{inner}::" in name)
        return {name: said for name, said in self.functions.items() if is_own(name)}


def parsed(crate: str, status: int, output: str) -> Check:
    functions: dict[str, Said] = {}
    unread, goals, errors = [], [], []
    lines = output.splitlines()
    for place, line in enumerate(lines):
        if found := re.match(r"fn (\S+): (.+)", line):
            said = functions[found[1]] = Said(found[2], goals)
            folder = found[1].removeprefix(f"{crate}::").replace("::", "/")
            # What cites a refused proof is not refused of itself.
            said.goals += [text for path, text in errors if path == folder and "was not admitted" not in text]
            goals = []
        elif found := re.match(r"note: (src/\S+:\d+):\d+: (.*)", line):
            goals.append(found[2])
        elif found := re.match(r"(?:\./)?proofs/(.*)/\w+\.antt:\d+:\d+: error: (.*)", line):
            errors.append((found[1], found[2]))
        elif found := re.match(r"(?:\./)?((?:src|specs)/[^:\s]+):(\d+):\d+: error(\[[\w-]+\])?: (.*)", line):
            is_named = re.match(r"`[^`]*`: ", found[4])
            if found[3] or not is_named or UNREAD.search(re.sub(r"`[^`]*`", "", found[4])):
                unread.append((found[1], int(found[2]), found[4]))
        elif re.match(r"error(?:\[[\w-]+\])?[: ]", line):
            at = next((re.search(r"(src/[^:\s]+):(\d+)", it) for it in lines[place : place + 3] if re.search(r"src/[^:\s]+:\d+", it)), None)
            unread.append((at[1] if at else "", int(at[2]) if at else 0, line))
    ended = re.search(r"^(only=\d+ |logic=)", output, re.M) is not None
    return Check(status, output, functions, unread, ended)


def check(libraries: Libraries, crate: str, texts: dict[str, str], only: list[str], has_stubs: bool = False) -> Check:
    """Checks these files in a folder of their own: the functions named, or all where none is named. Proofs may be holes where there are
    stubs."""
    with libraries.turns, tempfile.TemporaryDirectory(prefix="wrong-bodies-") as room:
        began = time.monotonic()
        here = Path(room)
        write(here, texts)
        root = "src/main.rt" if "src/main.rt" in texts else "src/lib.rt"
        words = libraries.words(crate, root) + [word for it in only for word in ("--only", it)] + ["--allow-holes"] * has_stubs
        # What a check of the same crate kept is taken from a copy.
        if copied(libraries.top / "crates" / crate / "out" / "incremental", here / "kept"):
            words += ["--incremental", "kept"]
        lines, seconds, last = [], {}, time.monotonic()
        how = {"stdin": subprocess.DEVNULL, "stdout": subprocess.PIPE, "stderr": subprocess.STDOUT, "text": True, "errors": "replace"}
        with subprocess.Popen([*words, "--progress"], cwd=here, **how) as ran:
            for line in ran.stdout:
                lines.append(line)
                if found := re.match(r"checked (\S+), \d+ of \d+", line):
                    seconds[found[1]], last = time.monotonic() - last, time.monotonic()
        found = parsed(crate, ran.returncode, "".join(lines))
        found.seconds = time.monotonic() - began
    for name, said in found.functions.items():
        said.seconds = seconds.get(name, seconds.get(name.removeprefix(f"{crate}::"), 0))
    return found


def copied(kept: Path, to: Path) -> bool:
    """Whether there was kept work to copy, which another check may write just then."""
    try:
        shutil.copytree(kept, to, symlinks=True, copy_function=link)
    except (OSError, shutil.Error):
        shutil.rmtree(to, ignore_errors=True)
    return to.is_dir()


def link(one: str, other: str) -> str:
    """Gives a file of kept work a second name: a check replaces such a file, and changes none."""
    try:
        os.link(one, other)
    except OSError:
        shutil.copy2(one, other)
    return other
