"""Wrong bodies: files that change a crate, what each changes, and those that can stand in one copy."""

from __future__ import annotations

import re
import subprocess
import tempfile
from dataclasses import dataclass, field
from difflib import SequenceMatcher
from pathlib import Path

from sources import Function, blanked, functions_in

PARTS = ("src", "specs", "proofs")


class NotApplied(Exception):
    """Why a wrong body does not fit the crate as it stands."""


@dataclass(frozen=True)
class Hunk:
    """Lines of a file, from 0, and those that take their place."""

    path: str
    first: int
    behind: int
    lines: tuple[str, ...]

    def meets(self, other: Hunk) -> bool:
        """Whether both cannot stand in one copy."""
        apart = self.behind < other.first or other.behind < self.first
        return self.path == other.path and not apart


@dataclass(frozen=True)
class Twin:
    """A wrong body in a function of its own, behind the right one, with a copy of the proof that it has in files."""

    function: Function
    hunk: Hunk
    proof: dict[str, str]


@dataclass
class WrongBody:
    """A wrong body of a crate, as its file has it."""

    crate: str
    name: str
    file: Path
    texts: dict[str, str] = field(default_factory=dict)  # the crate's files with it
    hunks: list[Hunk] = field(default_factory=list)
    functions: list[Function] = field(default_factory=list)
    is_whole: bool = False  # whether only a check of the whole crate can tell
    is_alone: bool = False  # whether it changes more than bodies
    twin: Twin | None = None  # where it is tried beside the right body, which others call

    @property
    def label(self) -> str:
        return f"{self.crate}/{self.name}"

    @property
    def judged(self) -> list[Function]:
        """The functions that tell of it."""
        return [self.twin.function] if self.twin else self.functions

    @property
    def placed(self) -> list[Hunk]:
        """The lines that it puts into a copy."""
        return [self.twin.hunk] if self.twin else self.hunks

    def fits_beside(self, other: WrongBody) -> bool:
        """Whether both can stand in one copy, each judged by its own functions."""
        if self.twin or other.twin:
            return bool(self.twin and other.twin)
        names = {it.name for it in self.functions}
        if self.is_alone or other.is_alone or names & {it.name for it in other.functions}:
            return False
        return not any(one.meets(two) for one in self.hunks for two in other.hunks)


def texts_of(folder: Path) -> dict[str, str]:
    """The files of a crate that a check reads, by their paths."""
    files = [it for part in PARTS for it in sorted((folder / part).rglob("*")) if it.is_file()]
    return {it.relative_to(folder).as_posix(): it.read_text(encoding="utf-8") for it in files}


def edited(texts: dict[str, str], edit: str) -> dict[str, str]:
    """The texts after the pairs of a must-fail edit, one after another, as `rt ci` reads them."""
    texts, path, old, pairs = dict(texts), "", "", 0
    for line in edit.split("\n"):
        word, _, rest = line.partition(":")
        if word == "file":
            path = rest.strip()
        elif word == "old":
            old = rest.removeprefix(" ")
        elif word == "new":
            if path not in texts:
                raise NotApplied(f"there is no file {path}")
            count = texts[path].count(old) if old else 0
            if count != 1:
                raise NotApplied(f"an old text stands in {path} {count} times, and not once")
            texts[path] = texts[path].replace(old, rest.removeprefix(" "))
            old, pairs = "", pairs + 1
    if not pairs:
        raise NotApplied("it has no old and new text")
    return texts


def patched(texts: dict[str, str], patch: Path, crate: str) -> dict[str, str]:
    """The texts after a patch, whose paths begin at the crate or at the top of the repository."""
    with tempfile.TemporaryDirectory(prefix="wrong-body-") as room:
        write(Path(room), texts)
        top = f"crates/{crate}/"
        strip = "-p3" if re.search(rf"^\+\+\+ \w/{top}", patch.read_text(encoding="utf-8"), re.M) else "-p1"
        words = ["git", "apply", strip, str(patch.resolve())]
        ran = subprocess.run(words, cwd=room, capture_output=True, text=True, env={"GIT_DIR": "/dev/null", "PATH": "/usr/local/bin:/usr/bin:/bin"})
        if ran.returncode:
            raise NotApplied((ran.stderr.strip().splitlines() or ["git apply refuses it"])[0])
        return texts_of(Path(room))


def write(folder: Path, texts: dict[str, str]) -> None:
    for path, text in texts.items():
        (folder / path).parent.mkdir(parents=True, exist_ok=True)
        (folder / path).write_text(text, encoding="utf-8")


def read(crate: str, file: Path, texts: dict[str, str]) -> WrongBody:
    """A wrong body with what it changes of these texts."""
    is_patch = file.suffix == ".patch"
    new = patched(texts, file, crate) if is_patch else edited(texts, file.read_text(encoding="utf-8"))
    body = WrongBody(crate, file.stem, file, new)
    for path in sorted(texts.keys() | new.keys()):
        if texts.get(path) == new.get(path):
            continue
        before, after = texts.get(path, "").split("\n"), new.get(path, "").split("\n")
        is_code = path.startswith("src/")
        body.is_alone |= not is_code or path not in texts or path not in new
        known, found = [functions_in(path, it.get(path, "")) if is_code else [] for it in (texts, new)]
        for kind, first, behind, start, stop in SequenceMatcher(None, before, after, autojunk=False).get_opcodes():
            if kind == "equal":
                continue
            body.hunks.append(Hunk(path, first, behind, tuple(after[start:stop])))
            if is_code:
                note(body, known, found, before, range(first, behind))
                note(body, found, found, after, range(start, stop))
    if not body.hunks:
        raise NotApplied("it changes nothing")
    body.is_whole |= not body.functions
    body.is_alone |= body.is_whole
    body.twin = None if body.is_alone else twin_of(body, texts)
    return body


def twin_of(body: WrongBody, texts: dict[str, str]) -> Twin | None:
    """The wrong body as a function beside the right one. None where it changes several, one of a trait, or one that calls itself."""
    path, right = body.hunks[0].path, body.functions[0]
    *owner, name = right.name.removeprefix(f"{right.module}::").split("::")
    wrong = [it for it in functions_in(path, body.texts[path]) if it.name == right.name]
    if len(body.functions) > 1 or right.is_of_trait or len(wrong) != 1:
        return None
    text = "\n".join(body.texts[path].split("\n")[wrong[0].first : wrong[0].behind])
    quiet = blanked(text)
    if re.search(rf"\b(?:self\.|Self::|{owner[-1]}::){name}\b" if owner else rf"(?<![.\w]){name}(?:::<|\()", quiet.replace(f"fn {name}", "")):
        return None
    new = f"{name}_{re.sub(r'[^a-z0-9]', '_', body.name)}"
    at = re.search(rf"\bfn\s+{name}\b", quiet).end()
    lines = tuple((text[: at - len(name)] + new + text[at:]).split("\n"))
    # A proof's folder is named by the module of the type, wherever the method stands.
    ending = "/".join([*(owner or right.module.split("::")), name])
    proof = {}
    for file, said in texts.items():
        if found := re.match(rf"proofs/((?:.*/)?{ending})/(.*)", file):
            was = found[1].replace("/", ".")
            here = file.removeprefix(f"proofs/{found[1]}")
            proof[f"proofs/{found[1].removesuffix(name)}{new}{here}"] = said.replace(f".proofs.{was}.", f".proofs.{was.removesuffix(name)}{new}.")
    function = Function(f"{right.name.removesuffix(name)}{new}", right.module, right.first, right.behind)
    return Twin(function, Hunk(path, right.behind, right.behind, lines), proof)


def note(body: WrongBody, known: list[Function], left: list[Function], lines: list[str], changed: range) -> None:
    """Adds the functions of the changed lines, and says whether other lines are changed."""
    names = {it.name for it in left}
    for number in changed:
        owner = next((it for it in known if it.first <= number < it.behind), None)
        if owner is None or owner.name not in names:
            # Such a line is there for the functions that are changed with it: where these are proved, the crate is tried whole.
            body.is_alone = True
        elif owner.name not in {it.name for it in body.functions}:
            body.functions.append(owner)


def merged(texts: dict[str, str], bodies: list[WrongBody]) -> tuple[dict[str, str], dict[str, list[tuple[int, int, WrongBody]]]]:
    """The texts with all these wrong bodies, and by path which lines, from 1, are whose."""
    is_there = len(bodies) == 1 and not bodies[0].twin
    texts, owners = dict(bodies[0].texts if is_there else texts), {}
    for body in bodies:
        texts |= body.twin.proof if body.twin else {}
    for path in {hunk.path for body in bodies for hunk in body.placed}:
        shift = 0
        lines = texts.get(path, "").split("\n")
        placed = sorted(((hunk.first, hunk.behind, hunk, body) for body in bodies for hunk in body.placed if hunk.path == path), key=lambda it: it[:2])
        for first, behind, hunk, body in placed:
            if not is_there:
                lines[first + shift : behind + shift] = hunk.lines
            owners.setdefault(path, []).append((first + shift + 1, first + shift + max(len(hunk.lines), 1), body))
            shift += len(hunk.lines) - (behind - first)
        if not is_there:
            texts[path] = "\n".join(lines)
    return texts, owners


def grouped(bodies: list[WrongBody], most: int) -> list[list[WrongBody]]:
    """As few groups as come easily, none with more than `most`, in each of which every two fit beside one another."""
    groups: list[list[WrongBody]] = []
    for body in bodies:
        fitting = (it for it in groups if len(it) < most and all(body.fits_beside(other) for other in it))
        group = next(fitting, None)
        if group is None:
            groups.append(group := [])
        group.append(body)
    return groups
