"""Which function each line of a source file belongs to, by the name that `rattle check --only` takes."""

from __future__ import annotations

import re
from dataclasses import dataclass

# Comments, texts and characters, in which no brace counts. A `'` behind a letter is a part of a name of a clause.
QUIET = re.compile(
    r"""//[^\n]*|/\*.*?\*/|\bb?r(\#*)".*?"\1|"(?:\\.|[^"\\])*"|(?<![\w'])b?'(?:\\(?:x[0-9a-fA-F]{2}|u\{[^}]*\}|.)|[^'\\\n])'""",
    re.DOTALL | re.VERBOSE,
)
TOKEN = re.compile(r"\b(fn|impl|trait|mod)\b|[{};]")
# What stands right before the braces of a clause, which are not those of the body.
CLAUSE = re.compile(r"\b(?:requires|ensures)\*?(?:\s+[\w-]+)?\s*\Z|\bghost\s[^{}]*[:=]\s*\Z")


@dataclass(frozen=True)
class Function:
    """A function of a source file, with the comments and attributes above it."""

    name: str  # its path below the crate; of a method its type and its name, wherever the type stands
    module: str  # the path of its file or module
    first: int  # its first line, from 0
    behind: int  # the line behind its last
    is_of_trait: bool = False  # whether it stands in a trait or in an impl of one
    body: tuple[int, int] | None = None  # where its body begins in the text of its file, and the place behind it


def blanked(text: str) -> str:
    """The text with blanks in place of comments, texts and characters, line by line as long as before."""
    return QUIET.sub(lambda found: re.sub(r"[^\n]", " ", found[0]), text)


def module_of(path: str) -> str:
    """The module of a file below src/, `` for the root."""
    parts = path.removeprefix("src/").removesuffix(".rt").split("/")
    return "::".join(parts[:-1] if parts[-1] in ("lib", "main", "mod") else parts)


def closed(text: str, start: int) -> int:
    """The place behind the brace that closes the one at `start`."""
    depth = 0
    for found in re.compile(r"[{}]").finditer(text, start):
        depth += 1 if found[0] == "{" else -1
        if not depth:
            return found.end()
    return len(text)


def without_generics(text: str) -> str:
    text = text.replace("->", "  ")
    while re.search(r"<[^<>]*>", text):
        text = re.sub(r"<[^<>]*>", "", text)
    return text


def impl_name(header: str) -> str:
    """`Type` for `impl Type`, `TypeTrait` for `impl Trait for Type` and `TypeTraitArgument` for `impl Trait<Argument> for Type`,
    as a check prints it."""
    last = lambda words: (re.findall(r"(?<!')\b[A-Za-z]\w*", words) or [""])[-1]
    trait, _, named = re.sub(r"\A\s*<[^<>]*(?:<[^<>]*>[^<>]*)*>", "", header).rpartition(" for ")
    arguments = re.search(r"<(.*)>", trait)
    given = [last(without_generics(it)) for it in arguments[1].split(",")] if arguments else []
    return last(without_generics(named)) + last(without_generics(trait)) + "".join(given)


def functions_in(path: str, text: str) -> list[Function]:
    quiet, found = blanked(text), []
    line = lambda place: quiet.count("\n", 0, place)

    def body_of(start: int) -> tuple[int, int]:
        """Where the body begins of a function whose name ends at `start`, and the place behind it. Both are the same without a body."""
        place = start
        for token in iter(lambda: re.compile(r"[{;]").search(quiet, place), None):
            before, place = quiet[place : token.start()], token.end()
            if token[0] == ";" and before.count("[") <= before.count("]"):
                return place, place
            if token[0] == "{":
                place = closed(quiet, token.start())
                if not CLAUSE.search(before):
                    return token.start(), place
        return len(quiet), len(quiet)

    def items(start: int, end: int, module: str, prefix: str, is_of_trait: bool = False) -> None:
        above = place = start
        while token := TOKEN.search(quiet, place, end):
            place = token.end()
            if token[0] == ";":
                above = place
            elif token[0] == "{":
                above = place = closed(quiet, token.start())
            elif token[0] == "fn":
                name = re.compile(r"\s*(\w+)").match(quiet, place)
                if not name:
                    continue
                opens, place = body_of(name.end())
                # The lines above it begin behind the last item.
                first = line(above) + (1 if "\n" in quiet[above : token.start()] else 0)
                path_of = "::".join(it for it in (prefix, name[1]) if it)
                found.append(Function(path_of, module, first, line(place - 1) + 1, is_of_trait, (opens, place) if opens < place else None))
                above = place
            elif token[0] in ("impl", "trait", "mod"):
                opens = re.compile(r"[{;]").search(quiet, place, end)
                if not opens or opens[0] == ";":
                    continue
                header, stop = quiet[place : opens.start()], closed(quiet, opens.start())
                word = impl_name(header) if token[0] == "impl" else re.search(r"\w+", header)[0]
                inner = "::".join(it for it in (module, word) if it)
                of_trait = token[0] == "trait" or " for " in header
                items(opens.end(), stop - 1, *((inner, inner, is_of_trait) if token[0] == "mod" else (module, word, of_trait)))
                above = place = stop

    items(0, len(quiet), module_of(path), module_of(path))
    return found
