"""Copies of a crate in which all functions but some are stubs: an empty body, and a hole for the proof. A check of such a copy judges
those some over the contracts of what they call, and proves nothing else once more."""

from __future__ import annotations

import re

from sources import Function, blanked, functions_in, module_of

# The one hole, and what a stub has for its proof.
HOLE = """\
pub hole : {A : Type 2} → A
hole = ?
"""
PROOF = """\
use Rattle.{crate}.proofs.TheHole.{{hole}}
use Rattle.{crate}.proofs.{module}.Statement.{{statement}}

pub {name}_spec : {{M : Type 1}} → statement M
{name}_spec = hole
"""
# What is put in place of a body, which no call reaches. The lines behind it keep their numbers.
STUB = "{{ unreachable!(){lines} }}"
TYPE = re.compile(r"\b(?:struct|enum)\s+(\w+)")
# A function with one of these has no proof of its own, or none at its own place.
NO_STUB = re.compile(r"#\[(?:cycle|test)\b")


def types_of(texts: dict[str, str]) -> dict[str, str]:
    """The types of a crate, each with its module."""
    return {name: module_of(path) for path, text in texts.items() if path.startswith("src/") for name in TYPE.findall(blanked(text))}


def folder_of(function: Function, types: dict[str, str]) -> str | None:
    """The folder of a function's proof below proofs/: that of a method is named by the module of the type, wherever the method stands."""
    *owner, name = function.name.removeprefix(f"{function.module}::").split("::")
    if not owner:
        return "/".join([*function.module.split("::"), name]) if function.module else name
    # The name of an impl of a trait begins with the type.
    kind = max((it for it in types if owner[-1].startswith(it)), key=len, default=None)
    return "/".join([*(it for it in types[kind].split("::") if it), owner[-1], name]) if kind else None


def with_stubs(crate: str, texts: dict[str, str], judged: set[str]) -> dict[str, str]:
    """The files of a crate in which all functions are stubs but those of these names."""
    new, types = dict(texts), types_of(texts)
    new["proofs/TheHole.antt"] = HOLE
    new["proofs/Lib.antt"] = texts.get("proofs/Lib.antt", "") + "\nmod TheHole\n"
    for path, text in texts.items():
        if not path.startswith("src/"):
            continue
        lines = text.split("\n")
        for function in reversed(functions_in(path, text)):
            folder = folder_of(function, types)
            if function.name in judged or not function.body or not folder or NO_STUB.search("\n".join(lines[function.first : function.behind])):
                continue
            for file in [it for it in new if it.startswith(f"proofs/{folder}/") and it.count("/") == folder.count("/") + 2]:
                del new[file]
            name = function.name.rpartition("::")[2]
            new[f"proofs/{folder}/Proof.antt"] = PROOF.format(crate=crate, module=folder.replace("/", "."), name=name)
            first, behind = function.body
            text = text[:first] + STUB.format(lines="\n" * text.count("\n", first, behind)) + text[behind:]
        new[path] = text
    return new
