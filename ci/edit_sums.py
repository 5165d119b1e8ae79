"""A sum of all that the verdicts on a crate's edits rest on.

It is over the kit's logic, the crate's own sources, definitions, proofs and edits, and what these reach by a name in the crates below: definitions, lemmas,
types and contracts. What is reached names more in turn. A name is any word, so a word of two meanings reaches both. Not in the sum: comments,
but those of the crate's own sources; bodies below, functions that are a lower crate's own, answers to a function's goals below, how functions
below are proved, and what is inlined there. Where an import of contracts is written in its own file makes no difference.
"""
import functools
import hashlib
import os
import re
import subprocess
from typing import NamedTuple

# The files of proofs/ that have a function's own answers.
ANSWERS = ("Answers.antt", "Invariants.antt", "Proof.antt", "Send.antt")
FUNCTION = re.compile(r"^(?P<indent>[ \t]*)(?P<public>pub )?(?:pub\([a-z]+\) )?(?P<const>const )?fn (?P<name>\w+)")
IMPORT = re.compile(r"\s*ghost use (?P<path>[\w.]+)\.\{(?P<names>.*)\};$")
ALIAS = re.compile(r"\bas (\w[\w'-]*)")
# What begins an item of a source at the margin.
ITEM = re.compile(r"(?:pub(?:\([a-z]+\))? )?(?:unsafe )?(?:struct|enum|trait|type|const|static|macro_rules!) (?P<name>\w+)")
IMPL = re.compile(r"(?:unsafe )?impl\b")
# What begins a definition or a lemma at the margin, and each clause of it.
CLAUSE = re.compile(r"(?:(?:pub|abbrev|unfoldable|record|data|opaque|private) )*(?P<name>[^\W\d][\w'-]*)(?= |$)")
OPERATOR = re.compile(r"(?:(?:pub|abbrev|unfoldable) )*◌")
DECLARED = re.compile(r"(?m)^ {0,2}(?:(?:pub|abbrev|unfoldable|record|data|opaque|private) )*([^\W\d][\w'-]*) (?=.*:)")
WORD = re.compile(r"[^\W\d][\w'-]*")


class Piece(NamedTuple):
    """A part of a crate below that is in the sum where one of its names is reached, or always where it has none."""

    names: frozenset
    text: str


def sum_of(crate, home):
    """The sum of a crate whose edits are in the folder `home`."""
    total = hashlib.sha256(logic_of_kit())
    own = [(os.path.relpath(file, folder), own_text(file)) for file, folder in own_files(crate, home)]
    for named in own:
        total.update(repr(named).encode())
    below = crate.below()
    files = [(it.name, file) for it in below for file in files_of(it, [other for other in [*below, crate] if other is not it])]
    pieces = [(name, piece) for name, file in files for piece in pieces_of(file)]
    for piece in sorted(reached(pieces, [text for _, text in own])):
        total.update(repr(piece).encode())
    return total.hexdigest()[:32]


@functools.cache
def logic_of_kit():
    """The sum of the logic that `rt version` prints behind the kit's name. Kits of one logic differ in how they search, and a false clause has a
    proof in none of them."""
    version = subprocess.run(["rt", "version"], capture_output=True, check=True).stdout
    return version[version.index(b"logic ") :]


def own_files(crate, home):
    parts = [(crate.folder, it) for it in ("src", "specs", "proofs")] + [(home, it) for it in ("must-fail", "must-not-compile")]
    return [(file, folder) for folder, part in parts for file in files_below(f"{folder}/{part}")]


def reached(pieces, texts):
    """The crates' names and texts of the pieces that the texts reach, and what these reach in turn."""
    by_name, found = {}, set()
    for name, piece in pieces:
        for word in piece.names or [""]:
            by_name.setdefault(word, []).append((name, piece.text))
    left, seen = {"", *words_of(*texts)}, set()
    while left:
        seen |= left
        more = {it for word in left for it in by_name.get(word, ())} - found
        found |= more
        left = words_of(*(text for _, text in more)) - seen
    return found


def words_of(*texts):
    """The words of the texts. One with a hyphen or a prime is also each of its parts."""
    whole = {it for text in texts for it in WORD.findall(text)}
    return whole | {part for it in whole for part in re.split(r"[-']", it) if part}


@functools.cache
def pieces_of(file):
    """The pieces of a file of a crate below."""
    if file.endswith(".rt"):
        return pieces_of_source(seen_above(lines_of(file)))
    lines = [it for it in lines_of(file) if it and not it.lstrip().startswith("--") and not re.match(r"(pub )?mod ", it)]
    aliases = [Piece(frozenset(ALIAS.findall(it)), it) for it in lines if it.startswith("use ") and ALIAS.search(it)]
    lines = [it for it in lines if not it.startswith("use ")]
    text = "\n".join(lines)
    if any(OPERATOR.match(it) for it in lines):
        return [*aliases, Piece(frozenset(), text)]
    if any(it.startswith("module ") for it in lines):
        return [*aliases, Piece(frozenset(DECLARED.findall(text)), text)]
    return [*aliases, *pieces_by_clauses(lines)]


def pieces_by_clauses(lines):
    """A piece for each definition or lemma: its type, and the clauses behind it, which have the same name."""
    groups = []
    for line in lines:
        found = CLAUSE.match(line)
        is_inside = not found or found["name"] == "unfolding" or (groups and found["name"] == groups[-1][0])
        if is_inside and groups:
            groups[-1][1].append(line)
        else:
            groups.append((found["name"] if found else "", [line]))
    return [Piece(frozenset([name] if name else []), "\n".join(group)) for name, group in groups]


def pieces_of_source(lines):
    """A piece for each function that is seen above, for each type, and for each block of what is implemented, which has the type's name."""
    imports, lines = apart(lines)
    aliases = [Piece(frozenset(ALIAS.findall(it)), it) for it in imports if ALIAS.search(it)]
    groups, before, impl = [], [], None
    for line in lines:
        text = line.strip()
        if not text or text.startswith(("//", "#[inline", "#[tactic", "#![")) or re.match(r"(pub(\([a-z]+\))? )?mod ", text):
            continue
        if text.startswith("#["):
            before.append(line)
            continue
        function, item = FUNCTION.match(line), ITEM.match(line)
        if IMPL.match(line):
            impl = " for " in line
            groups.append((impl_name(line), [*before, line]))
        elif function and not (impl and function["indent"]):
            groups.append((function["name"], [*before, line]))
        elif item:
            # the functions of a trait belong to it
            impl = "trait " in line
            groups.append((item["name"], [*before, line]))
        elif groups:
            groups[-1][1].extend([*before, line])
        else:
            groups.append(("", [line]))
        before = []
        if line.startswith("}"):
            impl = None
    return [*aliases, *(Piece(frozenset([name] if name else []), "\n".join(group)) for name, group in groups)]


def apart(lines):
    """The imports of a source, each as one line, and its other lines."""
    imports, others, is_open = [], [], False
    for line in lines:
        is_first = re.match(r"\s*(pub(\([a-z]+\))? |ghost )?use ", line)
        if is_first or is_open:
            imports[len(imports) - is_open :] = [" ".join([*imports[len(imports) - is_open :], line.strip()])]
            is_open = not line.rstrip().endswith(";")
        else:
            others.append(line)
    return imports, others


def impl_name(line):
    """The type of an `impl` block."""
    head = line.partition("{")[0].partition(" where ")[0]
    head = head.rpartition(" for ")[2] if " for " in head else re.sub(r"^(unsafe )?impl\b(<[^>]*>)?", "", head)
    return re.match(r"\W*(?:\w+::)*(\w+)", head)[1]


def own_text(file):
    """A file of the crate itself: a definition or a proof without comments, a source with the imports of its contracts as one list."""
    lines = lines_of(file)
    if file.endswith(".antt"):
        return "\n".join(it for it in lines if not it.lstrip().startswith("--"))
    if not file.endswith(".rt"):
        return "\n".join(lines)
    imported = [IMPORT.match(it) for it in lines]
    text = "\n".join(line for line, it in zip(lines, imported, strict=True) if line and not it)
    return "\n".join([text, repr(sorted({(it["path"], name) for it in imported if it for name in it["names"].split(", ")}))])


def seen_above(lines):
    """The lines of a source without the bodies of functions, and without functions that are the crate's own."""
    seen, at, of_trait = [], 0, False
    while at < len(lines):
        found = FUNCTION.match(lines[at])
        body = body_of(lines, at, found["indent"]) if found and not found["const"] else None
        if re.match(r"\S", lines[at]):
            # what is implemented of a trait is seen as the trait is
            of_trait = re.match(r"(pub )?(unsafe )?(trait\b|impl\b.* for )", lines[at]) is not None
        if not body:
            seen.append(lines[at])
            at += 1
            continue
        if of_trait or found["public"]:
            seen += lines[at : body[0]]
        else:
            # the attributes before a function that isn't seen
            while seen and seen[-1].lstrip().startswith(("#[", "//")):
                seen.pop()
        at = body[1] + 1
    return seen


def body_of(lines, at, indent):
    """Where the body of a function begins, and the line of its last brace, where it is named at this line, which is so far indented. None
    where it has no body."""
    for start in range(at, len(lines)):
        is_level = re.match(rf"{indent}\S", lines[start])
        if is_level and lines[start].endswith("{") and f"{indent}}}" in lines[start:]:
            return start + 1, lines.index(f"{indent}}}", start)
        if is_level and start > at and not re.match(r"\s*(\)|where\b)", lines[start]):
            return None
    return None


def files_of(crate, others):
    """The files of a crate that the crates above may read: no function's answers, and of its lemmas' modules those that the others name, and
    what these name in turn."""
    every = [file for part in ("src", "specs") for file in files_below(f"{crate.folder}/{part}")]
    top, naming = f"{crate.folder}/proofs", re.compile(rf"\b(?:Rattle\.{crate.name}\.|{crate.name}::)proofs(?:\.|::)(\w+)")
    lemmas = [it for it in files_below(top) if os.path.basename(it) not in ANSWERS]
    module = lambda file: os.path.relpath(file, top).split("/")[0].removesuffix(".antt")
    above = [file for it in others for part in ("src", "specs", "proofs") for file in files_below(f"{it.folder}/{part}")]
    found, left = set(), names_in(above, naming)
    while left:
        found |= left
        left = names_in([it for it in lemmas if module(it) in left], naming) - found
    return every + [it for it in lemmas if module(it) in found]


def names_in(files, naming):
    """The modules of lemmas of one crate that the files name."""
    return {found[1] for file in files for line in naming_lines(file) for found in naming.finditer(line)}


@functools.cache
def naming_lines(file):
    return [it for it in lines_of(file) if "proofs" in it]


def files_below(folder):
    return sorted(f"{at}/{file}" for at, _, files in os.walk(folder) for file in files)


@functools.cache
def lines_of(path):
    with open(path, encoding="utf-8") as file:
        return file.read().split("\n")
