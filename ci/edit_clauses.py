"""The clause or the error code that an edit names, and the clauses that a check's output says aren't proved.

A goal's name says which clause it is of. The output has names of goals in three places: in a note on a goal that `search`
didn't prove, in the verdict on its function, and in an error in a written answer, proofs/F/Answers.antt. Of an answer that is
a record the error's place says which field failed. An error in a declaration that is no goal's answer counts for the answers
that rest on it. One that only says that a name is missing, or that the answer rests on another answer, counts for nothing.
"""
import re
from typing import NamedTuple

LINE = re.compile(r"#\s*refused by:\s*(.*?)\s*")
CODE_LINE = re.compile(r"#\s*refused as:\s*(.*?)\s*")
CODE = re.compile(r"[a-z]+(?:-[a-z]+)*")
# With which error code the compiler refuses an edit that names none.
USUAL_CODE = "private-field"
# Statements with parts that the output may tell: a line may name a part, or the whole.
WHOLE = ("ensures", "invariant", "loop invariant")
FORM = re.compile(rf"(?:\w+ requires|{'|'.join(WHOLE)})(?: \w+)?|\w+")
# What the language itself asks, by how the names of its goals begin.
OF_THE_LANGUAGE = {"overflow_": "overflow", "nonzero_": "divisor", "bounds-": "bounds", "slice_bounds-": "bounds", "offset_bounds-": "bounds"}

ANSWER_ERROR = re.compile(
    r"(?:\./)?(?P<file>proofs/(?P<path>\S+)/(?:Answers|Invariants|Proof)\.antt):(?P<line>\d+):(?P<column>\d+): error: (?:`(?P<goal>[^`]+)`: )?(?P<said>.*)"
)
# An error in a written answer that shows nothing: the answer rests on another that failed, or names what the edit took away.
RESTS_ON_ANOTHER = re.compile(r"has no field|is not in scope|has no `|was not admitted|that depends? on")
DEPENDENTS = re.compile(r"that depends? on (?P<rejected>.*), which w(?:as|ere) rejected, w(?:as|ere) not checked: (?P<names>.*)")
OPEN_GOAL = re.compile(r"note: (?P<file>src/\S+?):(?P<line>\d+):\d+: it is not proved that .*?\(`(?P<goal>[^`]+)`\)(?P<how>.*)")
UNTRIED = re.compile(r"note: `search` has not tried the goals of `[^`:]+::([^`]+)`")
VERDICT = re.compile(r"fn [^:\s]+::(?P<path>\S+): .*`search` did not prove (?P<goals>.*)")


class Failure(NamedTuple):
    """A clause that isn't proved: of which function, by its path below the crate or by a place in it, and how it failed."""

    path: str
    place: tuple | None
    clause: str
    how: str


def named_clause(path):
    """The clause that an edit's file names, or what is wrong. Both are empty where it names none."""
    with open(path, encoding="utf-8") as file:
        named = [it[1] for it in map(LINE.fullmatch, file.read().split("\n")) if it]
    if len(named) > 1:
        return "", "it has two lines 'refused by:'"
    if named and not FORM.fullmatch(named[0]):
        return "", f"'{named[0]}' is no form of a clause"
    return "".join(named), ""


def named_code(path):
    """The error code that an edit's file names, or the usual one, and what is wrong."""
    with open(path, encoding="utf-8") as file:
        named = [it[1] for it in map(CODE_LINE.fullmatch, file.read().split("\n")) if it]
    if len(named) > 1:
        return "", "it has two lines 'refused as:'"
    if named and not CODE.fullmatch(named[0]):
        return "", f"'{named[0]}' is no form of an error code"
    return "".join(named) or USUAL_CODE, ""


def is_shown(named, failed):
    """Whether a clause that failed is the one that is named, or a part of it."""
    return failed == named or named in WHOLE and failed.startswith(f"{named} ")


def clause_of(goal):
    """The clause that a goal's name tells. None where the name isn't a goal's."""
    named = re.search(r"-clause-(\w+)", goal)
    part = f" {named[1]}" if named else ""
    if re.match(r"returns(-|$)", goal):
        return part.strip() or "ensures"
    call = re.match(r"(\w+)(?:-.*)?-requires(?:-|$)", goal)
    if call:
        return f"{call[1]} requires{part}"
    if goal.startswith("invariant_of-"):
        return f"invariant{part}"
    if re.search(r"-(init|preserved)(-|$)", goal):
        return f"loop invariant{part}"
    if goal.endswith("-smaller"):
        return "measure"
    return next((clause for begins, clause in OF_THE_LANGUAGE.items() if goal.startswith(begins)), None)


def failures(lines, folder):
    """What a check's output says isn't proved, each once, of a crate in this folder."""
    found = [*failed_searches(lines), *failed_answers(lines, folder)]
    return list(dict.fromkeys(it for it in found if it.clause))


def untried(lines):
    """The functions of which a goal that has no written answer wasn't tried, as a function that they call isn't proved."""
    return {it[1] for it in map(UNTRIED.match, lines) if it}


def failed_searches(lines):
    """The goals that no written answer names, or one that the edit took from its place."""
    for line in lines:
        note, verdict = OPEN_GOAL.match(line), VERDICT.match(line)
        if note:
            how = "search gave up" if "gave up" in note["how"] else "false" if "is false" in note["how"] else "search"
            yield Failure("", (note["file"], int(note["line"]) - 1), clause_of(note["goal"]), how)
        elif verdict:
            for goal in re.findall(r"`([^`]+)`", verdict["goals"]):
                yield Failure(verdict["path"], None, clause_of(goal), "search")


def failed_answers(lines, folder):
    """The goals whose written answers failed, in themselves or for a declaration beside them that did."""
    wrong, errors = set(), answer_errors(lines)
    for path, found, said in errors:
        if found["goal"] and not RESTS_ON_ANOTHER.search(said):
            wrong.add((path, found["goal"]))
            clause = clause_of(found["goal"])
            field = field_at(f"{folder}/{found['file']}", int(found["line"]) - 1, int(found["column"]) - 1) if clause in WHOLE else ""
            yield Failure(path, None, clause and f"{clause} {field}".strip(), "answer")
    for path, _, said in errors:
        rests = DEPENDENTS.search(said)
        rejected = re.findall(r"`([^`]+)`", rests["rejected"]) if rests else []
        if any((path, it) in wrong and not clause_of(it) for it in rejected):
            for goal, via in re.findall(r"([^\s,]+)(?: \(via (\S+)\))?", rests["names"]):
                yield Failure(path, None, None if clause_of(via) else clause_of(goal), "answer")


def answer_errors(lines):
    """The errors in written answers: of which function, where, and what is said, which may go on in the next line."""
    found = [(ANSWER_ERROR.match(line), more) for line, more in zip(lines, [*lines[1:], ""])]
    return [(it["path"].replace("/", "::"), it, it["said"] + (more if more.startswith("  ") else "")) for it, more in found if it]


def field_at(path, number, column):
    """The field of a written answer's record in which a place stands. Empty where it stands in none."""
    with open(path, encoding="utf-8") as file:
        lines = file.read().split("\n")
    inside = re.findall(r"(?:^\s+|[{;] *)(\w+) = ", lines[number][:column])
    for at in range(number, -1, -1):
        if inside:
            return inside[-1]
        if lines[at] and not lines[at][0].isspace():
            break
        inside = re.findall(r"^\s+(\w+) = ", lines[at - 1])
    return ""


def words(failed):
    """What failed, for a reader: each clause once, and how it failed."""
    hows = {}
    for it in failed:
        hows.setdefault(it.clause, set()).add(it.how)
    # a search that a note tells more of
    clear = lambda them: them - {"search"} or them
    return ", ".join(f"{clause} ({', '.join(sorted(clear(them)))})" for clause, them in hows.items())
