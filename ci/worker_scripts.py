"""Scripts of several workers and a mover, drawn from a seed, for `mcslab --threads`.

Keys below 1,000 are the workers' together; those of worker w alone begin with 1000 * w, and of them the last hundred have few words. The
words of each set count up from a base that tells the key and the set.
"""
import random
from typing import NamedTuple

FOUR_PAGES = ()
MANY_PAGES = ("--limit", "65536")
LARGE_PAGES = ("--page", "16384", "--limit", "1048576", "--first", "64", "--factor", "5/4", "--max", "16384")


class Kind(NamedTuple):
    """How a script is drawn."""

    options: tuple
    # the mover's lines are drawn from these
    mover: tuple
    # so many of the mover's lines, and so many of each worker
    moves: int
    lines: int
    workers: int = 3
    # of each worker so many keys of its own, and so many with few words; and so many of all workers
    own: int = 0
    few: int = 0
    shared: int = 0
    # words of an item, of keys that haven't few
    least: int = 1
    most: int = 61
    # where not 0, the workers behind the first so many set and delete nothing of what is shared
    writers: int = 0
    # so many holds of a worker at once
    held: int = 2


# Moves to the pool, which leave room for all, and turns behind them.
TO_THE_POOL = ("reassign 4 0", "reassign 3 0", "reassign -1 0", "turn 1", "turn 1", "turn 2", "turn 5", "stats")
WINDOWS = ("window", "window", "window", "reassign 4 0", "turn 1", "turn 3", "automove 1", "automove 0", "automove 1", "stats slabs")
BETWEEN_CLASSES = ("reassign 4 3", "reassign 3 4", "reassign 4 2", "reassign -1 3", "reassign -1 4", "reassign 2 0", "reassign 9 1",
                   "reassign 3 3", "turn 1", "turn 1", "turn 2", "turn 4", "stats", "stats slabs")  # fmt: skip
MODE_2 = ("turn 1", "turn 1", "turn 3", "turn 10", "window", "reassign -1 0", "reassign -1 4", "automove 2", "automove 2", "automove 1", "stats")

KINDS = {
    "own-keys": Kind(MANY_PAGES, ("stats", "stats slabs", "automove 1", "window"), 10, 600, workers=4, own=10, few=2, held=3),
    "own-keys-under-moves": Kind(MANY_PAGES, TO_THE_POOL, 1500, 800, own=20, few=2, least=10, held=1),
    "windows": Kind(MANY_PAGES, WINDOWS, 1500, 800, own=16, few=2, shared=4, least=10, held=1),
    "mode-2": Kind(FOUR_PAGES, MODE_2, 800, 800, own=8, few=3, shared=3, held=3),
    "shared-keys": Kind(MANY_PAGES, TO_THE_POOL, 1500, 600, workers=4, shared=12, least=4),
    "one-writer": Kind(MANY_PAGES, TO_THE_POOL, 1500, 600, workers=4, shared=16, least=10, writers=1, held=4),
    "one-stripe": Kind(("--stripes", "1", "--bulk", "1"), BETWEEN_CLASSES, 1500, 500, workers=4, own=4, few=2, shared=6, held=3),
    "all-workers": Kind(LARGE_PAGES, BETWEEN_CLASSES, 800, 50, workers=63, own=8, few=1, shared=8, most=120),
}
# Few lines, as each request for memory is refused in turn: in a full memory, and in one with room for all.
SHORT_KINDS = {
    "short-mode-2": Kind(("--automove", "2"), MODE_2, 200, 40, own=4, few=2, shared=2, least=10),
    "short-moves": Kind(MANY_PAGES, (*TO_THE_POOL, "window", "automove 1", "automove 2"), 200, 40, own=4, few=2, shared=2, least=10, held=1),
}
# A worker gets as often as it sets, and holds and drops less often; a deleted key is often set again.
VERBS = ("set",) * 6 + ("get",) * 6 + ("hold",) * 2 + ("drop",) * 2 + ("del",) + ("touch",)


class Drawn:
    """A script that is being drawn."""

    def __init__(self, kind, seed):
        self.kind, self.random = kind, random.Random(seed)
        self.versions = {}

    def one_of(self, them):
        # random() gives the same with any version of Python
        return them[int(self.random.random() * len(them))]

    def set(self, worker, key):
        self.versions[key] = version = self.versions.get(key, 0) + 1
        has_few = key % 1000 >= 900
        words = self.one_of(range(1, 4)) if has_few else self.one_of(range(self.kind.least, self.kind.most + 1))
        return f"{worker} set {key} {words} {key * 10**8 + version * 10**4}"

    def worker(self, worker):
        """A worker's lines."""
        kind, held, lines = self.kind, [], []
        own = [*range(1000 * worker, 1000 * worker + kind.own), *range(1000 * worker + 900, 1000 * worker + 900 + kind.few)]
        shared = [*range(1, kind.shared + 1)]
        only_reads = kind.writers and worker > kind.writers
        while len(lines) < kind.lines:
            key, verb = self.one_of([*own, *shared]), self.one_of(VERBS)
            if verb in ("set", "del") and key < 1000 and only_reads:
                verb = "get"
            if verb == "hold" and len(held) < kind.held:
                held.append(key)
            elif verb in ("hold", "drop"):
                verb, key = "drop", held.pop(0) if held else key
            lines.append(self.set(worker, key) if verb == "set" else f"{worker} {verb} {key}")
        return lines

    def text(self):
        """The script. A run by one thread meets the lines of all in turn, those of the mover among them."""
        columns = [self.worker(it) for it in range(1, self.kind.workers + 1)]
        columns.append([self.one_of(self.kind.mover) for _ in range(self.kind.moves)])
        most = max(map(len, columns))
        return "".join(f"{column[row]}\n" for row in range(most) for column in columns if row < len(column))


def drawn(kind, seed):
    """The options and the text of a script."""
    return [*kind.options], Drawn(kind, seed).text()
