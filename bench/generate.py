#!/usr/bin/env python3
"""Writes a script for mcslab, just under its limit of 1,048,576 bytes: sets, deletes and `stats slabs`, and by its
options also gets, touches, holds and drops, pages that move, and windows of the automover.

    bench/generate.py NAME
    bench/generate.py [options]

A name is one of `bench/run`: evictions, holds-and-drops, moves-with-rescues, moves-with-overwrites, mode-2-churn, overwrites,
one-class, turns-over-held. The same options give the same bytes, with any version of Python 3. The live items are kept near `--fill` of the memory of the largest
configuration (CONFIGURATION below); above 100 the program evicts.
"""
import argparse
import sys

MOST_BYTES = 1_048_576
PAGE = 16_384
PAGES = 64
CONFIGURATION = ["--page", "16384", "--limit", "1048576", "--first", "64", "--factor", "5/4", "--max", "16384"]


class Numbers:
    """splitmix64, so that no version of Python's own generator matters."""

    def __init__(self, seed):
        self.state = seed % 2**64

    def below(self, bound):
        self.state = (self.state + 0x9E3779B97F4A7C15) % 2**64
        mixed = self.state
        mixed = ((mixed ^ (mixed >> 30)) * 0xBF58476D1CE4E5B9) % 2**64
        mixed = ((mixed ^ (mixed >> 27)) * 0x94D049BB133111EB) % 2**64
        return (mixed ^ (mixed >> 31)) % bound


def item_bytes(words):
    return 24 + 8 * words


class Script:
    """What is live as far as the generator knows: it takes every set as stored."""

    def __init__(self, options):
        self.options = options
        self.numbers = Numbers(options.seed)
        self.target = PAGE * PAGES * options.fill // 100
        self.words_of = {}
        self.keys = []
        self.bytes = 0
        self.held = []

    def words(self, count):
        """So many words: each doubling of the size up to the largest is as likely as any other. With `--shift-every`
        one doubling gives the sizes of so many lines, and then another, behind as many lines with all sizes."""
        doublings = (self.options.max_words + 1).bit_length()
        shift = self.options.shift_every
        shifts = shift and count >= shift
        doubling = Numbers(count // shift).below(doublings) if shifts else self.numbers.below(doublings)
        low = 2**doubling - 1
        return min(low + self.numbers.below(low + 1), self.options.max_words)

    def live_key(self):
        return self.keys[self.numbers.below(len(self.keys))]

    def set(self, key, count):
        words = self.words(count)
        if key not in self.words_of:
            self.keys.append(key)
        self.bytes += item_bytes(words) - item_bytes(self.words_of[key]) if key in self.words_of else item_bytes(words)
        self.words_of[key] = words
        return f"{self.worker()} set {key} {words} {self.numbers.below(1000)}"

    def delete(self):
        place = self.numbers.below(len(self.keys))
        key = self.keys[place]
        self.keys[place] = self.keys[-1]
        self.keys.pop()
        self.bytes -= item_bytes(self.words_of.pop(key))
        return f"{self.worker()} del {key}"

    def forget(self):
        """The oldest keys, as many as are too much for the memory: the program has evicted such ones."""
        while self.bytes > self.target:
            self.bytes -= item_bytes(self.words_of.pop(self.keys.pop(0)))

    def worker(self):
        return 1 + self.numbers.below(self.options.workers)

    def hold(self):
        """A hold of a live key, or the drop of the oldest hold once there are enough."""
        if len(self.held) >= self.options.most_held:
            worker, key = self.held.pop(0)
            return f"{worker} drop {key}"
        self.held.append((self.worker(), self.live_key()))
        return "{} hold {}".format(*self.held[-1])

    def read(self):
        verb = "get" if self.numbers.below(2) else "touch"
        return f"{self.worker()} {verb} {self.live_key()}"

    def regular(self, count):
        """The line that comes every so many lines, if one is due."""
        if count == 0 and self.options.automove:
            return f"automove {self.options.automove}"
        if count % self.options.stats_every == self.options.stats_every - 1:
            return "stats slabs"
        if self.options.windows_every and count % self.options.windows_every == self.options.windows_every - 2:
            return "window"
        if self.options.turn_every and count % self.options.turn_every == 0:
            return "turn 1"
        if self.options.moves_every and count % self.options.moves_every == 0:
            return f"reassign -1 {1 + self.numbers.below(self.options.classes)}"
        if self.options.moves_every and count % self.options.moves_every <= self.options.turns * (1 + self.options.between):
            return self.turn_or_overwrite(count)
        return None

    def turn_or_overwrite(self, count):
        """A turn, and behind it the overwrites that come before the next one."""
        place, lines = count % self.options.moves_every - 1, 1 + self.options.between
        return self.set(self.live_key(), count) if place % lines and self.keys else "turn 1"

    def line(self, count):
        regular = self.regular(count)
        if regular:
            return regular
        if self.options.forget:
            self.forget()
        if self.options.reads or self.options.holds:
            drawn = self.numbers.below(100)
            if drawn < self.options.reads and self.keys:
                return self.read()
            if drawn < self.options.reads + self.options.holds and self.keys:
                return self.hold()
        if self.bytes > self.target and self.keys:
            return self.delete()
        drawn = self.numbers.below(100)
        if drawn < self.options.deletes and self.keys:
            return self.delete()
        if drawn < self.options.deletes + self.options.overwrites and self.keys:
            return self.set(self.live_key(), count)
        return self.set(self.numbers.below(self.options.keys), count)


def script(options):
    made, lines, size = Script(options), [], 0
    while True:
        line = made.line(len(lines)) + "\n"
        if size + len(line) > options.bytes:
            return "".join(lines)
        lines.append(line)
        size += len(line)


def parser():
    it = argparse.ArgumentParser(description=__doc__, formatter_class=argparse.RawDescriptionHelpFormatter)
    it.add_argument("--seed", type=int, default=1, help="which script (default 1)")
    it.add_argument("--bytes", type=int, default=MOST_BYTES, help="at most so many bytes")
    it.add_argument("--deletes", type=int, default=20, help="of 100 lines, so many delete a live key (more once the memory is full)")
    it.add_argument("--overwrites", type=int, default=20, help="of 100 lines, so many set a live key anew")
    it.add_argument("--stats-every", type=int, default=1000, help="every so many lines one is `stats slabs`")
    it.add_argument("--fill", type=int, default=70, help="live items take so many of 100 bytes of the memory")
    it.add_argument("--keys", type=int, default=100_000, help="new keys are below this")
    it.add_argument("--max-words", type=int, default=255, help="items have at most so many words")
    it.add_argument("--reads", type=int, default=0, help="of 100 lines, so many get or touch a live key")
    it.add_argument("--holds", type=int, default=0, help="of 100 lines, so many hold a live key or drop a held one")
    it.add_argument("--most-held", type=int, default=100, help="so many holds at a time")
    it.add_argument("--moves-every", type=int, default=0, help="every so many lines a page begins to move")
    it.add_argument("--turns", type=int, default=8, help="so many turns of the mover behind each")
    it.add_argument("--between", type=int, default=0, help="behind each turn so many lines set a live key anew")
    it.add_argument("--classes", type=int, default=25, help="pages move to one of so many classes")
    it.add_argument("--workers", type=int, default=4, help="workers 1 to this")
    it.add_argument("--forget", action="store_true", help="past the fill, forget the oldest keys and delete none")
    it.add_argument("--automove", type=int, default=0, help="the first line sets this mode of the automover")
    it.add_argument("--windows-every", type=int, default=0, help="every so many lines a window ends")
    it.add_argument("--turn-every", type=int, default=0, help="every so many lines the mover has a turn")
    it.add_argument("--shift-every", type=int, default=0, help="so many lines have sizes of one doubling, then others")
    return it


# The scripts that bench/run names: options of the parser above.
SCRIPTS = {
    "evictions": "--fill 90 --forget --deletes 0 --overwrites 10 --reads 20",
    "holds-and-drops": "--fill 50 --holds 50 --most-held 2000 --workers 16 --reads 10",
    "moves-with-rescues": "--fill 50 --max-words 63 --moves-every 50 --turns 8 --classes 10 --reads 10",
    "moves-with-overwrites": "--fill 50 --max-words 63 --moves-every 50 --turns 8 --between 2 --classes 10 --reads 10",
    "mode-2-churn": "--fill 80 --forget --deletes 5 --automove 2 --shift-every 3000 --turn-every 10"
    " --windows-every 500",
}


def lines_up_to(lines, most_bytes):
    """As many first lines as have so many bytes."""
    made, size = [], 0
    for line in lines:
        size += len(line)
        if size > most_bytes:
            break
        made.append(line)
    return "".join(made)


def overwrites_script():
    """Sets over 16,384 keys of one size, for which the memory has just room."""
    numbers = Numbers(1)
    yield from (set_line(key) for key in range(PAGES * CHUNKS))
    while True:
        yield set_line(numbers.below(PAGES * CHUNKS))


def one_class_script():
    """Sets of 17,000 new keys of one size, then sets (60 of 100) and gets over 40,000 keys."""
    numbers = Numbers(1)
    yield from (set_line(key) for key in range(17_000))
    while True:
        key = numbers.below(40_000)
        yield set_line(key) if numbers.below(100) < 60 else f"1 get {key}\n"


def turns_over_held_script():
    """Turns over pages with held items: workers hold up to 250 items each, and a page tries to move away under them."""
    numbers = Numbers(1)
    yield from (set_line(key) for key in range(8 * CHUNKS))
    held = []
    while True:
        for _ in range(100):
            if len(held) < 9 * 250:
                held.append((1 + len(held) % 9, numbers.below(8 * CHUNKS)))
                yield "{} hold {}\n".format(*held[-1])
        yield "reassign 1 0\n"
        yield from ("turn 1\n" for _ in range(20))
        for _ in range(100):
            worker, key = held.pop(numbers.below(len(held)))
            yield f"{worker} drop {key}\n"
            yield set_line(key)


# Scripts of items of 64 bytes.
ONE_SIZE = {"overwrites": overwrites_script, "one-class": one_class_script, "turns-over-held": turns_over_held_script}


def named(name, most_bytes=MOST_BYTES):
    """The script of this name, of at most so many bytes."""
    if name in ONE_SIZE:
        return lines_up_to(ONE_SIZE[name](), most_bytes)
    return script(parser().parse_args([*SCRIPTS[name].split(), "--bytes", str(most_bytes)]))


def options_of(name):
    """The configuration of the script of this name."""
    return one_class(PAGES * CHUNKS) if name in ONE_SIZE else CONFIGURATION


NAMES = [*SCRIPTS, *ONE_SIZE]


# Items of 64 bytes, one class, as many chunks as a page may have.
CHUNKS = 256


def one_class(live):
    """A configuration with room for so many items of 64 bytes, a multiple of 256, and no more."""
    sizes = ["--page", str(PAGE), "--first", "64", "--factor", "2/1", "--max", "64"]
    return [*sizes, "--limit", str(PAGE * live // CHUNKS), "--bulk", str(CHUNKS)]


def fill(live):
    """So many items, which take all memory."""
    return "".join(set_line(key) for key in range(live))


def set_line(key):
    return f"1 set {key} 5 {key % 1000}\n"


def keys_below(live, count):
    numbers = Numbers(1)
    return [numbers.below(live) for _ in range(count)]


class LineKind:
    """Lines whose cost is measured, behind others that a run without them has too, and how many units they are."""

    def __init__(self, lines, units, before="", without=""):
        self.lines, self.units, self.before, self.without = lines, units, before, without


def single_lines(line):
    """A kind of lines of the worker 1, over drawn keys."""
    return lambda live, count: LineKind("".join(f"1 {line(key)}\n" for key in keys_below(live, count)), count)


def sets_that_evict(live, count):
    return LineKind("".join(set_line(live + number) for number in range(count)), count)


def overwrites(live, count):
    return LineKind("".join(set_line(key) for key in keys_below(live, count)), count)


def deletes_and_sets(live, count):
    return LineKind("".join(f"1 del {key}\n{set_line(key)}" for key in keys_below(live, count)), 2 * count)


def dead_at_once(dead):
    """So many of the newest keys are deleted, and then stored again."""
    def kind(live, count):
        newest = range(live - dead, live)
        deletes, sets = "".join(f"1 del {key}\n" for key in newest), "".join(map(set_line, newest))
        return LineKind((deletes + sets) * (count // dead), 2 * dead * (count // dead))

    return kind


def holds_and_drops(held):
    """Pairs by a worker that has so many holds."""
    before = "".join(f"1 hold {key}\n" for key in range(held - 1))
    pairs = lambda keys: "".join(f"1 hold {key}\n1 drop {key}\n" for key in keys)
    return lambda live, count: LineKind(pairs(keys_below(live, count)), 2 * count, before)


def chunks_of_moves(live, count):
    """Pages that go to the pool, their items rescued into chunks that were given up before, and come back: a chunk's part."""
    moves = count // CHUNKS
    given_up = lambda move: "".join(f"1 del {(move * CHUNKS + place) * 7 % live}\n" for place in range(CHUNKS))
    stored = lambda move: "".join(set_line((move * CHUNKS + place) * 7 % live) for place in range(CHUNKS))
    cycles = lambda between: "".join(given_up(move) + between + stored(move) for move in range(moves))
    return LineKind(cycles("reassign 1 0\nturn 1\n"), moves * CHUNKS, without=cycles(""))


def turns_over_held(live, count):
    """Turns over a page of which each chunk is held."""
    holds = "".join(f"{1 + key % 2} hold {key}\n" for key in range(CHUNKS))
    return LineKind("turn 1\n" * (count // 10), count // 10, holds + "reassign 1 0\n")


LINE_KINDS = {
    "get": single_lines(lambda key: f"get {key}"),
    "touch": single_lines(lambda key: f"touch {key}"),
    "set that evicts": sets_that_evict,
    "overwrite": overwrites,
    "del and set": deletes_and_sets,
    "2 dead at once": dead_at_once(2),
    "3 dead at once": dead_at_once(3),
    "100 dead at once": dead_at_once(100),
    "hold, drop at 1": holds_and_drops(1),
    "hold, drop at 64": holds_and_drops(64),
    "hold, drop at 255": holds_and_drops(255),
    "chunk of a move": chunks_of_moves,
    "idle turn": lambda live, count: LineKind("turn 1\n" * count, count),
    "turn over 256 held": turns_over_held,
}


if __name__ == "__main__":
    if sys.argv[1:] and sys.argv[1] in NAMES:
        sys.stdout.write(named(sys.argv[1]))
    else:
        sys.stdout.write(script(parser().parse_args()))
