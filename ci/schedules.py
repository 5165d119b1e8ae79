"""What `mcslab --threads` may write of a script, whatever the schedule.

The program writes worker 1's replies, then worker 2's and so on, then the mover's, then both texts of statistics, of a moment when
all threads have ended. Which replies they are depends on the schedule. Looked at is what none may change:

- A reply is one of its line, and tells the line's key. The words of a VALUE or DROPPED are those of one set line of that key. So each
  set of a script here has other words.
- A worker that alone sets and deletes a key finds what it stored last, or nothing where an eviction may have come between. A DROPPED
  tells the words of the worker's last hold of the key.
- What the workers see of a key agrees: there is an order of its items and of the moments without one that fits what each saw.
- In a memory with room for all there is no NO_ROOM, and an item is lost to moves alone: of a class that never has two pages, none is.
- The mover's replies fit each other: a move runs from its OK to its FINISHED, unless a set may begin one, and clears each chunk of the
  page once. And the statistics fit them: pages moved, rescues, evictions and busy items are the sums over the turns.
- The statistics fit themselves: bytes are granted pages, used and free chunks are the pages' chunks, and used ones the items that
  can be there.
"""
import graphlib
from typing import NamedTuple

DEFAULTS = {"page": 1024, "limit": 4096, "first": 48, "factor": "2/1", "max": 512, "stripes": 4, "bulk": 64, "automove": 0}
REPLIES = {
    "set": ("STORED", "TOO_LARGE", "NO_ROOM"),
    "get": ("VALUE", "NOT_FOUND", "TOO_MANY_REFS"),
    "hold": ("HELD", "NOT_FOUND", "TOO_MANY_REFS"),
    "drop": ("DROPPED", "NOT_HELD"),
    "del": ("DELETED", "NOT_FOUND"),
    "touch": ("TOUCHED", "NOT_FOUND"),
}
CLASS_LINES = ("chunk_size", "chunks_per_page", "total_pages", "total_chunks", "used_chunks", "free_chunks")
TOTAL_LINES = ("slab_global_page_pool", "slab_reassign_running", "slabs_moved", "slab_reassign_rescues",
               "slab_reassign_evictions_nomem", "slab_reassign_busy_items")  # fmt: skip
# The texts behind all replies, in their order.
LAST_TEXTS = ("stats slabs", "stats")
MOST_REFS = 255


class Wrong(Exception):
    """What no schedule gives."""


def wants(holds, why):
    if not holds:
        raise Wrong(why)


class Line(NamedTuple):
    """A line of a script. The mover is worker 0."""

    worker: int
    verb: str
    numbers: tuple

    @property
    def key(self):
        return self.numbers[0]

    def __str__(self):
        who = [str(self.worker)] if self.worker else []
        return " ".join([*who, self.verb, *map(str, self.numbers)])


class Item(NamedTuple):
    """What a set line stores: words that count up from the base."""

    key: int
    count: int
    base: int


def most_held(lines, keys):
    """How many holds of these keys a worker has at once, at most: as many as where each hold is answered HELD."""
    held, most = {}, 0
    for line in lines:
        if line.key in keys and line.verb in ("hold", "drop"):
            held[line.key] = max(0, held.get(line.key, 0) + (1 if line.verb == "hold" else -1))
            most = max(most, sum(held.values()))
    return most


def line_of(text):
    words = text.split()
    if words[0].isdigit():
        return Line(int(words[0]), words[1], tuple(map(int, words[2:])))
    if text == "stats slabs":
        return Line(0, text, ())
    return Line(0, words[0], tuple(map(int, words[1:])))


class Table:
    """The classes of a configuration."""

    def __init__(self, options):
        given = {**DEFAULTS, **{name.removeprefix("--"): value for name, value in zip(options[::2], options[1::2], strict=True)}}
        self.page, self.most = int(given["page"]), int(given["max"])
        self.pages = int(given["limit"]) // self.page
        self.automove = int(given["automove"])
        num, den = map(int, given["factor"].split("/"))
        self.sizes, raw = [], int(given["first"])
        while len(self.sizes) < 62 and raw * num < self.most * den:
            self.sizes.append(-(-raw // 8) * 8)
            raw = self.sizes[-1] * num // den
        self.sizes.append(self.most)

    def class_for(self, count):
        """The class of items of so many words, or None."""
        return next((number for number, size in enumerate(self.sizes, 1) if 24 + 8 * count <= size), None)

    def per_page(self, number):
        return self.page // self.sizes[number - 1]

    def is_class(self, number):
        return 1 <= number <= len(self.sizes)


class Script:
    """A script with its options, and what is known of it before any run."""

    def __init__(self, name, options, text):
        self.name, self.options, self.text = name, options, text
        self.table = Table(options)
        rows = (it.strip() for it in text.split("\n"))
        self.lines = [line_of(it) for it in rows if it and not it.startswith("#")]
        self.workers = sorted({it.worker for it in self.lines} - {0})
        self.items = {Item(*it.numbers) for it in self.of_verb("set")}
        if len(self.items) < len(self.of_verb("set")) or any(not it.count for it in self.items):
            raise ValueError(f"{name}: two sets can't be told from each other")
        self.named, self.writers, self.classes = {}, {}, {}
        for line in self.lines:
            if line.worker:
                self.named.setdefault(line.key, set()).add(line.worker)
                self.writers.setdefault(line.key, set()).update({line.worker} if line.verb in ("set", "del") else ())
        self.keys = set(self.named)
        # of each key the classes to which its items go
        self.classes = {key: set() for key in self.keys}
        for it in self.items:
            self.classes[it.key] |= {self.table.class_for(it.count)} - {None}
        self.deleted = {it.key for it in self.of_verb("del")}
        self.need = {number: self.chunks_needed(number) for number in range(1, len(self.table.sizes) + 1)}
        self.is_roomy = self.pages_needed() <= self.table.pages
        modes = {self.table.automove} | {it.numbers[0] for it in self.of_verb("automove")}
        # whether a set may begin a move, which it does after an eviction
        self.may_ask = 2 in modes and not self.is_roomy
        self.kept = {key for key in self.keys if self.is_kept(key)}

    def of_verb(self, *verbs):
        return [it for it in self.lines if it.verb in verbs]

    def of_worker(self, worker):
        return [it for it in self.lines if it.worker == worker]

    def chunks_needed(self, number):
        """Chunks of a class that are handed out at once, at most: an item of each key, what is held, and one more for each thread."""
        keys = {key for key, classes in self.classes.items() if number in classes}
        held = sum(most_held(self.of_worker(it), keys) for it in self.workers)
        return len(keys) + held + len(self.workers) + 1 if keys else 0

    def pages_needed(self):
        """Pages that are granted at most, where nothing keeps a class from growing. A page that moves may be one that the class wants
        again: where it goes to the pool, that is the page that it gets then. Windows give to the pool alone where nothing is evicted."""
        moves = [it for it in self.of_verb("reassign") if it.numbers[1]]
        return sum(-(-need // self.table.per_page(number)) for number, need in self.need.items()) + len(moves) + 1

    def is_kept(self, key):
        """Whether the key loses no item but by its own lines: there is room for all, and no turn meets its pages."""
        given = {it.numbers[1] for it in self.of_verb("reassign")}
        has_one = lambda number: self.need[number] <= self.table.per_page(number) and number not in given
        return self.is_roomy and (not self.of_verb("turn") or all(map(has_one, self.classes[key])))

    def is_sole(self, worker, key):
        """Whether nobody but this worker sets or deletes the key."""
        return self.writers[key] <= {worker}

    def lines_alone(self, worker):
        """The worker's lines on keys that it alone names and that lose nothing: what they are answered no other thread changes."""
        return [it for it in self.of_worker(worker) if it.key in self.kept and self.named[it.key] == {worker}]

    def fault(self, output):
        """What no schedule gives of an output, or None."""
        try:
            Output(self, output).look()
        except Wrong as wrong:
            return str(wrong)
        return None


class Output:
    """One output, and what is found while it is gone through."""

    def __init__(self, script, output):
        self.script = script
        wants(output.endswith(b"\r\n"), f"the output ends with {output[-40:]!r}")
        self.left = output.decode(errors="replace").split("\r\n")[:-1]
        self.left.reverse()
        self.seen, self.standing = {}, {}

    def next(self, of):
        wants(self.left, f"the output ends before the reply to {of}")
        return self.left.pop().split(" ")

    def look(self):
        for worker in self.script.workers:
            seat = Seat(self.script, worker)
            for line in self.script.of_worker(worker):
                seat.take(line, self.next(line))
            for key, seen in seat.seen.items():
                self.seen.setdefault(key, []).append([it[0] for it in seen if it[0] is not None])
            self.standing.update({key: item for key, item in seat.standing.items() if self.script.is_sole(worker, key)})
        for key, seen in self.seen.items():
            wants(is_ordered(seen), f"what the workers saw of key {key} has no order: {seen}")
        mover = Mover(self.script)
        for line in self.script.of_worker(0):
            mover.take(line, self)
        texts = {text: self.statistics(text) for text in LAST_TEXTS}
        wants(not self.left, f"more is written than all replies and texts: {self.left[::-1][:3]}")
        mover.compare(texts["stats"])
        self.compare_pages(texts["stats"], texts["stats slabs"])
        self.compare_items(texts["stats"], texts["stats slabs"])

    def statistics(self, text):
        """The numbers of one text of statistics, by name."""
        numbers = {}
        while (line := self.next(text)) != ["END"]:
            wants(len(line) == 3 and line[0] == "STAT" and line[2].isdigit() and line[1] not in numbers, f"a line of {text} is {line}")
            numbers[line[1]] = int(line[2])
        if text == "stats":
            wants(tuple(numbers) == TOTAL_LINES and numbers["slab_reassign_running"] <= 1, f"the text of stats is {numbers}")
        else:
            compare_classes(self.script.table, numbers)
        return numbers

    def compare_pages(self, totals, classes):
        """Compares the bytes granted with the pages of all classes and the pool."""
        pages = sum(number for name, number in classes.items() if name.endswith(":total_pages")) + totals["slab_global_page_pool"]
        granted = classes["total_malloced"]
        wants(granted == pages * self.script.table.page, f"{granted} bytes are granted, and {pages} pages stand in classes and pool")

    def compare_items(self, totals, classes):
        """Compares the used chunks of each class with the items that can be there. Those that a move has cleared count as used."""
        for number in range(1, len(self.script.table.sizes) + 1):
            used = classes.get(f"{number}:used_chunks", 0)
            keys = {key for key, classes in self.script.classes.items() if number in classes}
            known = {key: self.standing[key] for key in keys if key in self.standing}
            there = {key for key, item in known.items() if item and self.script.table.class_for(item.count) == number}
            most = len(there) + len(keys - known.keys())
            wants(totals["slab_reassign_running"] or used <= most, f"class {number} has {used} chunks used, and {most} items at most")
            is_exact = keys <= known.keys() and keys <= self.script.kept and len(there) == most
            wants(not is_exact or used >= most, f"class {number} has {used} chunks used by {most} items")


def compare_classes(table, numbers):
    """Compares the numbers of a text of classes with each other and with the table."""
    numbers = dict(numbers)
    active, malloced = numbers.pop("active_slabs", None), numbers.pop("total_malloced", None)
    # of each class that has pages one may be beyond the limit
    most = table.page * (table.pages + (active or 0))
    wants(malloced is not None and malloced % table.page == 0 and malloced <= most, f"{malloced} bytes are granted")
    heads = {it.partition(":")[0] for it in numbers}
    wants(all(map(str.isdecimal, heads)), f"the lines of stats slabs are {list(numbers)}")
    listed = sorted(map(int, heads))
    wants(active == len(listed), f"{active} active slabs, and {listed} are listed")
    wants(list(numbers) == [f"{it}:{name}" for it in listed for name in CLASS_LINES], f"the lines of stats slabs are {list(numbers)}")
    for it in listed:
        size, per_page, pages, chunks, used, free = (numbers[f"{it}:{name}"] for name in CLASS_LINES)
        wants(table.is_class(it) and (size, per_page) == (table.sizes[it - 1], table.per_page(it)), f"class {it} has chunks of {size}")
        wants(pages and chunks == pages * per_page == used + free, f"class {it}: {pages} pages, {chunks} chunks, {used} used, {free} free")
    pages = sum(numbers[f"{it}:total_pages"] for it in listed)
    wants(pages * table.page <= malloced, f"{pages} pages are in classes, and {malloced} bytes granted")


def is_ordered(seen):
    """Whether there is one order of all that several saw, each in an order of its own."""
    after = {}
    for own in seen:
        own = [it for at, it in enumerate(own) if not at or it != own[at - 1]]
        for first, second in zip(own, own[1:]):
            after.setdefault(second, set()).add(first)
    try:
        graphlib.TopologicalSorter(after).prepare()
    except graphlib.CycleError:
        return False
    return True


class Seat:
    """A worker's lines, gone through with their replies."""

    def __init__(self, script, worker):
        self.script, self.worker = script, worker
        self.holds = []
        # of each key what was seen of it, each in a list of one: a hold's is told when it is dropped
        self.seen = {}
        # of each key that this worker alone writes, the item that stands as far as it knows, or None
        self.standing = {key: None for key in script.keys if script.is_sole(worker, key)}
        # keys that can't be gone again
        self.stays = set()

    def take(self, line, reply):
        of = f"worker {self.worker}'s {line.verb} of key {line.key}"
        wants(reply[0] in REPLIES[line.verb] and reply[1:2] == [str(line.key)], f"{of}: {' '.join(reply[:8])}")
        told = self.item_in(of, reply) if reply[0] in ("VALUE", "DROPPED") else None
        wants(told or len(reply) == 2, f"{of}: {' '.join(reply)}")
        {"set": self.set, "drop": self.drop}.get(line.verb, self.look_up)(of, line, reply[0], told)

    def item_in(self, of, reply):
        """The item whose words a reply tells."""
        wants(len(reply) > 3 and all(it.isdigit() for it in reply[1:]), f"{of}: {' '.join(reply)}")
        key, count, *words = map(int, reply[1:])
        item = Item(key, count, words[0])
        if item not in self.script.items or words != [*range(item.base, item.base + count)]:
            others = {it.key for it in self.script.items for word in words if it.base <= word < it.base + it.count}
            raise Wrong(f"{of}: no set has the words {words}, which are of keys {sorted(others)}")
        return item

    def set(self, of, line, answer, _told):
        item = Item(*line.numbers)
        is_large = self.script.table.class_for(item.count) is None
        wants((answer == "TOO_LARGE") == is_large, f"{of}: {answer}, of {item.count} words")
        wants(answer != "NO_ROOM" or not self.script.is_roomy, f"{of}: no room, where there is for all")
        if answer == "STORED":
            self.see(line.key, item)
            self.stand(line.key, item)

    def drop(self, of, line, answer, told):
        own = [it for it in self.holds if it[0] == line.key]
        wants((answer == "DROPPED") == bool(own), f"{of}: {answer}, with {len(own)} holds")
        if own:
            _, place, stood = own[-1]
            self.holds = [it for it in self.holds if it is not own[-1]]
            wants(stood is None or told == stood, f"{of}: {told}, and what was held is {stood}")
            place[0] = told

    def look_up(self, of, line, answer, told):
        """A get, hold, touch or del."""
        key = line.key
        if answer == "TOO_MANY_REFS":
            wants(len(self.holds) == MOST_REFS, f"{of}: {answer}, with {len(self.holds)} holds")
            return
        if answer == "NOT_FOUND":
            wants(key not in self.stays, f"{of}: it is gone")
            self.see_nothing(key)
            return
        stood = self.standing.get(key)
        wants(stood or key not in self.standing, f"{of}: {answer}, where it has no item")
        wants(not (told and stood) or told == stood, f"{of}: {told}, where {stood} stands")
        if line.verb == "del":
            self.see_nothing(key)
            return
        place = self.see(key, told)
        self.stand(key, stood)
        if line.verb == "hold":
            self.holds.append((key, place, stood))

    def see(self, key, item):
        place = [item]
        self.seen.setdefault(key, []).append(place)
        return place

    def see_nothing(self, key):
        """A moment without an item, which no other is."""
        self.see(key, (self.worker, len(self.seen.get(key, ()))))
        self.stays.discard(key)
        if key in self.standing:
            self.standing[key] = None

    def stand(self, key, item):
        """The key has an item, and may only lose it by lines of others, or by a move or want of room."""
        if key in self.standing:
            self.standing[key] = item
        if key in self.script.kept and (key in self.standing or key not in self.script.deleted):
            self.stays.add(key)


class Mover:
    """The mover's lines, gone through with their replies."""

    def __init__(self, script):
        self.script, self.table = script, script.table
        self.mode = self.table.automove
        # the move that this thread began: its source, -1 where the pick isn't told, and what was cleared
        self.source, self.cleared = None, 0
        self.begun = 0
        self.sums = {name: 0 for name in ("moved", "cleared", "rescued", "evicted", "busy")}

    def take(self, line, output):
        if line.verb == "stats":
            self.compare(output.statistics(line.verb))
            return
        if line.verb == "stats slabs":
            output.statistics(line.verb)
            return
        reply = output.next(line)
        of = f"{line.verb} {line.numbers}: {' '.join(reply)}"
        if line.verb == "turn":
            self.turn(of, reply)
        elif line.verb == "window":
            self.window(of, reply)
        elif line.verb == "reassign":
            wants(len(reply) == 1, of)
            self.reassign(of, *line.numbers, reply[0])
        else:
            wants(reply == ["OK"], of)
            self.mode = line.numbers[0]

    def window(self, of, reply):
        if reply == ["WINDOW", "none"]:
            return
        wants(self.mode == 1 and len(reply) == 4 and reply[0] == "WINDOW" and reply[1].isdigit() and reply[2].isdigit(), of)
        wants(self.table.is_class(int(reply[1])), of)
        self.reassign(of, int(reply[1]), int(reply[2]), reply[3])

    def reassign(self, of, source, destination, answer):
        is_running = self.source is not None
        if answer == "BUSY":
            wants(is_running or self.script.may_ask, f"{of}, and no move runs")
            return
        wants(not is_running, f"{of}, and a move runs")
        picks = source == -1
        is_bad = not picks and not self.table.is_class(source) or destination != 0 and not self.table.is_class(destination)
        if source == destination:
            wants(answer == "SAME", of)
        elif is_bad or picks and answer == "BADCLASS":
            wants(answer == "BADCLASS", of)
        else:
            wants(answer == "OK" or not picks and answer == "NOSPARE", of)
        if answer == "OK":
            self.source, self.cleared = source, 0
            self.begun += 1

    def turn(self, of, reply):
        wants(len(reply) == 7 and reply[0] == "TURN" and all(it.isdigit() for it in reply[2:]), of)
        word, (cleared, rescued, evicted, busy, locked) = reply[1], map(int, reply[2:])
        wants(word in ("IDLE", "WENT", "FINISHED") and rescued + evicted <= cleared, of)
        is_running = self.source is not None
        if word == "IDLE":
            wants(not is_running and not cleared + busy + locked, f"{of}, where a move of class {self.source} ran")
            return
        wants(is_running or self.script.may_ask, f"{of}, and no move runs")
        for name, count in (("cleared", cleared), ("rescued", rescued), ("evicted", evicted), ("busy", busy + locked)):
            self.sums[name] += count
        self.cleared += cleared
        if word == "FINISHED":
            self.sums["moved"] += 1
            known = self.source is not None and self.source > 0
            page = {self.table.per_page(it) for it in ([self.source] if known else range(1, len(self.table.sizes) + 1))}
            wants(self.cleared in page, f"{of}: {self.cleared} chunks were cleared in all, and a page has {sorted(page)}")
            self.source, self.cleared = None, 0

    def compare(self, totals):
        """Compares the sums over the turns so far with statistics. No other thread has turns."""
        is_running = totals["slab_reassign_running"]
        wants(is_running or self.source is None, "the statistics say that no move runs")
        wants(not is_running or self.source is not None or self.script.may_ask, "the statistics say that a move runs")
        told = {"moved": "slabs_moved", "rescued": "slab_reassign_rescues", "evicted": "slab_reassign_evictions_nomem"}
        for name, stat in told.items():
            wants(totals[stat] == self.sums[name], f"{stat} is {totals[stat]}, and the turns tell {self.sums[name]}")
        busy, most = totals["slab_reassign_busy_items"], self.sums["busy"]
        wants(busy <= most if is_running else busy == most, f"{busy} busy items in the statistics, and {most} in the turns")
        begun = totals["slabs_moved"] + is_running
        wants(begun >= self.begun if self.script.may_ask else begun == self.begun, f"{begun} moves began, and {self.begun} were told")
