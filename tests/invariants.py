"""The invariants of the intake as executable clauses.

A clause is a predicate over a `View`: the words of a store, and a `Ghost` with what the proof remembers beside them.
To try a new one, write a function of the view under `@clause('its name')`; every exploration then checks it on every
state it meets. `broken(words, ghost)` names the clauses that fail.

Words of the clauses: lo, tp and hi are the places of the head record, the tail record and the last record; hp is the
head position; a gap is a place whose record was folded; a place is listed if it is from lo to hi and no gap; state_at(p)
is EMPTY, SET or HANDLED, where a position of a place that is not listed counts as handled below hi and as empty past it;
own[p] is the call whose start took position p.

There are two histories. What was *told* is the papers': going adds nothing, but for the marks of a drain. In what is
*kept* every item is given at its mark, also where a dequeue then goes to phase 8, and another dequeue is opened right
there unless the mark ends the call. So the two differ in phase 8 of a dequeue, and there alone: what was told is what is
kept without its last item and the dequeue opened after it (*withdrawn*). When the call ends, what was told is kept from
then on.
"""

from typing import NamedTuple

import intake_model as im
from intake_model import EMPTY, HANDLED, SET, USE_CLAIMED, USE_FREE, USE_LINKED, USE_RETIRED


# Histories.


class Past(NamedTuple):
    """What the clauses know of a history. Sets of calls are bit masks: bit k stands for call number k."""

    values: tuple = ()  # call - 1 -> value
    ended_before: tuple = ()  # call - 1 -> calls that had ended when it started
    ended: int = 0
    taken: int = 0
    before_dequeue: int = 0  # calls that had ended when the dequeue under way started
    running: tuple = ()  # (thread, start event) of each call under way, by thread
    good: bool = True  # every dequeue's end so far was in order
    last: tuple | None = None  # of the consumer's call under way: its last item's event, what had ended when that dequeue started

    def precedes(self, a, b):
        """Whether call a ended before call b started."""
        return bool(self.ended_before[b - 1] >> a & 1)

    def start_of(self, thread):
        return dict(self.running).get(thread)

    def with_event(self, event):
        kind, thread, number, value = event
        others = tuple(pair for pair in self.running if pair[0] != thread)
        running = tuple(sorted(others + ((thread, event),))) if kind in (1, 3) else others
        past = self._replace(running=running)
        if kind == 1:
            return past._replace(values=self.values + (value,), ended_before=self.ended_before + (self.ended,))
        if kind == 2:
            return past._replace(ended=self.ended | 1 << number)
        if kind == 3:
            return past._replace(before_dequeue=self.ended)
        past = past._replace(before_dequeue=0, good=self.good and self.in_order(event))
        if kind == 5:
            return past
        return past._replace(taken=self.taken | 1 << number, last=(event, self.before_dequeue))

    def in_order(self, event):
        """The criterion at a dequeue's end."""
        kind, _, number, value = event
        if kind == 5:
            return not self.before_dequeue & ~self.taken
        begun = 1 <= number <= len(self.values) and self.values[number - 1] == value
        return begun and not self.taken >> number & 1 and not self.ended_before[number - 1] & ~self.taken

    def withdrawn(self):
        """Without its last item and the consumer's events since."""
        (_, _, number, _), before = self.last
        began = self._replace(taken=self.taken & ~(1 << number), before_dequeue=before, last=None)
        others = tuple(pair for pair in self.running if pair[0] != 0)
        return began._replace(running=((0, im.STARTED),) + others)

    def open_since(self, item):
        """Whether this item is the last, and a dequeue has been opened after it, whose end is to come."""
        return self.last is not None and self.last[0] == im.gave(item) and self.start_of(0) == im.STARTED

    def at_rest(self):
        """The consumer's call has ended: its last item is like any before."""
        return self._replace(last=None)


class Events(im.History):
    """A history as its events."""

    def with_event(self, event):
        return Events(super().with_event(event))

    def withdrawn(self):
        return Events(super().withdrawn())

    def open_since(self, item):
        """The same. After the dequeue's start there are events of enqueues alone."""
        last, *since = self[self.last_item() :]
        return last == im.gave(item) and [event for event in since if event[0] not in (1, 2)] == [im.STARTED]

    def at_rest(self):
        return self


# Ghost.


class Ghost(NamedTuple):
    """What a run leaves beside the words."""

    own: tuple = ()  # position -> call, written at the start, which takes the position
    kept: Past = Past()
    told: Past = Past()
    entries: tuple = ()  # position -> state, as the steps have written it
    gap: tuple = ()  # the places whose records were folded, in the order of the folds
    last: int = 1  # the greatest place that was linked

    def after(self, call, before, reply, words):
        """The ghost after a call with this reply; `before` are the words before the call, `words` those after it."""
        if reply[0] == 'refused':
            return self
        thread, phase, ghost = im.thread_of(call), None, self
        if call[0] == 'e':
            ghost = self._replace(own=self.own + (reply[1],), entries=self.entries + (EMPTY,))
        if call[0] == 's':
            phase = before[im.CONTENTS + im.THREAD_WORDS * thread]
            ghost = self.of_store(thread, phase, before, words)
        told = im.told(self.told, call, reply, before, words)
        if not thread and reply[0] in ('item', 'empty', 'drained'):
            told = told.at_rest()
            return ghost._replace(kept=told, told=told)
        if not thread and phase == 7:
            item = tuple(before[im.CONTENTS + k] for k in (im.ITEM_CALL, im.ITEM_VALUE))
            return ghost._replace(kept=self.kept.with_event(im.gave(item)).with_event(im.STARTED), told=told)
        if self.kept == self.told:
            return ghost._replace(kept=told, told=told)
        return ghost._replace(kept=im.told(self.kept, call, reply, before, words), told=told)

    def of_store(self, thread, phase, before, words):
        """Entries, gaps and last place after a step of a thread in a phase, by what these phases do."""
        own = im.CONTENTS + im.THREAD_WORDS * thread
        if thread and phase == 9:
            return self._replace(entries=put(self.entries, before[own + im.POSITION], SET))
        if thread and phase in (5, 11):
            held, claimed = (before[own + k] for k in (im.HELD, im.CLAIMED))
            if not part(before, held, im.NEXT):
                return self._replace(last=max(self.last, part(words, claimed, im.PLACE)))
        if not thread and phase == 7:
            return self._replace(entries=put(self.entries, before[own + im.FOUND_POSITION], HANDLED))
        if not thread and phase == 3:
            cursor = before[own + im.CURSOR]
            if part(before, cursor, im.USE) != part(words, cursor, im.USE):
                return self._replace(gap=self.gap + (part(before, cursor, im.PLACE),))
        return self


def put(items, k, item):
    """A tuple with another item at k."""
    return items[:k] + (item,) + items[k + 1 :]


def part(words, number, k):
    """A word of the record with this stored number."""
    return words[words[5] + (number - 1) * im.record_words(words[0]) + k]


def listed():
    """A ghost that has its histories as lists of events."""
    return Ghost(kept=Events(), told=Events())


# View.


class Producer(NamedTuple):
    """A producer's words; records by number, None for none."""

    thread: int
    phase: int
    call: int
    value: int
    L: int
    held: int | None
    claimed: int | None
    back: int
    place: int  # of the held record, 0 for none


class Consumer(NamedTuple):
    phase: int
    cursor: int | None
    cursor_position: int
    found: int | None
    found_position: int
    item_call: int
    item_value: int


def record_number(word):
    return word - 1 if word else None


class View:
    """A store read once, with what the clauses speak of."""

    def __init__(self, words, ghost):
        self.words, (self.own, self.kept, self.told, self.entries, self.gap, self.last) = words, ghost
        self.B, self.N, self.P, self.M = words[:4]
        self.tail, self.hp, self.starts = words[im.TAIL], words[im.HEAD_POSITION], words[im.STARTS]
        self.tail_record, self.head_record = words[im.TAIL_RECORD] - 1, words[im.HEAD_RECORD] - 1
        self.limit, self.count = (im.drain_word(words, k) for k in (im.LIMIT, im.COUNT))
        self.read_records()
        self.read_threads()

    def read_records(self):
        first, size = self.words[5], im.record_words(self.B)
        self.record = [self.words[first + r * size : first + (r + 1) * size] for r in range(self.N)]
        self.place = [record[im.PLACE] for record in self.record]
        self.next = [record_number(record[im.NEXT]) for record in self.record]
        self.prev = [record_number(record[im.PREV]) for record in self.record]
        self.use = [record[im.USE] for record in self.record]
        self.states = [record[im.RECORD_HEAD :: im.ENTRY_WORDS] for record in self.record]
        self.chain = [self.head_record]  # from the head record along next, at most N records
        while self.next[self.chain[-1]] is not None and len(self.chain) <= self.N:
            self.chain.append(self.next[self.chain[-1]])
        self.at_place = {self.place[r]: r for r in self.chain}
        # the positions of the chain, with their states
        self.positions = [pair for r in self.chain for pair in enumerate(self.states[r], self.B * (self.place[r] - 1))]
        self.lo, self.tp, self.hi = (self.place[r] for r in (self.head_record, self.tail_record, self.chain[-1]))

    def read_threads(self):
        own = [self.words[16 + 8 * t : 24 + 8 * t] for t in range(self.P + 1)]
        phase, cursor, cursor_position, found, found_position, call, value, _ = own[0]
        self.scanned = cursor_position if phase >= 6 else 0
        self.consumer = Consumer(
            phase, record_number(cursor), cursor_position, record_number(found), found_position, call, value
        )
        self.producers = []
        for t in range(1, self.P + 1):
            phase, call, value, L, held, claimed, back, _ = own[t]
            place = self.place[held - 1] if held else 0
            self.producers.append(
                Producer(t, phase, call, value, L, record_number(held), record_number(claimed), back, place)
            )
        self.under_way = [p for p in self.producers if p.phase]

    def state_at(self, p):
        r = self.at_place.get(p // self.B + 1)
        if r is not None:
            return self.states[r][p % self.B]
        return HANDLED if p < self.B * self.hi else EMPTY

    def entry_at(self, p):
        """State, call number and value of a position of the chain."""
        at = im.RECORD_HEAD + im.ENTRY_WORDS * (p % self.B)
        return tuple(self.record[self.at_place[p // self.B + 1]][at : at + im.ENTRY_WORDS])

    def set_positions(self, below=None):
        """The positions of the chain that are set, those below a bound if one is given."""
        return [p for p, state in self.positions if state == SET and (below is None or p < below)]

    def listed(self, k):
        """Whether a place is in the list, by the ghost."""
        return self.lo <= k <= self.last and k not in self.gap

    def awaited(self, L):
        """Whether the record of a position is in the list."""
        return self.listed(L // self.B + 1)

    def trail(self, L, x):
        """From x back over retired records, whose places fall, to a linked one that ends past L."""
        while self.use[x] == USE_RETIRED and self.prev[x] is not None and self.place[self.prev[x]] < self.place[x]:
            x = self.prev[x]
        return self.use[x] == USE_LINKED and L < self.B * self.place[x]

    def position_of(self, call):
        return self.own.index(call) if call in self.own else None

    def is_ended(self, call):
        return bool(self.kept.ended >> call & 1)

    def is_taken(self, call):
        return bool(self.kept.taken >> call & 1)

    def calls_in(self, mask):
        return [k for k in range(1, mask.bit_length()) if mask >> k & 1]

    def in_phases(self, first, last):
        return [p for p in self.under_way if first <= p.phase <= last] if self.under_way else []

    def inside(self, r, position):
        """Whether a position lies in record r."""
        return position < self.B * self.place[r] <= position + self.B


CLAUSES = {}
TOLD = {}  # those that hold of histories as lists of events too
STORE = {}  # those that look at no history: at words, entries and gaps alone


def clause(name, group=None):
    """Register a predicate over a view under a short name, also with a group."""

    def register(holds):
        CLAUSES[name] = holds
        if group is not None:
            group[name] = holds
        return holds

    return register


def of_store(name):
    """Register a predicate that looks at no history."""
    return clause(name, STORE)


def broken(words, ghost, clauses=None):
    """The names of the clauses that fail. A clause that cannot be evaluated on the view fails."""
    view, named = View(words, ghost), (clauses or CLAUSES).items()
    try:
        return [name for name, holds in named if not holds(view)]
    except (LookupError, TypeError):
        return [name for name, holds in named if not evaluates(holds, view)]


def evaluates(holds, view):
    try:
        return holds(view)
    except (LookupError, TypeError):
        return False


# Ranges.


@of_store('ranges')
def _(v):
    return im.in_range(v.words)


# The position machine: places.


@of_store('places: 1 <= lo <= tp <= hi')
def _(v):
    return 1 <= v.lo <= v.tp <= v.hi


@of_store('places: B*lo <= hp + B')
def _(v):
    return v.B * v.lo <= v.hp + v.B


@of_store('places: hp <= B*lo')
def _(v):
    return v.hp <= v.B * v.lo


@of_store('places: hp <= tail')
def _(v):
    return v.hp <= v.tail


@of_store('places: hi <= tp + 1')
def _(v):
    return v.hi <= v.tp + 1


@of_store('places: B*tp <= tail + B')
def _(v):
    return v.B * v.tp <= v.tail + v.B


@of_store('places: hi is the greatest that was linked')
def _(v):
    return v.hi == v.last


@of_store('places: B*hi + 2 <= tail + 2*B')
def _(v):
    return v.B * v.hi + 2 <= v.tail + 2 * v.B


@of_store('places: tail equals starts')
def _(v):
    return v.tail == v.starts


# Entries.


@of_store('entries: empty from tail on')
def _(v):
    return not any(state for p, state in v.positions if p >= v.tail)


@of_store('entries: handled below hp')
def _(v):
    return all(state == HANDLED for p, state in v.positions if p < v.hp)


@of_store('entries: set only below B*tp')
def _(v):
    return all(p < v.B * v.tp for p in v.set_positions())


@of_store('entries: not empty only below B*tp')
def _(v):
    return not any(state for p, state in v.positions if p >= v.B * v.tp)


@clause('entries: set or handled carry the call and value of own')
def _(v):
    for p, _ in v.positions:
        state, call, value = v.entry_at(p)
        if state != EMPTY and (call, value) != (v.own[p], v.kept.values[v.own[p] - 1]):
            return False
    return True


@of_store('entries: as the steps have written them')
def _(v):
    return all(v.state_at(p) == state for p, state in enumerate(v.entries))


@of_store('entries: handled in a gap')
def _(v):
    return all(set(v.entries[v.B * (k - 1) : v.B * k]) == {HANDLED} for k in v.gap)


@of_store('entries: set only in a linked record')
def _(v):
    return not any(SET in v.states[r] for r in range(v.N) if v.use[r] != USE_LINKED)


@of_store('entries: all handled in a retired record')
def _(v):
    return all(set(v.states[r]) == {HANDLED} for r in range(v.N) if v.use[r] == USE_RETIRED)


@of_store('entries: empty in [hp, tail) has a producer in 2 to 9 there')
def _(v):
    there = {p.L for p in v.in_phases(2, 9)}
    return all(p in there for p in range(v.hp, v.tail) if v.state_at(p) == EMPTY)


# Ownership.


@clause('ownership: own is written for the positions below tail')
def _(v):
    return len(v.own) == v.tail


@clause('ownership: the owner of position p is call p + 1')
def _(v):
    return all(call == p + 1 for p, call in enumerate(v.own))


@clause('ownership: every owner has begun')
def _(v):
    return all(1 <= call <= len(v.kept.values) for call in v.own)


@clause('ownership: injective')
def _(v):
    return len(set(v.own)) == len(v.own)


@clause('ownership: p < q implies not own q precedes own p')
def _(v):
    later = 0
    for call in reversed(v.own):
        if v.kept.ended_before[call - 1] & later:
            return False
        later |= 1 << call
    return True


# The past.


@clause('past: good')
def _(v):
    return v.kept.good


@clause('past: begun calls are 1 to starts')
def _(v):
    return len(v.kept.values) == v.starts


@clause('past: ended implies taken or set')
def _(v):
    untaken = v.calls_in(v.kept.ended & ~v.kept.taken)
    return all(call in v.own and v.state_at(v.position_of(call)) == SET for call in untaken)


@clause('past: taken implies handled')
def _(v):
    return all(call in v.own and v.state_at(v.position_of(call)) == HANDLED for call in v.calls_in(v.kept.taken))


@clause('past: handled below tail implies taken')
def _(v):
    return all(v.is_taken(call) for p, call in enumerate(v.own) if v.state_at(p) == HANDLED)


# Producers, by phase.


@clause('producer 2-11: its words are those of its start')
def _(v):
    return all(v.kept.start_of(p.thread)[2:] == (p.call, p.value) for p in v.in_phases(2, 11))


@clause('producer 2-11: not ended')
def _(v):
    return not any(v.is_ended(p.call) for p in v.in_phases(2, 11))


@of_store('producer 2-11: its call is L + 1')
def _(v):
    return all(p.call == p.L + 1 for p in v.in_phases(2, 11))


@of_store('producer 2-9: L < tail')
def _(v):
    return all(p.L < v.tail for p in v.in_phases(2, 9))


@of_store('producer 2-9: the entry at L is empty')
def _(v):
    return all(v.state_at(p.L) == EMPTY for p in v.in_phases(2, 9))


@clause('producer 2-11: own L is its call')
def _(v):
    return all(p.L < v.tail and v.own[p.L] == p.call for p in v.in_phases(2, 11))


@of_store('producer 3-11: place <= tp')
def _(v):
    return all(p.held is not None and p.place <= v.tp for p in v.in_phases(3, 11))


@of_store('producer 3-6: B*place <= L')
def _(v):
    return all(v.B * p.place <= p.L for p in v.in_phases(3, 6))


@of_store('producer 6: place < hi')
def _(v):
    return all(p.place < v.hi for p in v.in_phases(6, 6))


@of_store('producer 7: L + B < B*place')
def _(v):
    return all(p.L + v.B < v.B * p.place for p in v.in_phases(7, 7))


@of_store('producer 8-11: L < B*place <= L + B')
def _(v):
    return all(v.inside(p.held, p.L) for p in v.in_phases(8, 11))


@of_store('producer 9: the entry carries its call and value')
def _(v):
    return all(v.entry_at(p.L) == (EMPTY, p.call, p.value) for p in v.in_phases(9, 9))


@clause('producer 10-11: its call is taken or its entry set')
def _(v):
    return all(v.is_taken(p.call) or v.state_at(p.L) == SET for p in v.in_phases(10, 11))


@clause('producer 2-9: its call is not taken')
def _(v):
    return not any(v.is_taken(p.call) for p in v.in_phases(2, 9))


# The consumer, by phase.


def consumer_in(v, first, last):
    return first <= v.consumer.phase <= last


@of_store('consumer 2-7: hp < B*lo')
def _(v):
    return not consumer_in(v, 2, 7) or v.hp < v.B * v.lo


@clause('consumer 2: no set entry up to hp had ended before this dequeue')
def _(v):
    return not consumer_in(v, 2, 2) or not any(before_dequeue(v, p) for p in v.set_positions(v.hp + 1))


@clause('consumer 3-4: no set entry below the cursor had ended before this dequeue')
def _(v):
    below = v.consumer.cursor_position
    return not consumer_in(v, 3, 4) or not any(before_dequeue(v, p) for p in v.set_positions(below))


def before_dequeue(v, p):
    return v.kept.before_dequeue >> v.own[p] & 1


@clause('consumer 5: no set entry below the cursor precedes found')
def _(v):
    return not consumer_in(v, 5, 5) or none_precedes_found(v, v.consumer.cursor_position)


@clause('consumer 6-7: no set entry below found precedes found')
def _(v):
    return not consumer_in(v, 6, 7) or none_precedes_found(v, v.consumer.found_position)


def none_precedes_found(v, below):
    found = v.own[v.consumer.found_position]
    return not any(v.kept.precedes(v.own[p], found) for p in v.set_positions(below))


@of_store('consumer 3: hp < cursor <= tail')
def _(v):
    return not consumer_in(v, 3, 3) or v.hp < v.consumer.cursor_position <= v.tail


@of_store('consumer 4: hp < cursor < tail')
def _(v):
    return not consumer_in(v, 4, 4) or v.hp < v.consumer.cursor_position < v.tail


@of_store('consumer 3-5: lo <= cursor place <= tp')
def _(v):
    return not consumer_in(v, 3, 5) or v.lo <= v.place[v.consumer.cursor] <= v.tp


@of_store('consumer 3-5: cursor in its record or at its end')
def _(v):
    c = v.consumer
    if not consumer_in(v, 3, 5):
        return True
    return c.cursor_position <= v.B * v.place[c.cursor] <= c.cursor_position + v.B


@of_store('consumer 4: cursor in its record')
def _(v):
    return not consumer_in(v, 4, 4) or v.inside(v.consumer.cursor, v.consumer.cursor_position)


@of_store('consumer 5: hp <= cursor < found')
def _(v):
    c = v.consumer
    return not consumer_in(v, 5, 5) or v.hp <= c.cursor_position < c.found_position


@of_store('consumer 5: at its end the cursor is before the tail record')
def _(v):
    c = v.consumer
    if not consumer_in(v, 5, 5) or c.cursor_position != v.B * v.place[c.cursor]:
        return True
    return v.place[c.cursor] < v.tp


@of_store('consumer 5-7: hp <= found < tail')
def _(v):
    return not consumer_in(v, 5, 7) or v.hp <= v.consumer.found_position < v.tail


@of_store('consumer 5-7: found is set')
def _(v):
    return not consumer_in(v, 5, 7) or v.state_at(v.consumer.found_position) == SET


@of_store('consumer 5-7: found in its record')
def _(v):
    return not consumer_in(v, 5, 7) or v.inside(v.consumer.found, v.consumer.found_position)


@of_store('consumer 7: the item is that of found')
def _(v):
    c = v.consumer
    return not consumer_in(v, 7, 7) or v.entry_at(c.found_position)[1:] == (c.item_call, c.item_value)


@of_store('consumer 8: hp = B*lo')
def _(v):
    return not consumer_in(v, 8, 8) or v.hp == v.B * v.lo


@of_store('consumer 8: lo < tp')
def _(v):
    return not consumer_in(v, 8, 8) or v.lo < v.tp


@clause('consumer 8: the item is that of the position before hp')
def _(v):
    if not consumer_in(v, 8, 8):
        return True
    call = v.own[v.hp - 1]
    return (v.consumer.item_call, v.consumer.item_value) == (call, v.kept.values[call - 1])


# Drains.


@of_store('drain: below its limit but in 8')
def _(v):
    return v.limit == 0 or consumer_in(v, 8, 8) or v.count < v.limit


@of_store('drain 8: has an item')
def _(v):
    return v.limit == 0 or not consumer_in(v, 8, 8) or v.count > 0


@of_store('drain 2-5: has no item')
def _(v):
    return not consumer_in(v, 2, 5) or v.count == 0


@of_store('drain 6-8: came through the scan for its first item alone')
def _(v):
    return not v.scanned or v.limit > 0 and v.count == (1 if v.consumer.phase == 8 else 0)


@of_store('drain 6-7: came through the scan, or found is the head')
def _(v):
    return not consumer_in(v, 6, 7) or v.limit == 0 or v.scanned or v.consumer.found_position == v.hp


@clause('drain: the last pair is the last item kept, and a dequeue is open since', TOLD)
def _(v):
    return v.count == 0 or v.kept.open_since(im.pair(v.words, v.count - 1))


@of_store('drain 8: the item is the last pair')
def _(v):
    item = v.consumer.item_call, v.consumer.item_value
    return v.limit == 0 or not consumer_in(v, 8, 8) or item == im.pair(v.words, v.count - 1)


# What was told.


def late(v):
    """A dequeue's item is marked and not told."""
    return v.limit == 0 and consumer_in(v, 8, 8)


@clause('told: what is kept, but in 8 of a dequeue', TOLD)
def _(v):
    return late(v) or v.told == v.kept


@clause('told 8: the item of a dequeue is the last one kept, and a dequeue is open since', TOLD)
def _(v):
    return not late(v) or v.kept.open_since((v.consumer.item_call, v.consumer.item_value))


@clause('told 8: of a dequeue, what is kept withdrawn', TOLD)
def _(v):
    return not late(v) or v.told == v.kept.withdrawn()


@clause('told 8: the item of a dequeue may be given now')
def _(v):
    return not late(v) or v.told.in_order(im.gave((v.consumer.item_call, v.consumer.item_value)))


@clause('told: the last item of a drain may be given later')
def _(v):
    return v.count == 0 or v.kept.withdrawn().in_order(im.gave(im.pair(v.words, v.count - 1)))


@clause('told: good')
def _(v):
    return v.told.good


# Memory: the list.


@of_store('list: ends')
def _(v):
    return len(v.chain) <= v.N


@of_store('list: its records have use 2')
def _(v):
    return all(v.use[r] == USE_LINKED for r in v.chain)


@of_store('list: its places rise')
def _(v):
    return all(v.place[a] < v.place[b] for a, b in zip(v.chain, v.chain[1:]))


@of_store('list: prev leads back, but from the head record')
def _(v):
    return all(v.prev[b] == a for a, b in zip(v.chain, v.chain[1:]))


@of_store('list: has a record of each listed place, and of no other')
def _(v):
    return [v.place[r] for r in v.chain] == [k for k in range(v.lo, v.last + 1) if v.listed(k)]


@of_store('list: has every record of use 2')
def _(v):
    return all(r in v.chain for r in range(v.N) if v.use[r] == USE_LINKED)


@of_store('list: has the tail record')
def _(v):
    return v.tail_record in v.chain


@of_store('list: lo is no gap, nor is a place from tp on')
def _(v):
    return v.lo not in v.gap and all(k < v.tp for k in v.gap)


@of_store('records: one of use 0 is wholly zero')
def _(v):
    return not any(any(v.record[r]) for r in range(v.N) if v.use[r] == USE_FREE)


@of_store('records: a retired one has a next')
def _(v):
    return all(v.next[r] is not None for r in range(v.N) if v.use[r] == USE_RETIRED)


@of_store('records: a retired one has a place below tp that is not listed')
def _(v):
    return all(1 <= v.place[r] < v.tp and not v.listed(v.place[r]) for r in range(v.N) if v.use[r] == USE_RETIRED)


# Memory: holding and claiming.


@of_store('held: in phases 3 to 11')
def _(v):
    return all(p.held is not None for p in v.in_phases(3, 11))


@of_store('held: use 2, or use 3')
def _(v):
    return all(v.use[p.held] in (USE_LINKED, USE_RETIRED) for p in v.producers if p.held is not None)


@of_store('held 2-9: the place of L is listed, or past the last')
def _(v):
    return all(v.awaited(p.L) or p.L >= v.B * v.last for p in v.in_phases(2, 9))


@of_store('held 7: lo < place')
def _(v):
    return all(v.lo < p.place for p in v.in_phases(7, 7))


@of_store('held 7: a trail leads to L')
def _(v):
    return all(v.trail(p.L, p.held) for p in v.in_phases(7, 7))


@of_store('held 7-9: the place of L is listed')
def _(v):
    return all(v.awaited(p.L) for p in v.in_phases(7, 9))


@of_store('held 8-9: linked')
def _(v):
    return all(v.use[p.held] == USE_LINKED for p in v.in_phases(8, 9))


@of_store('held 10-11: linked, or retired with L handled')
def _(v):
    return all(v.use[p.held] == USE_LINKED or v.entries[p.L] == HANDLED for p in v.in_phases(10, 11))


@of_store('held 8-9: past lo when the head is at its record\'s end')
def _(v):
    return v.hp != v.B * v.lo or all(v.lo < p.place for p in v.in_phases(8, 9))


@of_store('free: not linked, not claimed, not held')
def _(v):
    in_use = {r for p in v.producers for r in (p.held, p.claimed)}
    free = im.free_records(v.words)
    return not any(r in in_use or v.use[r] in (USE_CLAIMED, USE_LINKED) for r in free)


@of_store('claimed: in phases 5 and 11 and no other')
def _(v):
    return all((p.claimed is not None) == (p.phase in (5, 11)) for p in v.producers)


@of_store('claimed: use 1 and otherwise zero')
def _(v):
    wiped = [USE_CLAIMED if k == im.USE else 0 for k in range(im.record_words(v.B))]
    return all(v.record[p.claimed] == wiped for p in v.producers if p.claimed is not None)


@of_store('claimed: no two producers have the same')
def _(v):
    claimed = [p.claimed for p in v.producers if p.claimed is not None]
    return len(set(claimed)) == len(claimed)


@of_store('claimed: a record of use 1 is claimed by a producer')
def _(v):
    claimed = {p.claimed for p in v.producers}
    return all(r in claimed for r in range(v.N) if v.use[r] == USE_CLAIMED)


@of_store('word 12: all handled from the first entry of the cursor\'s record to the cursor')
def _(v):
    c = v.consumer
    if not v.words[im.ALL_HANDLED]:
        return True
    return all(v.entries[p] == HANDLED for p in range(v.B * (v.place[c.cursor] - 1), c.cursor_position))


@of_store('word 12: the cursor\'s record is not the head record')
def _(v):
    return not v.words[im.ALL_HANDLED] or v.consumer.cursor != v.head_record


@of_store('consumer: cursor and found records have use 2')
def _(v):
    return all(v.use[r] == USE_LINKED for r in (v.consumer.cursor, v.consumer.found) if r is not None)


# Demand 3 in the terms of the ghost: what is left when no call is under way. It need not be so in phase 8, where the
# item is neither left nor told.


@clause('left: idle leaves the untaken calls, none after one that it precedes')
def _(v):
    if v.told.running:
        return True
    left = im.items_left(v.words)
    calls = [call for call, _ in left]
    untaken = [k for k in range(1, v.starts + 1) if not v.told.taken >> k & 1]
    timely = not any(v.told.precedes(b, a) for k, a in enumerate(calls) for b in calls[k + 1 :])
    return sorted(calls) == untaken and timely and all(v.told.values[call - 1] == value for call, value in left)
