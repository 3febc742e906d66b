"""An independent model of the Jiffy intake, written by hand from document 01 and from U1 to U3, U5, U6 and U8 of document 02.

The store is a list of 32-bit words. `open_store`, `start_enqueue`, `start_dequeue`, `start_drain` and `step` change the
list, and the buffer that a step is lent, only when they accept. They answer one of

    ('ok',)  ('ok', call, steps)  ('refused', number)
    ('going', steps)  ('end', steps)  ('empty', steps)  ('item', call, value, steps)  ('drained', items, steps)

where steps is the number of accepted steps of that call so far, and items how many a drain gave. Starting an enqueue is
its first step. Each phase is one method of `Intake`, under the sentence of the papers that it renders. A wrong engine for
a test is a subclass that overrides one method.
"""

from functools import lru_cache
from operator import le

U32 = 2**32 - 1
MAX_PLACE = 500_002
MOST_STEPS = 100_000_000
LIMITS = ((2, 64), (2, 64), (1, 16), (1, 1_000_000))  # of B, N, P, M

# Contents.
CONTENTS = 16
TAIL, TAIL_RECORD, HEAD_RECORD, HEAD_POSITION, STARTS, LAST_CLAIMED, ALL_HANDLED, SPARE = range(6, 14)

# Thread words: phase and the call's accepted steps for both, then the producer's, then the consumer's.
THREAD_WORDS = 8
PHASE, STEPS = 0, 7
CALL, VALUE, POSITION, HELD, CLAIMED, BACK = range(1, 7)
CURSOR, CURSOR_POSITION, FOUND, FOUND_POSITION, ITEM_CALL, ITEM_VALUE = range(1, 7)
SCANNED = CURSOR_POSITION  # in phases 6 to 8: 1 where a drain came there through the scan
LAST_PRODUCER_PHASE, LAST_CONSUMER_PHASE = 11, 8
SCANNING = (3, 4)  # the consumer's phases in which word 12 may be 1

# The words in use in each phase; the others are zero then. A phase that is not here is out of range: a producer has no phase 1.
PRODUCER_USES = {0: ()} | {phase: (0, 1, 2, 3, 4, 6, 7) for phase in (2, 3, 4, 6, 7, 8, 9)}
PRODUCER_USES |= {5: (0, 1, 2, 3, 4, 5, 6, 7), 10: (0, 1, 2, 3, 4, 7), 11: (0, 1, 2, 3, 4, 5, 7)}
CONSUMER_USES = {0: (), 1: (0, 7), 2: (0, 7), 3: (0, 1, 2, 7), 4: (0, 1, 2, 7), 5: (0, 1, 2, 3, 4, 7)}
CONSUMER_USES |= {6: (0, 2, 3, 4, 7), 7: (0, 2, 3, 4, 5, 6, 7), 8: (0, 2, 5, 6, 7)}

# Record words, uses of a record and states of an entry.
RECORD_HEAD, ENTRY_WORDS = 4, 3
PLACE, NEXT, PREV, USE = range(4)
USE_FREE, USE_CLAIMED, USE_LINKED, USE_RETIRED = range(4)
STATE, ENTRY_CALL, ENTRY_VALUE = range(3)
EMPTY, SET, HANDLED = range(3)

# Drain area, behind the records: limit and count, then pairs of call number and value.
LIMIT, COUNT, PAIRS = range(3)
MOST_ITEMS = 64
DRAIN_WORDS = PAIRS + 2 * MOST_ITEMS

GOING, END, NOTHING = ('going',), ('end',), ('empty',)  # of a phase; the number of steps comes after


class Refused(Exception):
    """A call turned down from inside a phase; it never leaves `step`."""

    def __init__(self, number):
        super().__init__(number)
        self.number = number


def needed_words(B, N, P):
    """The words a store of these sizes takes."""
    return drain_at(B, N, P) + DRAIN_WORDS


def drain_at(B, N, P):
    """The first word of the drain area."""
    return CONTENTS + THREAD_WORDS * (P + 1) + N * record_words(B)


def record_words(B):
    return RECORD_HEAD + ENTRY_WORDS * B


def sizes_allowed(sizes):
    return all(low <= size <= high for size, (low, high) in zip(sizes, LIMITS))


# Ranges.


@lru_cache(maxsize=256)
def thread_limits(N, M):
    """The greatest allowed thread words, by phase: (the consumer's, a producer's)."""
    consumer = (LAST_CONSUMER_PHASE, N, M, N, M, M, U32, MOST_STEPS)
    producer = (LAST_PRODUCER_PHASE, M, U32, M, N, N, 1, MOST_STEPS)

    def by_phase(tops, uses):
        return {phase: tuple(top if k in used else 0 for k, top in enumerate(tops)) for phase, used in uses.items()}

    by_cursor, by_flag = (by_phase(tops, CONSUMER_USES) for tops in (consumer, consumer[:2] + (1,) + consumer[3:]))
    by_flag = {phase: tops for phase, tops in by_flag.items() if phase >= 6}
    return by_cursor | by_flag, by_phase(producer, PRODUCER_USES)


@lru_cache(maxsize=256)
def record_limits(B, N, M):
    """The greatest allowed words of all records, one after the other."""
    return ((MAX_PLACE, N, N, USE_RETIRED) + (HANDLED, M, U32) * B) * N


def contents_in_range(words):
    _, N, P, M = words[:4]
    return (
        words[4] == CONTENTS
        and words[5] == CONTENTS + THREAD_WORDS * (P + 1)
        and words[TAIL] <= M
        and 1 <= words[TAIL_RECORD] <= N
        and 1 <= words[HEAD_RECORD] <= N
        and words[HEAD_POSITION] <= M
        and words[STARTS] <= M
        and 1 <= words[LAST_CLAIMED] <= N
        and words[ALL_HANDLED] <= (words[CONTENTS + PHASE] in SCANNING)
        and not any(words[SPARE:CONTENTS])
    )


def threads_in_range(words):
    _, N, P, M = words[:4]
    consumer, producer = thread_limits(N, M)
    for t in range(P + 1):
        limits = producer if t else consumer
        own = words[CONTENTS + THREAD_WORDS * t : CONTENTS + THREAD_WORDS * (t + 1)]
        if own[PHASE] not in limits or not all(map(le, own, limits[own[PHASE]])):
            return False
    return True


def records_in_range(words):
    B, N, P, M = words[:4]
    first = CONTENTS + THREAD_WORDS * (P + 1)
    return all(map(le, words[first : first + N * record_words(B)], record_limits(B, N, M)))


def drain_in_range(words):
    """Limit, 0 to 64, and count, 0 to the limit, then 64 pairs, ranged as an entry's; what isn't in use is zero."""
    B, N, P, M = words[:4]
    first = drain_at(B, N, P)
    limit, count = words[first + LIMIT], words[first + COUNT]
    behind = first + PAIRS + 2 * count
    return (
        limit <= (MOST_ITEMS if words[CONTENTS + PHASE] else 0)
        and count <= limit
        and all(call <= M for call in words[first + PAIRS : behind : 2])
        and not any(words[behind : first + DRAIN_WORDS])
    )


def admission(words):
    """Refusals 2 and 3 in their order; 0 when the store is admitted."""
    if len(words) < CONTENTS:
        return 2
    if not sizes_allowed(words[:4]):
        return 3
    if len(words) < needed_words(*words[:3]):
        return 2
    rest = threads_in_range(words) and records_in_range(words) and drain_in_range(words)
    return 0 if contents_in_range(words) and rest else 3


def in_range(words):
    """Whether the store is long enough and every word is within its range."""
    return admission(words) == 0


# Claiming.


def held_records(words):
    """The records that producers hold: held and claimed words of every phase."""
    _, _, P, _ = words[:4]
    held = set()
    for t in range(1, P + 1):
        own = CONTENTS + THREAD_WORDS * t
        held.update((words[own + HELD] - 1, words[own + CLAIMED] - 1))
    return held - {-1}


def record_parts(words, k):
    """Word k of each record."""
    B, N, P, _ = words[:4]
    first = CONTENTS + THREAD_WORDS * (P + 1)
    return words[first + k : first + N * record_words(B) : record_words(B)]


def free_records(words):
    """Free: the use is 0, or it is 3 and no producer holds the record or any retired record of greater place. In rising
    order."""
    uses, places, held = record_parts(words, USE), record_parts(words, PLACE), held_records(words)
    held_places = [places[x] for x in held if uses[x] == USE_RETIRED]

    def let_go(r):
        return r not in held and not any(place > places[r] for place in held_places)

    return [r for r, use in enumerate(uses) if use == USE_FREE or use == USE_RETIRED and let_go(r)]


def first_after_last(words, records):
    """The first of some records after the one claimed last, counting upward and past the end to record 0. The one
    claimed last comes last of all. None if there are no records."""
    N, r = words[1], words[LAST_CLAIMED] - 1
    for _ in range(N):
        r += 1
        if r == N:
            r = 0
        if r in records:
            return r
    return None


def next_free(words):
    """The record that a claim takes: the first free one after the one claimed last. None if none is free."""
    return first_after_last(words, free_records(words))


def items_left(words):
    """Call number and value of every entry in state 1, in any record, by rising position."""
    B, N, P, _ = words[:4]
    found = []
    for r in range(N):
        record = CONTENTS + THREAD_WORDS * (P + 1) + r * record_words(B)
        for i in range(B):
            entry = record + RECORD_HEAD + ENTRY_WORDS * i
            if words[entry + STATE] == SET:
                position = B * (words[record + PLACE] - 1) + i
                found.append((position, words[entry + ENTRY_CALL], words[entry + ENTRY_VALUE]))
    return [(call, value) for _, call, value in sorted(found)]


# Drains.


def drain_word(words, k):
    """A word of the drain area."""
    return words[drain_at(*words[:3]) + k]


def pair(words, k):
    """The call number and value of an item that is kept in the drain area."""
    at = drain_at(*words[:3]) + PAIRS + 2 * k
    return tuple(words[at : at + 2])


# Steps.


def need(condition):
    if not condition:
        raise Refused(9)


def link(word):
    """The record a stored number names; none is refused."""
    need(word != 0)
    return word - 1


class Intake:
    """The store during one start of an enqueue or one step: a copy of the words that its sizes need, and one method a
    phase."""

    PRODUCER = (
        None, None, 'load', 'look', 'claim', 'link', 'shift', 'back', 'write', 'set', 'claim_ahead', 'link_ahead',
    )
    CONSUMER = (None, 'front', 'read_tail', 'scan_tail', 'scan_entry', 'rescan', 'read_item', 'mark', 'let_go')

    def __init__(self, words):
        self.B, self.N, self.P, self.M = words[:4]
        self.w = words[: needed_words(self.B, self.N, self.P)]
        self.own = CONTENTS
        self.area = drain_at(self.B, self.N, self.P)
        self.room, self.handed = 0, []  # words of the buffer from the named one on; those that a drain hands over

    def run(self, t, room=0):
        """One phase of thread t. `room` is the number of words of the buffer from the named one on, below 0 if it ends
        before that."""
        self.own, self.room = CONTENTS + THREAD_WORDS * t, room
        names = self.PRODUCER if t else self.CONSUMER
        so_far = self.mine(STEPS)
        reply = self.counted(getattr(self, names[self.mine(PHASE)])(), so_far)
        self.fit(reply)
        return reply

    def fit(self, reply):
        """A buffer too short from the named word, or ending before it, gives 15, after 9, at the step that would end it."""
        if reply[0] == 'drained' and self.room < len(self.handed):
            raise Refused(15)

    def counted(self, reply, so_far):
        """Every accepted step's reply carries the number of accepted steps of that call so far, this one included. It
        is kept in a word of the thread; the step that would take it out of its range is refused."""
        need(so_far < MOST_STEPS)
        if reply == GOING:
            self.put(STEPS, so_far + 1)
        return reply + (so_far + 1,)

    # Words.

    def mine(self, k):
        return self.w[self.own + k]

    def put(self, k, word):
        self.w[self.own + k] = word

    def record(self, r):
        """The first word of record r."""
        return CONTENTS + THREAD_WORDS * (self.P + 1) + r * record_words(self.B)

    def part(self, r, k):
        return self.w[self.record(r) + k]

    def put_part(self, r, k, word):
        self.w[self.record(r) + k] = word

    def index(self, r, position):
        """The index of a position in record r; refused when it leaves the record."""
        i = position - self.B * (self.part(r, PLACE) - 1)
        need(0 <= i < self.B)
        return i

    def entry(self, r, position):
        """The first word of the entry of record r at a position."""
        return self.record(r) + RECORD_HEAD + ENTRY_WORDS * self.index(r, position)

    def at_end(self, r, position):
        return position == self.B * self.part(r, PLACE)

    def first_position(self, r):
        first = self.B * (self.part(r, PLACE) - 1)
        need(0 <= first <= self.M)
        return first

    def successor(self, position):
        need(position < self.M)
        return position + 1

    # Ways out of a phase.

    def to(self, phase):
        """Go on in a phase; the words that it does not use are zeroed."""
        used = (CONSUMER_USES if self.own == CONTENTS else PRODUCER_USES)[phase]
        for k in range(THREAD_WORDS):
            if k not in used:
                self.put(k, 0)
        self.put(PHASE, phase)
        return GOING

    def idle(self, reply):
        """End the call: the thread's eight words are zero and it holds nothing. Word 12 is 0 but in the consumer's phases 3
        and 4."""
        self.w[self.own : self.own + THREAD_WORDS] = [0] * THREAD_WORDS
        if self.own == CONTENTS:
            self.w[ALL_HANDLED] = 0
        return reply

    def end_drain(self):
        """The items go into the caller's word buffer at the step where the drain ends, and the reply, drained, says how
        many, 0 for none. The area is zero then."""
        items = self.drain(COUNT)
        self.handed = self.w[self.area + PAIRS : self.area + PAIRS + 2 * items]
        self.w[self.area : self.area + DRAIN_WORDS] = [0] * DRAIN_WORDS
        return self.idle(('drained', items))

    # Producer.

    def choose(self):
        """L at or past B x place goes to 3; L below B x (place - 1) goes to 7; otherwise 8."""
        place = self.part(self.mine(HELD) - 1, PLACE)
        if self.mine(POSITION) >= self.B * place:
            return self.to(3)
        if self.mine(POSITION) < self.B * (place - 1):
            return self.to(7)
        return self.to(8)

    def next_record(self):
        """A claim takes the first free record after the one claimed last. None if none is free."""
        return next_free(self.w)

    def claim_one(self, r):
        """Claiming zeroes the record and gives it use 1. Word 11 holds it, stored plus one."""
        a = self.record(r)
        self.w[a : a + record_words(self.B)] = [0] * record_words(self.B)
        self.w[a + USE] = USE_CLAIMED
        self.w[LAST_CLAIMED] = r + 1
        self.put(CLAIMED, r + 1)

    def link_or_give_back(self):
        """If next of held is none, the claimed record becomes it, linked, prev held, place one more.
        Otherwise it is given back, use 0."""
        held, claimed = link(self.mine(HELD)), link(self.mine(CLAIMED))
        if self.part(held, NEXT):
            self.put_part(claimed, USE, USE_FREE)
            return
        place = self.part(held, PLACE) + 1
        need(place <= MAX_PLACE)
        self.put_part(held, NEXT, claimed + 1)
        self.put_part(claimed, USE, USE_LINKED)
        self.put_part(claimed, PREV, held + 1)
        self.put_part(claimed, PLACE, place)

    def begin(self, t, v):
        """Start enqueue gives call number starts + 1, and also does phase 1. That counts as the call's first step."""
        self.own = CONTENTS + THREAD_WORDS * t
        self.w[STARTS] += 1
        self.put(CALL, self.w[STARTS])
        self.put(VALUE, v)
        self.take()
        self.put(STEPS, 1)
        return ('ok', self.w[STARTS], 1)

    def take(self):
        """1. Take: L becomes tail, tail grows by one; to 2."""
        self.put(POSITION, self.w[TAIL])
        self.w[TAIL] += 1
        self.to(2)

    def load(self):
        """2. Load: hold the tail record; choose."""
        self.put(HELD, self.w[TAIL_RECORD])
        return self.choose()

    def look(self):
        """3. Look at next of held: none goes to 4, otherwise 6."""
        return self.to(6 if self.part(link(self.mine(HELD)), NEXT) else 4)

    def claim(self):
        """4. Claim a record; to 5."""
        r = self.next_record()
        if r is None:
            raise Refused(8)
        self.claim_one(r)
        return self.to(5)

    def link(self):
        """5. Link, or give back. To 6."""
        self.link_or_give_back()
        return self.to(6)

    def shift(self):
        """6. Shift: if the tail record is the held one, it becomes next of held. To 2."""
        held = link(self.mine(HELD))
        if self.w[TAIL_RECORD] == held + 1:
            self.w[TAIL_RECORD] = link(self.part(held, NEXT)) + 1
        return self.to(2)

    def back(self):
        """7. Back: hold prev of held; choose."""
        self.put(HELD, link(self.part(link(self.mine(HELD)), PREV)) + 1)
        self.put(BACK, 1)
        return self.choose()

    def write(self):
        """8. Write call number and value into the entry; to 9."""
        entry = self.entry(link(self.mine(HELD)), self.mine(POSITION))
        self.w[entry + ENTRY_CALL] = self.mine(CALL)
        self.w[entry + ENTRY_VALUE] = self.mine(VALUE)
        return self.to(9)

    def set(self):
        """9. Set the entry. If the index is 1 and phase 7 was never taken, to 10; otherwise end."""
        held = link(self.mine(HELD))
        self.w[self.entry(held, self.mine(POSITION)) + STATE] = SET
        if self.index(held, self.mine(POSITION)) == 1 and not self.mine(BACK):
            return self.to(10)
        return self.idle(END)

    def claim_ahead(self):
        """10. If none is free, end; else claim; to 11."""
        r = self.next_record()
        if r is None:
            return self.idle(END)
        self.claim_one(r)
        return self.to(11)

    def link_ahead(self):
        """11. As 5, then end. The tail record does not move."""
        self.link_or_give_back()
        return self.idle(END)

    # Consumer.

    def drain(self, k):
        return self.w[self.area + k]

    def draining(self):
        """Whether the call under way is a drain."""
        return self.drain(LIMIT) != 0

    def answer_empty(self):
        """Where a dequeue answers empty a drain ends with the items it has, and with none like that dequeue."""
        return self.end_drain() if self.draining() else self.idle(NOTHING)

    def found_at(self, r, position):
        self.put(FOUND, r + 1)
        self.put(FOUND_POSITION, position)

    def cursor_at(self, r, position):
        self.put(CURSOR, r + 1)
        self.put(CURSOR_POSITION, position)

    def cursor_to_head(self):
        self.cursor_at(self.w[HEAD_RECORD] - 1, self.w[HEAD_POSITION])

    def head_is_tail(self):
        """Whether the head record is the tail record."""
        return self.w[HEAD_RECORD] == self.w[TAIL_RECORD]

    def leave_head(self):
        """The move and retirement: next becomes head record, head position its first, the old one is retired."""
        head = self.w[HEAD_RECORD] - 1
        following = link(self.part(head, NEXT))
        self.w[HEAD_POSITION] = self.first_position(following)
        self.w[HEAD_RECORD] = following + 1
        self.put_part(head, USE, USE_RETIRED)

    def front(self):
        """1. Front. At the end of the head record: empty if it is also the tail record; otherwise next becomes head
        record, head position its first, the old one is retired; stay. Else read the entry: handled advances the
        head; set goes to 6 with found the head; empty goes to 2. A drain goes on from there without reading tail while the
        front entry is set, and ends when it isn't (the tail record's end counts so)."""
        head, position = self.w[HEAD_RECORD] - 1, self.w[HEAD_POSITION]
        if self.at_end(head, position):
            if self.head_is_tail():
                return self.answer_empty()
            self.leave_head()
            return self.to(1)
        state = self.w[self.entry(head, position) + STATE]
        if state == HANDLED:
            self.w[HEAD_POSITION] = self.successor(position)
            return self.to(1)
        if state == SET:
            self.found_at(head, position)
            return self.to(6)
        return self.not_set()

    def not_set(self):
        """An empty entry at the front. A drain that has an item ends."""
        return self.end_drain() if self.drain(COUNT) else self.to(2)

    def read_tail(self):
        """2. Read tail: equal to the head position is empty; otherwise the cursor is the next position; to 3."""
        if self.w[TAIL] == self.w[HEAD_POSITION]:
            return self.answer_empty()
        self.cursor_at(self.w[HEAD_RECORD] - 1, self.successor(self.w[HEAD_POSITION]))
        return self.to(3)

    def cross(self, r):
        """Cross to next, the cursor at its first position."""
        following = link(self.part(r, NEXT))
        self.cursor_at(following, self.first_position(following))

    def read_whole(self, r):
        """Whether the scan, at the end of record r, was there from its first entry on and read all its entries as handled,
        and r is not the head record."""
        return self.w[ALL_HANDLED] == 1 and self.w[HEAD_RECORD] != r + 1

    def fold(self, r):
        """Joins prev and next of record r to each other and retires it. It keeps its own links."""
        before, following = link(self.part(r, PREV)), link(self.part(r, NEXT))
        self.put_part(before, NEXT, following + 1)
        self.put_part(following, PREV, before + 1)
        self.put_part(r, USE, USE_RETIRED)

    def scan_tail(self):
        """3. If the cursor stands at its record's end: empty if that is the tail record, otherwise cross to next;
        stay. Else read tail: cursor at tail is empty; otherwise to 4. When the scan crosses out of a record that is neither
        head nor tail record and has read all its entries as handled, the same step folds that record. The next one is
        entered at its first entry."""
        cursor, position = link(self.mine(CURSOR)), self.mine(CURSOR_POSITION)
        if self.at_end(cursor, position):
            if self.w[TAIL_RECORD] == cursor + 1:
                return self.answer_empty()
            if self.read_whole(cursor):
                self.fold(cursor)
            self.cross(cursor)
            self.w[ALL_HANDLED] = 1
            return self.to(3)
        if position == self.w[TAIL]:
            return self.answer_empty()
        return self.to(4)

    def scan_entry(self):
        """4. Read the entry: set makes it found, and the cursor returns to the head; to 5. Otherwise advance; to 3. Word 12
        stays 1 if the entry was handled."""
        cursor, position = link(self.mine(CURSOR)), self.mine(CURSOR_POSITION)
        state = self.w[self.entry(cursor, position) + STATE]
        if state != HANDLED:
            self.w[ALL_HANDLED] = 0
        if state == SET:
            self.found_at(cursor, position)
            self.cursor_to_head()
            return self.to(5)
        self.put(CURSOR_POSITION, self.successor(position))
        return self.to(3)

    def rescan(self):
        """5. Rescan from the head to the position before found. One step either crosses or reads one entry. A set
        entry becomes found and the cursor returns to the head; any other is passed by one position. When the
        cursor's position then equals that of found, the same step goes to 6; otherwise stay."""
        cursor, position = link(self.mine(CURSOR)), self.mine(CURSOR_POSITION)
        if self.at_end(cursor, position):
            self.cross(cursor)
        elif self.w[self.entry(cursor, position) + STATE] == SET:
            self.found_at(cursor, position)
            self.cursor_to_head()
        else:
            self.put(CURSOR_POSITION, self.successor(position))
        if not self.rescanned():
            return self.to(5)
        self.put(SCANNED, int(self.draining()))
        return self.to(6)

    def rescanned(self):
        return self.mine(CURSOR_POSITION) == self.mine(FOUND_POSITION)

    def read_item(self):
        """6. Read call number and value; to 7."""
        entry = self.entry(link(self.mine(FOUND)), self.mine(FOUND_POSITION))
        self.put(ITEM_CALL, self.w[entry + ENTRY_CALL])
        self.put(ITEM_VALUE, self.w[entry + ENTRY_VALUE])
        return self.to(7)

    def keep_item(self):
        """A drain keeps its item, from its mark, in the first pair not in use."""
        count = self.drain(COUNT)
        need(count < self.drain(LIMIT))
        at = self.area + PAIRS + 2 * count
        self.w[at : at + 2] = [self.mine(ITEM_CALL), self.mine(ITEM_VALUE)]
        self.w[self.area + COUNT] = count + 1

    def reply_item(self):
        """Reply item. A drain goes back to phase 1, or ends if the limit is reached. If its first front wasn't set it
        acted as one dequeue and ends with it."""
        if not self.draining():
            return self.idle(('item', self.mine(ITEM_CALL), self.mine(ITEM_VALUE)))
        if self.drain(COUNT) == self.drain(LIMIT) or self.mine(SCANNED):
            return self.end_drain()
        return self.to(1)

    def mark(self):
        """7. Mark handled; if found is the head position, it advances. When that brings the head to the record's end
        and the head record isn't the tail record, to 8. Otherwise reply item."""
        position = self.mine(FOUND_POSITION)
        self.w[self.entry(link(self.mine(FOUND)), position) + STATE] = HANDLED
        if self.draining():
            self.keep_item()
        if position == self.w[HEAD_POSITION]:
            self.w[HEAD_POSITION] = self.successor(position)
            if self.at_end(self.w[HEAD_RECORD] - 1, position + 1) and not self.head_is_tail():
                return self.to(8)
        return self.reply_item()

    def let_go(self):
        """8. The move and retirement of phase 1. Reply item."""
        self.leave_head()
        return self.reply_item()


# Calls.


def refused(number):
    return ('refused', number)


def open_store(words, B, N, P, M):
    """Zero the store, write the contents, link record 0 with place 1 as head and tail record. After opening, the last
    one claimed is record 0."""
    if not sizes_allowed((B, N, P, M)):
        return refused(1)
    size = needed_words(B, N, P)
    if len(words) < size:
        return refused(2)
    first = CONTENTS + THREAD_WORDS * (P + 1)
    words[:size] = [0] * size
    words[:6] = [B, N, P, M, CONTENTS, first]
    words[TAIL_RECORD] = words[HEAD_RECORD] = words[LAST_CLAIMED] = 1
    words[first + PLACE] = 1
    words[first + USE] = USE_LINKED
    return ('ok',)


def start_enqueue(words, t, v, engine=Intake):
    """Give call number starts + 1 and position tail to producer t, phase 2."""
    number = admission(words)
    if number:
        return refused(number)
    if not 1 <= t <= words[2]:
        return refused(4)
    if words[CONTENTS + THREAD_WORDS * t + PHASE]:
        return refused(5)
    if words[STARTS] == words[3]:
        return refused(6)
    if words[TAIL] == words[3]:
        return refused(9)
    intake = engine(words)
    reply = intake.begin(t, v)
    words[: len(intake.w)] = intake.w
    return reply


def start_dequeue(words):
    """Put the consumer in phase 1."""
    number = admission(words)
    if number:
        return refused(number)
    if words[CONTENTS + PHASE]:
        return refused(5)
    words[CONTENTS + PHASE] = 1
    return ('ok',)


def start_drain(words, limit):
    """Put the consumer in phase 1, with a limit from 1 to 64."""
    number = admission(words)
    if number:
        return refused(number)
    if words[CONTENTS + PHASE]:
        return refused(5)
    if not 1 <= limit <= MOST_ITEMS:
        return refused(14)
    words[CONTENTS + PHASE] = 1
    words[drain_at(*words[:3]) + LIMIT] = limit
    return ('ok',)


def step(words, t, buffer=(), first=0, engine=Intake):
    """One phase of thread t, lent a buffer of words and the number of one of them. Only a drain's end uses them."""
    number = admission(words)
    if number:
        return refused(number)
    if t > words[2]:
        return refused(4)
    if words[CONTENTS + THREAD_WORDS * t] == 0:
        return refused(7)
    intake = engine(words)
    try:
        reply = intake.run(t, len(buffer) - first)
    except Refused as refusal:
        return refused(refusal.number)
    words[: len(intake.w)] = intake.w
    if intake.handed:
        buffer[first : first + len(intake.handed)] = intake.handed
    return reply


# Lists of calls: ('e', thread, value), ('d',), ('drain', limit), ('s', thread), ('s', thread, buffer, named word). A step
# without a buffer is lent one of no words.


def do(words, call, engine=Intake):
    """Run one call of a list."""
    if call[0] == 'e':
        return start_enqueue(words, call[1], call[2], engine)
    if call[0] == 'd':
        return start_dequeue(words)
    if call[0] == 'drain':
        return start_drain(words, call[1])
    return step(words, *call[1:], engine=engine)


def thread_of(call):
    return call[1] if call[0] in ('e', 's') else 0


# Histories.

STARTED, ANSWERED_EMPTY = (3, 0, 0, 0), (5, 0, 0, 0)


class History(tuple):
    """A history as its events, the oldest first."""

    def start_of(self, thread):
        return next((event for event in reversed(self) if event[0] in (1, 3) and event[1] == thread), None)

    def with_event(self, event):
        return History(self + (event,))

    def last_item(self):
        """The index of its last item."""
        return max(k for k, event in enumerate(self) if event[0] == 4)

    def withdrawn(self):
        """Without its last item and the consumer's events since."""
        at = self.last_item()
        return History(self[:at] + tuple(event for event in self[at + 1 :] if event[0] in (1, 2)))


def gave(item):
    return (4, 0) + item


def told(history, call, reply, before, after):
    """A history after one more call with this reply; `before` and `after` are the words around it.

    A drain is as many dequeues as items, each begun at the mark of the one before, the last ending with it, and with no
    item one that answered empty. While it is under way, each item marked so far is a dequeue ended at its mark, and one
    more has been open since the last mark."""
    if reply[0] == 'refused':
        return history
    if call[0] == 'e':
        return history.with_event((1, call[1], reply[1], call[2]))
    if call[0] in ('d', 'drain'):
        return history.with_event(STARTED)
    if reply[0] == 'end':
        return history.with_event((2,) + history.start_of(call[1])[1:])
    if reply[0] == 'empty':
        return history.with_event(ANSWERED_EMPTY)
    if reply[0] == 'item':
        return history.with_event(gave(reply[1:3]))
    count = drain_word(before, COUNT)
    if reply[0] == 'going':
        marked = drain_word(after, COUNT) > count
        return history.with_event(gave(pair(after, count))).with_event(STARTED) if marked else history
    if reply[1] == 0:
        return history.with_event(ANSWERED_EMPTY)
    if reply[1] > count:
        return history.with_event(gave(tuple(before[CONTENTS + k] for k in (ITEM_CALL, ITEM_VALUE))))
    return history.withdrawn().with_event(gave(pair(before, count - 1)))


class Recorder:
    """Opens a store, runs calls on it, and keeps the replies and the history."""

    def __init__(self, B, N, P, M, engine=Intake, words=None):
        self.words = [0] * needed_words(B, N, P) if words is None else words
        self.engine = engine
        self.replies, self.history, self.busy = [], History(), set()
        self.opened = open_store(self.words, B, N, P, M)

    def call(self, call):
        """Run one call and give its reply."""
        before = list(self.words)
        reply = do(self.words, call, self.engine)
        self.replies.append(reply)
        self.history = told(self.history, call, reply, before, self.words)
        if reply[0] == 'ok':
            self.busy.add(thread_of(call))
        elif reply[0] not in ('refused', 'going'):
            self.busy.discard(thread_of(call))
        return reply

    def run(self, calls):
        """Run a list of calls and give their replies."""
        return [self.call(call) for call in calls]

    def under_way(self):
        """The threads that have a call under way."""
        return sorted(self.busy)
