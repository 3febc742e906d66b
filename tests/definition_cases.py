"""Cases for the definitions of crates/history, crates/rules, crates/criterion, crates/order_check, crates/comparison and crates/census_rules, and
their tables in antt.

The cases are generated here and what they must give comes from the models alone. Each case becomes one statement
`name : follow given ≡ expected`, which the checker proves by computing the left side.
"""

import itertools
import random
import shutil
from pathlib import Path
from typing import NamedTuple

import census_cases as census
import claim_stores
import comparison_cases as cc
import drain_stores
import fold_stores
import intake_model as im
import judge_model as jm
import leaving_stores
import order_cases as oc
import step_counts
import test_judge
from table_terms import another, changed_at, event_term, item_term, listed, numbers, record_term

CRATES = Path(__file__).resolve().parent.parent / 'crates'
BIG = (2**16, 2**31, im.U32 - 1, im.U32)
TYPES = {'schedule': 'Schedule', 'count': 'Schedule', 'single': 'Single', 'claim': 'List ℕ', 'history': 'Words'}
ANSWERS = {'schedule': 'Outcome', 'count': 'List ℕ', 'single': 'Result', 'claim': 'ℕ', 'history': 'Verdict'}
FUNCTIONS = {'schedule': 'follow', 'count': 'count', 'single': 'call', 'claim': 'next', 'history': 'judge'}
for others in (oc, cc, census):
    TYPES |= others.TYPES
    ANSWERS |= others.ANSWERS
    FUNCTIONS |= others.FUNCTIONS
# the kinds that have their terms and their wrong twins by themselves
OTHERS = oc.KINDS + cc.KINDS + census.KINDS
# what is computed in place of the function, and proved to be the same
QUICKER = {'schedule': 'quick_follow', 'count': 'quick_count', 'single': 'quick_call'}


class Schedule(NamedTuple):
    """An open of lent words, and calls after it."""

    lent: list
    sizes: tuple
    calls: list
    expected: tuple  # the replies, open's first; the words at the end; the items left; the history


class Count(NamedTuple):
    """A schedule of which the accepted steps are counted."""

    lent: list
    sizes: tuple
    calls: list
    expected: list  # of threads 0 and 1, those of the last call that was started


class Single(NamedTuple):
    """One call on any words: ('open', B, N, P, M) or a call of a list."""

    words: list
    call: tuple
    expected: tuple  # the reply, the words after, and those of the buffer


class Claim(NamedTuple):
    """Words on which a claim looks for its record."""

    words: list
    expected: int  # the record, as it is stored


class History(NamedTuple):
    """Words for the judge, and the length of its working table."""

    words: list
    entries: int
    expected: tuple  # the judge's verdict


# Schedules.


def with_items(reply, call):
    """The reply to a call that has been made. That of a drain has its items, in the place of their number."""
    if reply[0] != 'drained':
        return reply
    items = call[2][call[3] :][: 2 * reply[1]] if len(call) > 2 else []
    return ('drained', tuple(zip(items[::2], items[1::2])), reply[2])


def play(lent, sizes, calls):
    """The case of a schedule, with the model's answers."""
    recorder = im.Recorder(*sizes, words=list(lent))
    replies = [recorder.opened]
    for call in map(drain_stores.fresh, calls):
        replies.append(with_items(recorder.call(call), call))
    return Schedule(lent, sizes, calls, (replies, recorder.words, im.items_left(recorder.words), recorder.history))


def counted(case, calls):
    """The case of a schedule's first calls, with the accepted steps counted by their replies. The start of an enqueue is its
    first."""
    steps = [0, 0]
    for call, reply in zip(case.calls[:calls], case.expected[0][1:]):
        t = im.thread_of(call)
        if t < 2 and reply[0] != 'refused':
            steps[t] = steps[t] + 1 if call[0] == 's' else int(call[0] == 'e')
    return Count(case.lent, case.sizes, case.calls[:calls], steps)


def snapshots(case):
    """The store after every call of a schedule."""
    recorder = im.Recorder(*case.sizes, words=list(case.lent))
    stores = [list(recorder.words)]
    for call in case.calls:
        recorder.call(drain_stores.fresh(call))
        stores.append(list(recorder.words))
    return stores


def random_sizes(rng):
    return (rng.choice((2, 2, 3, 4)), rng.choice((2, 3, 4)), rng.choice((1, 2, 2, 3)), rng.choice((4, 20, 40, 99)))


def random_call(rng, P):
    """Any call, often one that is refused."""
    thread = rng.choice((0, rng.randint(0, P), rng.randint(0, P), P + 1, rng.choice(BIG)))
    starts = [('e', thread, random_value(rng)), ('d',), ('drain', rng.choice(drain_stores.LIMITS))]
    return rng.choice(starts + [('s', thread), ('s', thread, (), rng.choice((0, 1, im.U32)))])


def random_value(rng):
    return rng.choice((rng.randint(0, 9), rng.randint(0, im.U32), im.U32))


def random_schedule(rng, sizes=None, first=(), lengths=(20, 110)):
    """A list of calls on a store that held other words before, after some first ones. Threads have shares of the calls, which
    change now and then, and each producer may have a phase before which it mostly stops for long."""
    sizes = sizes or random_sizes(rng)
    P = sizes[2]
    needed = im.needed_words(*sizes[:3])
    lent = [rng.choice((0, 1, rng.randint(0, im.U32))) for _ in range(needed + rng.choice((0, 1, 5)))]
    recorder = im.Recorder(*sizes, words=list(lent))
    stops = [rng.choice((None, 2, 2, 5, 8, 9)) if t else None for t in range(P + 1)]
    calls = list(first)
    recorder.run(calls)
    for k in range(rng.randint(*lengths)):
        if k % 20 == 0:
            shares = [rng.choice((1, 1, 5)) for _ in range(P + 1)]
        thread = rng.choices(range(P + 1), shares)[0]
        if recorder.words[im.CONTENTS + im.THREAD_WORDS * thread] == stops[thread] and rng.random() < 0.9:
            thread = rng.randint(0, P)
        start = ('e', thread, random_value(rng)) if thread else rng.choice((('d',), ('drain', rng.choice((1, 2, 3, 64)))))
        steps = thread in recorder.busy or rng.random() < 0.05
        call = drain_stores.lent_step(rng, recorder.words, thread) if steps else start
        if rng.random() < 0.1:
            call = random_call(rng, P)
        calls.append(call)
        recorder.call(drain_stores.fresh(call))
    return play(lent, sizes, calls)


def folding_schedule(rng):
    """A schedule in which a record is folded. Producer 1 stops at position 1, the last of record 0; positions 2 to 4 are set, 2
    and 3 taken, and the next scan crosses out of record 1, which it has read."""
    enqueues = [('e', 2, random_value(rng)) for _ in range(4)]
    first = enqueues[:1] + [('s', 2)] * 3 + [('d',)] + [('s', 0)] * 3 + [('e', 1, 7)]
    for start, steps in zip(enqueues[1:], (9, 6, 7)):
        first += [start] + [('s', 2)] * (steps - 1)
    for steps in (8, 12, rng.choice((8, 8, 7))):
        first += [('d',)] + [('s', 0)] * steps
    sizes = (2, rng.choice((3, 4)), rng.choice((2, 3)), rng.choice((20, 40)))
    return random_schedule(rng, sizes, first, (5, 30))


def folds(case):
    """A scan retires a record."""
    retired = [im.record_parts(words, im.USE).count(im.USE_RETIRED) for words in snapshots(case)]
    scans = [words[im.CONTENTS] == 3 for words in snapshots(case)]
    return any(scan and before < after for scan, before, after in zip(scans, retired, retired[1:]))


def goes_back(case):
    return ('producer', 7, 'accepted') in reached([case])


def rescans(case):
    return ('consumer', 5, 'accepted') in reached([case])


def lets_go(case):
    return ('consumer', 8, 'accepted') in reached([case])


def drains(case):
    """A drain gives two items or more."""
    return any(reply[0] == 'drained' and len(reply[1]) > 1 for reply in case.expected[0])


def leaves_in_another_order(case):
    """The items left, by position, are not in the order of their records."""
    words, left = case.expected[1:3]
    B, N, P, _ = case.sizes
    first = im.CONTENTS + im.THREAD_WORDS * (P + 1)
    entries = [
        words[first + r * im.record_words(B) + im.RECORD_HEAD + im.ENTRY_WORDS * i :][: im.ENTRY_WORDS]
        for r in range(N)
        for i in range(B)
    ]
    return left != [(call, value) for state, call, value in entries if state == im.SET]


def schedules(seed, calls):
    """Schedules with at least so many calls in all. Six of seven are the next that does something rare."""
    rng = random.Random(seed)
    rare = (goes_back, rescans, lets_go, drains, leaves_in_another_order)
    kinds = [(random_schedule, wants) for wants in (lambda case: True, *rare)] + [(folding_schedule, folds)]
    cases, wanted = [], itertools.cycle(kinds)
    while sum(len(case.calls) for case in cases) < calls:
        draw, wants = next(wanted)
        cases.append(next(case for case in iter(lambda: draw(rng), None) if wants(case)))
    return cases


# Single calls.


def answer(words, call):
    """The case of one call, with the model's answer. A start and an open are lent no buffer."""
    after, made = list(words), drain_stores.fresh(call)
    reply = im.open_store(after, *call[1:]) if call[0] == 'open' else with_items(im.do(after, made), made)
    return Single(list(words), call, (reply, after, made[2] if call[0] == 's' and len(call) > 2 else []))


def busy(words):
    """The threads of a store that are not idle."""
    return [t for t in range(words[2] + 1) if words[im.CONTENTS + im.THREAD_WORDS * t]]


def likely_call(rng, words):
    """Mostly a step of a busy thread."""
    threads = busy(words)
    if threads and rng.random() < 0.85:
        return drain_stores.lent_step(rng, words, rng.choice(threads))
    return random_call(rng, words[2])


def random_word(rng, sizes):
    """A small word, one at the edge of some range, or a huge one."""
    B, N, P, M = sizes
    edges = (B, N, N + 1, M - 1, M, M + 1, 3, 8, 9, 11, 12, im.MAX_PLACE, im.MAX_PLACE + 1)
    edges += (im.MOST_STEPS, im.MOST_STEPS + 1)
    return rng.choice((rng.randint(0, 5), rng.randint(0, 5), rng.choice(edges), rng.choice(BIG)))


def damaged(rng, store, call=None):
    """A store of the model with one word changed, and a call on it, a likely one if none is given."""
    words = list(store)
    call = call or likely_call(rng, words)
    words[rng.randrange(len(words))] = random_word(rng, words[:4])
    return answer(words, call)


def wild(rng, kind, phase):
    """A store whose words are all in range, and stand there at random, though positions mostly near their record; a
    step of one of its threads."""
    sizes = B, N, P, M = random_sizes(rng)
    consumer, producer = im.thread_limits(N, M)

    def up_to(limit):
        return rng.choice((rng.randint(0, min(limit, 3 * B + 1)), rng.randint(0, limit), limit))

    words = [*sizes, im.CONTENTS, im.CONTENTS + im.THREAD_WORDS * (P + 1)]
    words += [up_to(M), rng.randint(1, N), rng.randint(1, N), up_to(M), up_to(M), rng.randint(1, N), 0, 0, 0, 0]
    thread = 0 if kind == 'consumer' else rng.randint(1, P)
    for t in range(P + 1):
        limits = producer if t else consumer
        at = phase if t == thread else rng.choice(list(limits))
        words += [at] + [up_to(limit) for limit in limits[at][1:-1]]
        words.append(step_counts.drawn(rng) if at else 0)
    words[im.ALL_HANDLED] = rng.randint(0, 1) if words[im.CONTENTS] in im.SCANNING else 0
    for _ in range(N):
        place = rng.choice((0, 1, 1, 2, 2, 3, im.MAX_PLACE - 1, im.MAX_PLACE))
        words += [place, up_to(N), up_to(N), rng.randint(0, 3)]
        for _ in range(B):
            words += [rng.randint(0, 2), up_to(M), random_value(rng)]
    words += drain_stores.area(rng, M, words[im.CONTENTS])
    own = im.CONTENTS + im.THREAD_WORDS * thread
    pairs = ((im.HELD, im.POSITION),) if thread else ((im.CURSOR, im.CURSOR_POSITION), (im.FOUND, im.FOUND_POSITION))
    for record, position in ((im.HEAD_RECORD, im.HEAD_POSITION), *((own + r, own + p) for r, p in pairs)):
        if words[record] and rng.random() < 0.6 and not (position == own + im.SCANNED and words[own] >= 6):
            place_of = words[record_at(words, words[record]) + im.PLACE]
            words[position] = min(max(B * (place_of - 1) + rng.randint(0, B), 0), M)
    if rng.random() < 0.5:
        sharpen(rng, words, thread)
    return answer(words, drain_stores.lent_step(rng, words, thread))


def record_at(words, number):
    """The first word of the record with this stored number."""
    return words[5] + (number - 1) * im.record_words(words[0])


def sharpen(rng, words, thread):
    """Put a store before a rare turn of the thread's phase: a claim while others hold retired records, a link behind
    the last place, a crossing or a move at a record's end, or a mark of the head record's last item."""
    B, N, P, M = words[:4]
    own = im.CONTENTS + im.THREAD_WORDS * thread
    phase = words[own]
    if thread and phase in (4, 10):
        for other in (t for t in range(1, P + 1) if t != thread):
            start = im.CONTENTS + im.THREAD_WORDS * other
            words[start : start + im.THREAD_WORDS] = [5, 1, 7, 0, rng.randint(0, N), rng.randint(0, N), 0, 4]
        for number in range(1, N + 1):
            words[record_at(words, number) + im.USE] = rng.choice((1, 2, 3, 3, 3))
    elif thread and phase in (5, 11):
        words[own + im.HELD], words[own + im.CLAIMED] = rng.randint(1, N), rng.randint(1, N)
        held = record_at(words, words[own + im.HELD])
        words[held + im.PLACE], words[held + im.NEXT] = rng.choice((1, im.MAX_PLACE - 1, im.MAX_PLACE)), 0
    elif not thread and phase == 7:
        head = words[own + im.FOUND] = words[im.HEAD_RECORD]
        words[record_at(words, head) + im.PLACE] = 1
        words[im.HEAD_POSITION] = words[own + im.FOUND_POSITION] = B - 1
    elif not thread and phase in (1, 3, 5, 8):
        cursor = (own + im.CURSOR, own + im.CURSOR_POSITION)
        record, position = (im.HEAD_RECORD, im.HEAD_POSITION) if phase in (1, 8) else cursor
        number, following = rng.sample(range(1, N + 1), 2)
        words[record], words[position] = number, B
        words[record_at(words, number) + im.PLACE] = 1
        words[record_at(words, number) + im.NEXT] = rng.choice((0, following, following, following))
        words[record_at(words, following) + im.PLACE] = rng.choice((0, 1, 2, M // B + 1, M // B + 2, im.MAX_PLACE))


def edges():
    """Every word of a small store, in every phase of its threads, at the edge of its range and one past it; of the drain area
    some, beside an idle consumer, and beside one that drains."""
    B, N, P, M = sizes = (2, 2, 1, 9)
    store = [0] * im.needed_words(*sizes[:3])
    im.open_store(store, *sizes)
    by_thread = im.thread_limits(N, M)
    tops = [64, 64, 16, 1_000_000, 16, store[5], M, N, N, M, M, N, 0, 0, 0, 0]
    tops += [0] * im.THREAD_WORDS * (P + 1) + list(im.record_limits(B, N, M)) + [0] * 4
    threads = range(im.CONTENTS, store[5])
    cases = [case for k, top in enumerate(tops) if k not in threads for case in at_edge(store, k, top, ('d',))]
    for thread, limits in enumerate(by_thread):
        first = im.CONTENTS + im.THREAD_WORDS * thread
        for phase, row in limits.items():
            words = list(store)
            words[first : first + im.THREAD_WORDS] = [phase] + [min(top, 1) for top in row[1:]]
            for k in range(1, im.THREAD_WORDS):
                cases += at_edge(words, first + k, row[k], ('s', thread))
            if thread == 0:
                cases += at_edge(words, im.ALL_HANDLED, int(phase in im.SCANNING), ('s', thread))
                cases.append(answer(fold_stores.with_word_12(words, 2), ('s', thread)))
        cases += at_edge(store, first, max(limits), ('s', thread))
    area, draining = im.drain_at(*sizes[:3]), list(store)
    cases += at_edge(store, len(store) - 1, 0, ('d',))
    draining[im.CONTENTS], draining[area : area + 6] = 1, [64, 2, 1, 7, 2, 8]
    for k, top in ((0, 64), (1, 64), (2, M), (3, im.U32), (4, M), (5, im.U32), (6, 0), (7, 0), (im.DRAIN_WORDS - 1, 0)):
        cases += at_edge(draining, area + k, top, ('s', 0, (0,) * 4, 0))
    return list({(tuple(case.words), case.call): case for case in cases}.values())


def at_edge(store, k, top, call):
    """Word k at the top of its range, one past it, and zero."""
    words = sorted({0, top, min(top + 1, im.U32)})
    return [answer(store[:k] + [word] + store[k + 1 :], call) for word in words]


def starting_enqueue(rng, stores):
    """A start enqueue on a store of the model whose tail and starts are set to M or to less, of a producer with a call under way
    or not."""
    wants, threads = rng.random() < 0.2, []
    while not threads:
        words = list(rng.choice(stores))
        threads = [t for t in range(1, words[2] + 1) if (t in busy(words)) == wants]
    M = words[3]
    words[im.TAIL], words[im.STARTS] = (rng.choice((0, M - 1, M, M, rng.randint(0, M))) for _ in range(2))
    return answer(words, ('e', rng.choice(threads), random_value(rng)))


def with_phase_1(rng, store):
    """A store of the model with a producer in phase 1, its other words as they are or as before U8, and any call."""
    words = list(store)
    own = im.CONTENTS + im.THREAD_WORDS * rng.randint(1, words[2])
    words[own] = 1
    if rng.random() < 0.5:
        words[own + 1 : own + im.THREAD_WORDS] = [1, random_value(rng), 0, 0, 0, 0, rng.randint(0, 1)]
    return answer(words, rng.choice((random_call(rng, words[2]), likely_call(rng, words))))


def with_another_last(rng, store):
    """A store of the model with another record claimed last, in range or not, with another word 12, or with a spare word that
    is not zero."""
    words, draw = list(store), rng.random()
    N = words[1]
    if draw < 0.6:
        words[im.LAST_CLAIMED] = rng.choice((0, rng.randint(1, N), N + 1, rng.choice(BIG)))
    elif draw < 0.8:
        words[im.ALL_HANDLED] = rng.choice((1, 1, 2, N, rng.choice(BIG)))
    else:
        words[rng.randrange(im.SPARE, im.CONTENTS)] = rng.choice((1, N, rng.choice(BIG)))
    return answer(words, likely_call(rng, words))


def with_another_count(rng, store):
    """A store of the model on which some thread has another number of steps, and a step of it; an idle thread now and
    then."""
    words = list(store)
    t = rng.choice(busy(words)) if busy(words) and rng.random() < 0.9 else rng.randint(0, words[2])
    call = drain_stores.lent_step(rng, words, t)
    return answer(step_counts.with_steps(words, t, rng.choice(step_counts.EDGES)), call)


def starting_drain(rng, stores):
    """A start drain on a store of the model, of any limit; the consumer has a call under way or not."""
    wants = rng.random() < 0.7
    idle = [words for words in stores if (words[im.CONTENTS] == 0) == wants]
    return answer(rng.choice(idle), ('drain', rng.choice(drain_stores.LIMITS)))


def with_another_area(rng, store):
    """A store of the model with another drain area, in range, or damaged in a word, and a step of the consumer."""
    words = drain_stores.draining(rng, store)
    if rng.random() < 0.4:
        at = rng.choice((0, 1, 1, 2, 3, 4, rng.randrange(im.DRAIN_WORDS)))
        words[im.drain_at(*words[:3]) + at] = random_word(rng, words[:4])
    return answer(words, drain_stores.lent_step(rng, words, 0))


def ends(rng, stores):
    """For each phase in which a drain may end, a store on which one ends, with no item and with some; each with a buffer that
    fits, from its first word and from a later one, with one that lacks a word, and with one that ends before the named one."""
    cases, wanted = [], set(itertools.product((1, 2, 3), (False, True))) | {(7, True), (8, True)}
    while wanted:
        words = drain_stores.draining(rng, rng.choice(stores))
        reply = im.step(list(words), 0, [0] * 2 * im.MOST_ITEMS, 0)
        items = reply[1] if reply[0] == 'drained' else 0
        if reply[0] != 'drained' or items > 9 or (words[im.CONTENTS], items > 0) not in wanted:
            continue
        wanted.remove((words[im.CONTENTS], items > 0))
        for length, named in ((2 * items, 0), (2 * items + 3, 3), (2 * items + 2, 3), (2 * items, 2 * items + 1), (2, im.U32)):
            cases.append(answer(words, ('s', 0, tuple(rng.randrange(99) for _ in range(length)), named)))
    return cases


def last_counts(stores):
    """A step that is accepted and one that is refused with 8, for each thread, phase and reply of the model's stores, with
    the last numbers of steps and one past them."""
    found = {}
    for store in stores:
        for t in busy(store):
            call = ('s', t, (0,) * 2 * (im.drain_word(store, im.COUNT) + 1), 0)
            reply = im.do(list(store), drain_stores.fresh(call))
            found.setdefault((t > 0, store[im.CONTENTS + im.THREAD_WORDS * t], reply[0]), (store, t, call))
    last = (im.MOST_STEPS - 1, im.MOST_STEPS, im.MOST_STEPS + 1)
    return [answer(step_counts.with_steps(store, t, k), call) for store, t, call in found.values() for k in last]


def of_another_length(rng, store):
    """A store of the model that is cut short, or lent with more words, sometimes with a size out of its limits."""
    needed = im.needed_words(*store[:3])
    length = rng.choice((rng.randint(0, 15), 15, 16, rng.randint(16, needed), needed - 1, needed, needed + 2))
    words = (list(store) + [7, 8])[:length]
    if words and rng.random() < 0.3:
        words[0] = 1
    return answer(words, likely_call(rng, words) if len(words) >= needed else random_call(rng, store[2]))


def of_other_sizes(rng, store):
    """A store of the model with one of its sizes changed."""
    words = list(store)
    k = rng.randrange(4)
    low, high = im.LIMITS[k]
    words[k] = rng.choice((0, low - 1, low, words[k] + 1, high, high + 1, rng.choice(BIG)))
    return answer(words, random_call(rng, store[2]))


def random_words(rng):
    """Random words throughout, behind sizes that are mostly allowed."""
    sizes = random_sizes(rng) if rng.random() < 0.8 else [rng.randint(0, 6) for _ in range(4)]
    length = rng.choice((im.needed_words(*sizes[:3]), rng.randint(0, 80)))
    words = (list(sizes) + [rng.choice((0, 0, 1, 2, rng.randint(0, im.U32))) for _ in range(length)])[:length]
    return answer(words, random_call(rng, sizes[2]))


def opening(rng):
    """An open, at the limits of the sizes and of the length."""
    sizes = list(random_sizes(rng))
    if rng.random() < 0.6:
        k = rng.randrange(4)
        low, high = im.LIMITS[k]
        sizes[k] = rng.choice((0, low - 1, low, high, high + 1, rng.choice(BIG)))
    needed = im.needed_words(*sizes[:3])
    length = min(rng.choice((0, 15, needed - 1, needed, needed, needed + 3)), 900)
    return answer([rng.choice((0, 1, rng.choice(BIG))) for _ in range(length)], ('open', *sizes))


def letting_go(rng, count):
    """So many stores on which the consumer marks an item, and as many on which it leaves the head record; of a dequeue, and of
    a drain."""
    stores = rng.sample(leaving_stores.marking(rng), count) + rng.sample(leaving_stores.leaving(rng), count)
    stores += [drain_stores.draining(rng, words) for words in stores]
    return [answer(words, drain_stores.lent_step(rng, words, 0)) for words in stores]


def folding(rng, count):
    """So many stores of each relation on which the consumer scans at the end of its record, goes on, or reads an entry; of a
    dequeue, and a third as many of a drain."""
    drawn, stores = fold_stores.crossing(rng) + fold_stores.going_on(rng) + fold_stores.reading(rng), {}
    for words in rng.sample(drawn, len(drawn)):
        stores.setdefault((fold_stores.relation(words), im.step(list(words), 0)[0]), []).append(words)
    some = [words for each in stores.values() for words in each[:count]]
    some += [drain_stores.draining(rng, words) for words in some[::3]]
    return [answer(words, drain_stores.lent_step(rng, words, 0)) for words in some]


def claiming(rng):
    """A claim from each record claimed last, with up to four records, some of them free."""
    lasts = [(N, last) for N in range(2, 5) for last in range(1, N + 1)]
    uses = [[0, *(rng.choice((0, 2, 3)) for _ in range(N - 1))] for N, _ in lasts]
    return [answer(claim_stores.claiming(rng, each, last), ('s', 1)) for each, (_, last) in zip(uses, lasts)]


def singles(seed, stores, count):
    """So many single calls; the damaged stores are made from `stores`."""
    rng = random.Random(seed)
    phases = [('producer', p) for p in range(2, 12)] + [('consumer', p) for p in range(1, 9)]
    dequeues = [store for store in stores if store[im.CONTENTS]]
    late = [store for store in dequeues if store[im.CONTENTS] in (7, 8)]
    cases = edges() + letting_go(rng, 60) + folding(rng, 3) + last_counts(stores) + ends(rng, dequeues) + claiming(rng)
    while len(cases) < count:
        store = rng.choice(stores)
        kind = len(cases) % 29
        if kind < 4:
            cases.append(damaged(rng, store))
        elif kind < 13:
            cases.append(wild(rng, *rng.choice(phases)))
        elif kind < 15:
            cases.append(of_another_length(rng, store))
        elif kind < 16:
            cases.append(of_other_sizes(rng, store))
        elif kind < 17:
            cases.append(random_words(rng))
        elif kind < 19:
            cases.append(starting_enqueue(rng, stores))
        elif kind < 20:
            cases.append(with_phase_1(rng, store))
        elif kind < 22:
            cases.append(with_another_last(rng, store))
        elif kind < 24:
            store = rng.choice(late)
            cases.append(damaged(rng, store, drain_stores.lent_step(rng, store, 0)))
        elif kind < 25:
            cases.append(with_another_count(rng, store))
        elif kind < 27:
            cases.append(starting_drain(rng, stores))
        elif kind < 28:
            cases.append(with_another_area(rng, rng.choice(dequeues)))
        else:
            cases.append(opening(rng))
    return cases


# Claims.


def stored(record):
    """A record number is stored plus one; zero is none."""
    return 0 if record is None else record + 1


def claims(seed, count):
    """Every small store on which a producer claims, and so many large ones, with the model's record."""
    rng = random.Random(seed)
    stores = claim_stores.small(rng) + claim_stores.large(rng, count)
    return [Claim(words, stored(im.next_free(words))) for words in stores]


# Histories.


def judged(words, entries):
    """The case of a history, with the verdict of the model that tries all orders."""
    return History(list(words), entries, jm.judge(words, entries))


def damaged_history(rng, history):
    """The words of a history with a word changed, a call number given to two calls, an event dropped, repeated or
    moved, or a few words cut off."""
    history = [list(event) for event in history]
    k = rng.randrange(len(history))
    chance = rng.random()
    started = [event[2] for event in history if event[0] == jm.ENQUEUE]
    if chance < 0.2 and len(started) > 1:
        number, other = rng.sample(started, 2)
        history = [[*event[:2], other, event[3]] if event[2] == number else event for event in history]
    elif chance < 0.55:
        history[k][rng.randrange(4)] = rng.choice((0, 1, 2, 3, 4, 5, 6, 7, 16, 17, im.U32))
    elif chance < 0.65:
        del history[k]
    elif chance < 0.75:
        history.insert(k, history[k])
    elif chance < 0.85:
        history.append(history.pop(k))
    words = jm.flatten(history)
    return words if chance < 0.85 else words[: len(words) - rng.randint(1, 3)]


def histories(seed, count):
    """So many word lists for the judge, valid and damaged."""
    rng = random.Random(seed)
    most = jm.MAX_EVENTS
    lengths = ((0, 0), (0, 3), (most + 1, most + 1), (most, most - 1), (most, most))
    cases = [judged([0] * 4 * events, entries) for events, entries in lengths]
    while len(cases) < count:
        if len(cases) % 5 == 0:
            history = test_judge.with_another_answer(rng, test_judge.engine_history(rng.randrange(10**6))[:10])
        else:
            history = test_judge.random_history(rng, size=10)
        words = jm.flatten(history)
        if len(cases) % 3 == 0:
            words = damaged_history(rng, history)
        events = len(words) // 4
        cases.append(judged(words, rng.choice((events, events, events, events + 2, max(events - 1, 0)))))
    return cases


# Cases that are wrong in one value.


def another_reply(rng, reply):
    """A reply with another number, be it the number of steps or not; if it has none, another reply. Of a drain, with another
    item, or one more."""
    if len(reply) == 1:
        return ('going', 0)
    if reply[0] == 'drained' and rng.random() < 0.8:
        items = list(reply[1]) or [(0, 0)]
        items[-1] = (items[-1][0], another(items[-1][1]))
        return ('drained', tuple(items), reply[2])
    k = len(reply) - 1 if reply[0] == 'drained' else rng.randrange(1, len(reply))
    return reply[:k] + (another(reply[k]),) + reply[k + 1 :]


def another_event(event):
    """An event with another value; if it has none, another event."""
    if event[0] in (3, 5):
        return (8 - event[0],) + event[1:]
    return event[:-1] + (another(event[-1]),)


def with_one_wrong_value(rng, case):
    """The case with one expected value changed: a reply, a word, an item left, an event, a record, a verdict or a
    number of a row."""
    if isinstance(case, Schedule):
        replies, words, left, history = case.expected
        part = rng.choice(['reply', 'word'] + ['item'] * bool(left) + ['event'] * bool(history))
        if part == 'reply':
            replies = changed_at(replies, rng.randrange(len(replies)), lambda reply: another_reply(rng, reply))
        elif part == 'word':
            words = changed_at(words, rng.randrange(len(words)), another)
        elif part == 'item':
            left = changed_at(left, rng.randrange(len(left)), lambda item: (item[0], another(item[1])))
        else:
            history = changed_at(history, rng.randrange(len(history)), another_event)
        return case._replace(expected=(replies, words, left, history))
    if isinstance(case, Count):
        return case._replace(expected=changed_at(case.expected, rng.randrange(2), another))
    if isinstance(case, Single):
        reply, words, buffer = case.expected
        if buffer and rng.random() < 0.3:
            return case._replace(expected=(reply, words, changed_at(buffer, rng.randrange(len(buffer)), another)))
        if not words or rng.random() < 0.5:
            return case._replace(expected=(another_reply(rng, reply), words, buffer))
        return case._replace(expected=(reply, changed_at(words, rng.randrange(len(words)), another), buffer))
    if isinstance(case, Claim):
        return case._replace(expected=another(case.expected))
    if isinstance(case, OTHERS):
        return case.wrong(rng)
    verdict = case.expected
    if verdict[0] == 'refused':
        return case._replace(expected=another_reply(rng, verdict))
    word, rows = verdict
    if not rows or rng.random() < 0.5:
        return case._replace(expected=('explained' if word == 'unexplained' else 'unexplained', rows))
    k = rng.randrange(4)
    row = rng.randrange(len(rows))
    return case._replace(expected=(word, changed_at(rows, row, lambda row: tuple(changed_at(row, k, another)))))


def twins(seed, cases):
    """A module for each kind of case. Each case stands there as it is, `right-K`, and with one wrong value,
    `wrong-K`."""
    rng = random.Random(seed)
    modules = {}
    for kind in (Schedule, Count, Single, Claim, History, *OTHERS):
        numbered = [(k, case) for k, case in enumerate(cases) if isinstance(case, kind)]
        pairs = [(f'right-{k}', case) for k, case in numbered]
        pairs += [(f'wrong-{k}', with_one_wrong_value(rng, case)) for k, case in numbered]
        modules[kind.__name__] = module([case for _, case in pairs], [name for name, _ in pairs])
    return modules


# What the cases reach, by the model.


def steps_of(case):
    """(store, call, reply) of every call of a case but open."""
    if isinstance(case, Single):
        return [] if case.call[0] == 'open' else [(case.words, case.call, case.expected[0])]
    return list(zip(snapshots(case), case.calls, case.expected[0][1:]))


def reached(cases):
    """How many calls of the cases were of each kind: ('producer' or 'consumer', phase, 'accepted' or the refusal)
    for a step that came to its phase, and ('refused', number) for every refusal."""
    counts = {}

    def count(key):
        counts[key] = counts.get(key, 0) + 1

    for case in cases:
        first = case.expected[0] if isinstance(case, Single) else case.expected[0][0]
        if first[0] == 'refused' and not steps_of(case):
            count(first)
        for store, call, reply in steps_of(case):
            if reply[0] == 'refused':
                count(reply)
            if call[0] == 's' and (reply[0] != 'refused' or reply[1] > 7):
                phase = store[im.CONTENTS + im.THREAD_WORDS * call[1]]
                outcome = reply[1] if reply[0] == 'refused' else 'accepted'
                count(('producer' if call[1] else 'consumer', phase, outcome))
    return counts


# Tables in antt.


def request_term(call):
    if call[0] == 'd':
        return 'start_dequeue'
    if call[0] == 'drain':
        return f'start_drain {call[1]}'
    return f'start_enqueue {call[1]} {call[2]}' if call[0] == 'e' else f'step {call[1]}'


def invocation_term(call):
    """A request with its buffer and named word. A start is lent none."""
    buffer, named = call[2:] if call[0] == 's' and len(call) > 2 else ((), 0)
    return record_term(request=request_term(call), buffer=numbers(buffer), **{'from': named})


def response_term(reply):
    """A reply with its number of steps; that of an open and of another start than an enqueue's is 0."""
    kind, *numbers = reply
    if kind == 'refused':
        return f'refused {numbers[0]}'
    if kind == 'ok':
        return 'accepted (started {}) {}'.format(*numbers) if numbers else 'accepted ok 0'
    if kind == 'item':
        return 'accepted (item {} {}) {}'.format(*numbers)
    if kind == 'drained':
        return f'accepted (drained ({listed(map(item_term, numbers[0]))})) {numbers[1]}'
    return f'accepted {"ended" if kind == "end" else kind} {numbers[0]}'


def sizes_term(sizes):
    return 'record { B = %d; N = %d; P = %d; M = %d }' % tuple(sizes)


def schedule_term(case):
    calls = listed(map(invocation_term, case.calls))
    return record_term(lent=numbers(case.lent), sizes=sizes_term(case.sizes), calls=calls)


def terms(case):
    """What is given and what is expected, as terms."""
    if isinstance(case, Schedule):
        replies, words, left, history = case.expected
        events = listed(map(event_term, reversed(history)))
        replies = listed(map(response_term, replies))
        left = listed(map(item_term, left))
        return schedule_term(case), record_term(replies=replies, words=numbers(words), left=left, history=events)
    if isinstance(case, Count):
        return schedule_term(case), numbers(case.expected)
    if isinstance(case, Single):
        opens = case.call[0] == 'open'
        made = f'opening ({sizes_term(case.call[1:])})' if opens else f'calling ({invocation_term(case.call)})'
        reply, words, buffer = case.expected
        expected = record_term(reply=response_term(reply), words=numbers(words), buffer=numbers(buffer))
        return record_term(words=numbers(case.words), made=made), expected
    if isinstance(case, Claim):
        return numbers(case.words), case.expected
    if isinstance(case, OTHERS):
        return case.terms()
    verdict = case.expected
    given = record_term(entries=case.entries, words=numbers(case.words))
    if verdict[0] == 'refused':
        return given, f'refused {verdict[1]}'
    rows = [record_term(kind=k, start=s, end=e, answer=a) for k, s, e, a in verdict[1]]
    return given, f'judged {"true" if verdict[0] == "explained" else "false"} ({listed(rows)})'


def statement(name, case):
    """A case as two definitions and the statement that they agree."""
    kind = type(case).__name__.lower()
    given, expected = terms(case)
    return f"""
abbrev {name}-given : {TYPES[kind]}
{name}-given = {given}

abbrev {name}-expected : {ANSWERS[kind]}
{name}-expected = {expected}

pub {name} : {FUNCTIONS[kind]} {name}-given ≡ {name}-expected
unfolding {QUICKER.get(kind, FUNCTIONS[kind])}
{name} = {f"{FUNCTIONS[kind]}_is {name}-given" if kind in QUICKER else f"refl {{a = {name}-expected}}"}
"""


STORE_HEAD = """-- Generated: calls on a store, and what the model answers.
use Rattle.std.specs.Prelude.{◌≡◌, refl, List, [], ◌∷◌, ◌++◌, ℕ}
use Rattle.history.specs.Event.{enqueue_started, enqueue_ended, dequeue_started, gave_item, gave_empty}
use Rattle.rules.specs.Rule.{refused, accepted, ok, started, going, ended, empty, item, drained}
use Rattle.rules.specs.Request.{Result, start_enqueue, start_dequeue, start_drain, step}
use Rattle.tables.specs.Store.{Schedule, Outcome, follow, quick_follow, follow_is, count, quick_count, count_is, Single, opening, calling, call, quick_call, call_is, next, zeros}
"""

HISTORY_HEAD = """-- Generated: words for the judge, and the model's verdict.
use Rattle.std.specs.Prelude.{◌≡◌, refl, true, false, [], ◌∷◌, ◌++◌}
use Rattle.tables.specs.Store.{zeros}
use Rattle.tables.specs.Judge.{Words, Verdict, refused, judged, judge}
"""

# The definitions, put together as the tables need them.
STORE = """-- Calls on a store as the definitions answer them.
use Rattle.std.specs.Prelude.{◌≡◌, refl, List, [], ◌∷◌, reverse, ℕ, replicate}
use Rattle.std.proofs.Common.{ap, ap₂}
use Rattle.history.specs.Event.{History}
use Rattle.history.specs.Linearization.{Queue}
use Rattle.rules.specs.Sizes.{Sizes}
use Rattle.rules.specs.Cell.{reader, writes}
use Rattle.rules.specs.Free.{free, next_free}
use Rattle.rules.specs.Rule.{Response}
use Rattle.rules.specs.Producer.{load_tail, look_next, claim_record, link_claimed, shift_tail, go_back, write_entry, set_entry, claim_ahead, link_ahead, producer_step}
use Rattle.rules.specs.Consumer.{front, read_tail, scan, read_entry, rescan, read_item, mark_handled, retire_head, consumer_step}
use Rattle.rules.specs.Request.{Invocation, Result, applied, opened, open_store, starting_enqueue, starting_dequeue, starting_drain, phase_step, counted, stepping, effect, sizes_of, result}
use Rattle.rules.specs.Play.{Played, play, steps_made, items_left}
use Rattle.rules.specs.Quick.{quick_result, result_is, quick_play, play_is, quick_steps, steps_are}

-- so many words that are zero
abbrev pub zeros : ℕ → List ℕ
zeros n = replicate n 0

-- an open of lent words, and calls after it
pub record Schedule : Type 0 where
  pub lent : List ℕ
  pub sizes : Sizes
  pub calls : List Invocation

-- the replies, the words at the end, the items left in them, and the history, the newest event first
pub record Outcome : Type 0 where
  pub replies : List Response
  pub words : List ℕ
  pub left : Queue
  pub history : History

abbrev pub outcome : Played → Outcome
outcome p =
    let z = sizes_of p.words in
    record { replies = reverse p.replies; words = p.words; left = items_left z (reader z p.words); history = p.history }

-- what stands after the open
abbrev opened_by : Schedule → Played
opened_by s = let o = open_store s.sizes s.lent in record { words = o.words; replies = o.reply ∷ []; history = [] }

unfoldable pub follow : Schedule → Outcome
follow s = outcome (play s.calls (opened_by s))

-- the same, quicker to compute
unfoldable pub quick_follow : Schedule → Outcome
unfolding UNFOLDED items_left
quick_follow s = outcome (quick_play s.calls (opened_by s))

pub follow_is : (s : Schedule) → follow s ≡ quick_follow s
unfolding follow quick_follow
follow_is s = ap outcome (play_is s.calls (opened_by s))

-- the accepted steps of threads 0 and 1, counted in the list
unfoldable pub count : Schedule → List ℕ
count s = steps_made 0 s.calls (opened_by s) 0 ∷ steps_made 1 s.calls (opened_by s) 0 ∷ []

unfoldable pub quick_count : Schedule → List ℕ
unfolding UNFOLDED
quick_count s = quick_steps 0 s.calls (opened_by s) 0 ∷ quick_steps 1 s.calls (opened_by s) 0 ∷ []

pub count_is : (s : Schedule) → count s ≡ quick_count s
unfolding count quick_count
count_is s = ap₂ (λ (a b : ℕ). a ∷ b ∷ []) (steps_are 0 s.calls (opened_by s) 0) (steps_are 1 s.calls (opened_by s) 0)

-- one call on any words
pub data Made : Type 0 where
  opening : Sizes → Made
  calling : Invocation → Made

pub record Single : Type 0 where
  pub words : List ℕ
  pub made : Made

abbrev pub made_on : List ℕ → Made → Result
made_on m (opening z) = open_store z m
made_on m (calling v) = result v m

unfoldable pub call : Single → Result
call s = made_on s.words s.made

abbrev pub quick_on : List ℕ → Made → Result
quick_on m (opening z) = open_store z m
quick_on m (calling v) = quick_result v m

unfoldable pub quick_call : Single → Result
unfolding UNFOLDED
quick_call s = quick_on s.words s.made

made_is : (m : List ℕ) (k : Made) → made_on m k ≡ quick_on m k
made_is m (opening z) = refl
made_is m (calling v) = result_is v m

pub call_is : (s : Single) → call s ≡ quick_call s
unfolding call quick_call
call_is s = made_is s.words s.made

-- the record that a claim takes on these words, plus one; 0 for none
unfoldable pub next : List ℕ → ℕ
unfolding reader free next_free
next m = let z = sizes_of m in next_free z (reader z m)
"""
STORE = STORE.replace(
    'UNFOLDED',
    'applied effect starting_enqueue starting_dequeue starting_drain stepping counted phase_step open_store opened reader '
    'writes free next_free load_tail look_next claim_record link_claimed shift_tail go_back write_entry '
    'set_entry claim_ahead link_ahead producer_step front read_tail scan read_entry rescan read_item mark_handled retire_head '
    'consumer_step',
)

JUDGE = """-- Words as the definitions judge them.
use Rattle.std.specs.Prelude.{Bool, List, ℕ}
use Rattle.history.specs.Event.{decode}
use Rattle.history.specs.Calls.{Row, rows}
use Rattle.history.specs.Form.{Reading, read}
use Rattle.criterion.specs.Pass.{explains}

pub record Words : Type 0 where
  pub entries : ℕ
  pub words : List ℕ

pub data Verdict : Type 0 where
  refused : ℕ → Verdict
  judged : Bool → List Row → Verdict

abbrev pub verdict : Reading → Verdict
verdict (Reading.refused n) = refused n
verdict (Reading.history h) = judged (explains h) (rows h)

unfoldable pub judge : Words → Verdict
unfolding read decode explains
judge w = verdict (read w.entries w.words)
"""


def module(cases, names):
    """A module of cases of one kind."""
    heads = {(History,): HISTORY_HEAD, oc.KINDS: oc.HEAD, cc.KINDS: cc.HEAD, census.KINDS: census.HEAD}
    head = next((head for kinds, head in heads.items() if isinstance(cases[0], kinds)), STORE_HEAD)
    return head + ''.join(statement(name, case) for name, case in zip(names, cases))


def split(kind, cases, size):
    """Modules of so many cases each, with their names: kind and number."""
    modules = {}
    for first in range(0, len(cases), size):
        part = cases[first : first + size]
        names = [f'{kind}-{first + k}' for k in range(len(part))]
        modules[f'{kind.capitalize()}{first // size}'] = module(part, names)
    return modules


def write_crate(folder, name, modules, code='// All of it stands in specs/.\n'):
    specs = folder / 'crates' / name / 'specs'
    specs.mkdir(parents=True)
    (specs.parent / 'src').mkdir()
    (specs.parent / 'src' / 'lib.rt').write_text(code)
    (specs / 'Lib.antt').write_text(''.join(f'pub mod {module}\n' for module in modules))
    for module, text in modules.items():
        (specs / f'{module}.antt').write_text(text)


def definitions(crate, *modules):
    """Some modules of a crate's definitions."""
    return {module: (CRATES / crate / 'specs' / f'{module}.antt').read_text(encoding='utf-8') for module in modules}


def write_repository(folder, crates):
    """The three crates of definitions and the definitions of some others, the crate `tables` that puts them together, and these crates of
    tables."""
    folder = Path(folder)
    lines = ['history:', 'criterion: history', 'rules: history', 'order_check: history', 'equivalence: history', 'matching: history']
    lines += ['comparison: history equivalence matching', 'census_rules:']
    for name in ('history', 'criterion', 'rules'):
        shutil.copytree(CRATES / name, folder / 'crates' / name, ignore=shutil.ignore_patterns('must-fail', 'out'))
    write_crate(folder, 'order_check', definitions('order_check', 'Check'))
    write_crate(folder, 'equivalence', definitions('equivalence', 'Threads', 'Tests'))
    write_crate(folder, 'matching', definitions('matching', 'Rows'))
    code = (CRATES / 'comparison' / 'src' / 'lib.rt').read_text(encoding='utf-8')
    write_crate(folder, 'comparison', definitions('comparison', 'Compared', 'Reply'), cc.types_alone(code))
    write_crate(folder, 'census_rules', definitions('census_rules', 'Board', 'Table', 'Census', 'Statement'))
    write_crate(folder, 'tables', {'Store': STORE, 'Judge': JUDGE, 'Order': oc.ORDER, 'Compare': cc.COMPARE, 'Census': census.CENSUS})
    needed = 'history criterion rules order_check equivalence matching comparison census_rules'
    lines.append(f'tables: {needed}')
    for name, modules in crates.items():
        write_crate(folder, name, modules)
        lines.append(f'{name}: {needed} tables')
    (folder / 'crates.txt').write_text('\n'.join(lines) + '\n')
