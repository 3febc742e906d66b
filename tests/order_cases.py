"""Cases for the definitions that speak of orders of calls by their starting numbers, for definition_cases.py: `listed` of crates/history,
`order_numbers` of crates/criterion and `is_order` of crates/order_check. What they must give comes from `judge_model` alone."""

import itertools
import random
from typing import NamedTuple

import judge_model as jm
import test_judge
from histories import damaged_orders, run_of_calls
from table_terms import another, changed_at, event_term, listed, numbers, record_term

TYPES = {'listing': 'Numbered', 'late': 'History', 'check': 'Numbered'}
ANSWERS = {'listing': 'List Call', 'late': 'List ℕ', 'check': 'Bool'}
FUNCTIONS = {'listing': 'list', 'late': 'late', 'check': 'check'}


def history_term(history):
    """The newest event first."""
    return listed(map(event_term, reversed(history)))


def numbered_term(case):
    return record_term(history=history_term(case.history), numbers=numbers(case.numbers))


class Listing(NamedTuple):
    """A history and some numbers from 1."""

    history: list
    numbers: list
    expected: list  # the calls with these starting numbers

    def terms(self):
        """What is given and what is expected, as terms."""
        return numbered_term(self), listed(map(call_term, self.expected))

    def wrong(self, rng):
        """The same with one expected value changed."""
        if not self.expected or rng.random() < 0.3:
            return self._replace(expected=[*self.expected, ('deq', 1, 0, ())])
        k = rng.randrange(len(self.expected))
        part = rng.randrange(1, 3) if self.expected[k][0] == 'deq' else rng.randrange(1, 6)
        return self._replace(expected=changed_at(self.expected, k, lambda call: tuple(changed_at(call, part, another))))


class Late(NamedTuple):
    """An explained history."""

    history: list
    expected: list  # the order in which each enqueue stands as late as it may

    def terms(self):
        return history_term(self.history), numbers(self.expected)

    def wrong(self, rng):
        order = self.expected
        if len(order) < 2 or rng.random() < 0.3:
            return self._replace(expected=[*order, len(order) + 1])
        k = rng.randrange(len(order) - 1)
        return self._replace(expected=[*order[:k], order[k + 1], order[k], *order[k + 2 :]])


class Check(NamedTuple):
    """A history and any numbers."""

    history: list
    numbers: list
    expected: bool  # whether they are a linearization

    def terms(self):
        return numbered_term(self), 'true' if self.expected else 'false'

    def wrong(self, rng):
        return self._replace(expected=not self.expected)


KINDS = (Listing, Late, Check)


def call_term(call):
    """('enq', thread, number, value, start, end) or ('deq', start, end, answer)."""
    if call[0] == 'enq':
        return 'enq (' + record_term(**dict(zip(('thread', 'number', 'value', 'start', 'end'), call[1:]))) + ')'
    answer = 'nothing' if call[3] == () else 'empty' if call[3] is None else '(item {} {})'.format(*call[3])
    return 'deq (' + record_term(start=call[1], end=call[2], answer=answer) + ')'


def call_at(history, calls, number):
    """The call with a starting number, for `call_term`; for a number that no call has a dequeue of no time."""
    if number > len(calls):
        return ('deq', 0, 0, ())
    call = calls[number - 1]
    if call.kind == jm.ENQUEUE:
        return ('enq', history[call.start - 1][1], *call.item, call.start, call.end)
    return ('deq', call.start, call.end, call.item if call.end else ())


def draw(rng, most=12):
    """A valid history of up to so many events, of the test of the judge or nearly in order."""
    return test_judge.random_history(rng, most) if rng.random() < 0.5 else run_of_calls(rng, rng.randrange(most + 1), rng.choice((1, 3)), 0, 1)


def listings(seed, count):
    rng, cases = random.Random(seed), []
    while len(cases) < count:
        history = draw(rng)
        calls = jm.calls_of(history)
        some = [rng.randint(1, len(calls) + 1) for _ in range(rng.randrange(6))]
        cases.append(Listing(history, some, [call_at(history, calls, number) for number in some]))
    return cases


def lates(seed, count):
    """So many explained histories; a third are the next that has an order which is not that of the starts, and a third the next in which an
    enqueue is due for one behind it."""
    rng, cases = random.Random(seed), []
    wanted = itertools.cycle((lambda history, order: True, lambda history, order: order != sorted(order), due_for_another))
    while len(cases) < count:
        wants, drawn = next(wanted), None
        while drawn is None or not jm.explained_by_mark(drawn) or not wants(drawn, jm.late_order(drawn)):
            drawn = draw(rng, rng.choice((6, 12, 16)))
        cases.append(Late(drawn, jm.late_order(drawn)))
    return cases


def due_for_another(history, order):
    """Whether some enqueue of the late order had not ended when the next dequeue there started, which does not take its item either."""
    calls = [jm.calls_of(history)[number - 1] for number in order]
    following = None
    for call in reversed(calls):
        if call.kind == jm.DEQUEUE:
            following = call
        elif following and following.item != call.item and not 0 < call.end < following.start:
            return True
    return False


def checks(seed, count):
    """So many orders: of explained histories right ones and damaged ones, of others those of a history with another answer."""
    rng, cases = random.Random(seed), []
    while len(cases) < count:
        history = draw(rng)
        every = sorted(jm.orders(history))
        order = list(rng.choice(every)) if every else jm.late_order(test_judge.with_another_answer(rng, history))
        if len(cases) % 3:
            calls = len(jm.calls_of(history))
            orders = [other for other in damaged_orders(rng, order, calls) if rng.random() < 0.1 or set(other) <= set(range(1, calls + 1))]
            order = rng.choice(orders or [order])
        if len(cases) % 3 or every:
            cases.append(Check(history, order, tuple(order) in every))
    return cases


HEAD = """-- Generated: histories and orders of their calls, and what the model says of them.
use Rattle.std.specs.Prelude.{◌≡◌, refl, Bool, true, false, List, [], ◌∷◌, ◌++◌, ℕ}
use Rattle.history.specs.Event.{History, enqueue_started, enqueue_ended, dequeue_started, gave_item, gave_empty}
use Rattle.history.specs.Calls.{Call, enq, deq, nothing, item, empty}
use Rattle.tables.specs.Store.{zeros}
use Rattle.tables.specs.Order.{Numbered, list, late, check}
"""

# The definitions, put together as the tables need them.
ORDER = """-- Orders of calls as the definitions have them.
use Rattle.std.specs.Prelude.{Bool, List, ℕ}
use Rattle.history.specs.Event.{History}
use Rattle.history.specs.Calls.{Call, calls}
use Rattle.history.specs.Shows.{listed}
use Rattle.criterion.specs.Order.{ordered, order_numbers}
use Rattle.order_check.specs.Check.{orderly, is_order}

-- a history and starting numbers of its calls
pub record Numbered : Type 0 where
  pub history : History
  pub numbers : List ℕ

unfoldable pub list : Numbered → List Call
list n = listed (calls n.history) n.numbers

unfoldable pub late : History → List ℕ
unfolding ordered order_numbers
late h = order_numbers (calls h)

unfoldable pub check : Numbered → Bool
unfolding orderly is_order
check n = is_order n.history n.numbers
"""
