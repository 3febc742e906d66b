"""Cases for the definitions that compare two recordings, for definition_cases.py: `compared`, `handed_back` and `keeps_to` of
crates/comparison/specs/Compared.antt, `number_of` and `reply_words` of Reply.antt. What they must give comes from `comparison_model` alone."""

import random
import re
from typing import NamedTuple

import comparison_model as cm
import judge_model as jm
import recordings
from histories import damaged, run_of_calls
from table_terms import another, changed_at, listed, numbers, record_term
from test_judge import random_history, with_another_answer

TYPES = {'comparison': 'Lent', 'keeping': 'Lent'}
ANSWERS = {'comparison': 'Outcome', 'keeping': 'Bool'}
FUNCTIONS = {'comparison': 'compare', 'keeping': 'keep'}
NAMES = {cm.FIRST: 'First', cm.SECOND: 'Second'}


def lent_term(case):
    return record_term(first=numbers(case.first), second=numbers(case.second), said=numbers(case.said))


def reply_term(reply):
    if reply[0] == 'refused':
        return f'Refused {NAMES[reply[1]]} {reply[2]}'
    return {'same': 'SameCalls', 'other': 'OtherCalls'}[reply]


class Comparison(NamedTuple):
    """The words of two recordings, and those of the reply before."""

    first: list
    second: list
    said: list
    expected: tuple  # the reply; the rest; its words; what C gets: the number, and the words of the reply

    def terms(self):
        """What is given and what is expected, as terms."""
        reply, (recording, begin), words, number, said = self.expected
        rest = record_term(recording=NAMES[recording], **{'from': begin})
        compared = record_term(reply=reply_term(reply), rest=rest)
        return lent_term(self), record_term(compared=compared, part=numbers(words), number=number, said=numbers(said))

    def wrong(self, rng):
        """The same with one expected value changed."""
        reply, rest, words, number, said = self.expected
        part = rng.randrange(6)
        if part == 0:
            reply = 'other' if reply == 'same' else 'same'
        elif part == 1:
            rest = (cm.FIRST + cm.SECOND - rest[0], rest[1])
        elif part == 2:
            rest = (rest[0], another(rest[1]))
        elif part == 3:
            words = changed_at(words, rng.randrange(len(words)), another) if words else [0]
        elif part == 4:
            number = another(number)
        else:
            said = changed_at(said, rng.randrange(4), another)
        return self._replace(expected=(reply, rest, words, number, said))


class Keeping(NamedTuple):
    """The words of two recordings."""

    first: list
    second: list
    said: list
    expected: bool  # whether the second may be trusted on the word of the first

    def terms(self):
        return lent_term(self), 'true' if self.expected else 'false'

    def wrong(self, rng):
        return self._replace(expected=not self.expected)


KINDS = (Comparison, Keeping)


def compared(first, second, said):
    """The case of a comparison, with the model's answers."""
    number, words = cm.for_c(first, second, said)
    return Comparison(first, second, said, (*cm.compare(first, second), cm.part(first, second), number, list(words)))


def draw(rng, most=12):
    """A valid history of up to so many events."""
    return random_history(rng, most) if rng.random() < 0.3 else run_of_calls(rng, rng.randrange(most + 1), rng.choice((2, 4, 16)), 0.1)


def other_recording(rng, history):
    """The same run by other clocks: a little, in any order, or with more overlaps."""
    return rng.choice((recordings.drifted, recordings.shuffled, lambda rng, history: recordings.overlapping_more(rng, history, 12)))(rng, history)


def pair(rng, kind):
    """The words of two recordings: of one run; of one run, but one is cut, or has another answer or two calls swapped; of two runs; damaged."""
    first = draw(rng)
    second = other_recording(rng, first) if rng.random() < 0.8 else first
    if kind == 1:
        second = second[: rng.randrange(len(second) + 1)]
    elif kind == 2:
        second = rng.choice((with_another_answer, recordings.with_calls_swapped))(rng, second)
    elif kind == 3:
        second = draw(rng)
    both = [jm.flatten(first), jm.flatten(second)]
    if kind == 4:
        return [damaged(rng, first) if rng.random() < 0.5 else both[0], damaged(rng, second)]
    return both if rng.random() < 0.3 else both[::-1]


def comparisons(seed, count):
    """So many pairs; the first of them have no events, or as many as there may be and one more."""
    rng, most = random.Random(seed), [0] * 4 * jm.MAX_EVENTS
    cases = [compared(first, second, [9, 8, 7, 6]) for first, second in (([], []), (most, []), ([0] * 4 + most, []), ([], [0] * 4 + most))]
    while len(cases) < count:
        first, second = pair(rng, (0, 1, 1, 2, 3, 4, 4, 4)[len(cases) % 8])
        cases.append(compared(first, second, [rng.randrange(99) for _ in range(4)]))
    return cases


def keepings(seed, count):
    """So many pairs; of half of them both recordings have the same calls."""
    rng, cases = random.Random(seed), []
    while len(cases) < count:
        first, second = pair(rng, (0, 0, 0, 0, 1, 2, 3, 4)[len(cases) % 8])
        cases.append(Keeping(first, second, [], cm.trusted(first, second)))
    return cases


HEAD = """-- Generated: the words of two recordings, and what the model says of them.
use Rattle.std.specs.Prelude.{◌≡◌, refl, Bool, true, false, List, [], ◌∷◌, ◌++◌}
use Rattle.comparison.specs.declared.Recording.TheVariants.{First, Second}
use Rattle.comparison.specs.Compared.{Refused, SameCalls, OtherCalls}
use Rattle.tables.specs.Store.{zeros}
use Rattle.tables.specs.Compare.{Lent, Outcome, compare, keep}
"""

# The definitions, put together as the tables need them.
COMPARE = """-- Two recordings as the definitions compare them.
use Rattle.std.specs.Prelude.{Bool, List, ℕ}
use Rattle.history.specs.Event.{decode}
use Rattle.history.specs.Form.{most_events, read}
use Rattle.equivalence.specs.Tests.{same_calls, keeps_precedence}
use Rattle.comparison.specs.Compared.{Comparison, shared, compared, handed_back, keeps_to}
use Rattle.comparison.specs.Reply.{number_of, reply_words}

-- the words of two recordings, and those of the reply before
pub record Lent : Type 0 where
  pub first : List ℕ
  pub second : List ℕ
  pub said : List ℕ

-- the comparison, the part that is handed back, and what C gets
pub record Outcome : Type 0 where
  pub compared : Comparison
  pub part : List ℕ
  pub number : ℕ
  pub said : List ℕ

unfoldable pub compare : Lent → Outcome
unfolding decode read same_calls shared
compare l =
    let c = compared l.first l.second in
    record { compared = c; part = handed_back l.first l.second; number = number_of c.reply; said = reply_words c l.said }

unfoldable pub keep : Lent → Bool
unfolding decode read same_calls keeps_precedence
keep l = keeps_to (read most_events l.first) (read most_events l.second)
"""


def types_alone(code):
    """The types that the definitions speak of, without the rest of the crate's code."""
    return '\n\n'.join(re.findall(r'^pub (?:enum Recording|struct Rest) .*?^}$', code, re.M | re.S)) + '\n'
