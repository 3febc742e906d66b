"""What the tables of definition_cases.py and order_cases.py are written with: terms in antt, and values that are wrong in one place."""

import itertools

import intake_model as im


def listed(terms):
    return ' ∷ '.join([*terms, '[]'])


def numbers(words):
    """A list of words; a long row of zeros in it, such as a drain area's, is `zeros`."""
    return ' '.join(part for row, same in itertools.groupby(words, bool) for part in row_term(row, list(same))) + ' []'


def row_term(row, words):
    if not row and len(words) >= 16:
        return [f'zeros {len(words)} ++']
    return [f'{word} ∷' for word in words]


def item_term(item):
    return record_term(number=item[0], value=item[1])


def event_term(event):
    """An event of four words."""
    kind, thread, call, value = event
    return (
        f'enqueue_started {thread} {call} {value}',
        f'enqueue_ended {thread} {call} {value}',
        'dequeue_started',
        f'gave_item {call} {value}',
        'gave_empty',
    )[kind - 1]


def record_term(**fields):
    return 'record { ' + '; '.join(f'{name} = {term}' for name, term in fields.items()) + ' }'


# Wrong values.


def another(word):
    return word + 1 if word < im.U32 else 0


def changed_at(items, k, change):
    return [change(item) if j == k else item for j, item in enumerate(items)]
