"""Random inputs of the program `intake`, in classes. Each class is a function from a random.Random to the bytes of one
input; `CLASSES` says how many of each are tried, and what so many of them must show at least."""

import itertools

MOST_INPUT, MOST_NUMBER = 8_192, 2**32 - 1
LONGEST_LINE = len('e 17 4294967295\n')

SMALL = ((2, 4), (2, 5), (1, 4), (1, 60))  # B, N, P, M from, to
MIDDLE = ((2, 16), (2, 16), (1, 16), (1, 2_000))
LARGEST = ((64, 64), (64, 64), (16, 16), (1, 1_000_000))
CRAMPED = ((2, 3), (2, 3), (1, 4), (4, 30))


def sizes(rng, limits):
    return [rng.randint(low, high) for low, high in limits]


def open_line(numbers):
    return 'open ' + ' '.join(map(str, numbers))


def start(rng, thread):
    return f'e {thread} {rng.choice([0, 7, rng.randrange(MOST_NUMBER), MOST_NUMBER])}' if thread else 'd'


def calls(rng, producers, dequeues):
    """Lines without end: a call is started and stepped a few times, other threads between; now and then a thread that
    is not there. `dequeues` is the share of the starts that are dequeues."""
    while True:
        thread = 0 if rng.random() < dequeues else rng.randint(1, producers)
        yield start(rng, thread)
        for _ in range(rng.randrange(12)):
            yield f's {thread if rng.random() < 0.7 else rng.randint(0, producers)}'
        if rng.random() < 0.02:
            yield rng.choice([f's {producers + 1}', f'e {producers + 1} 7', 'e 0 7'])


def schedule(rng, limits, lines, dequeues=0.4):
    """An open and so many lines after it."""
    opened = sizes(rng, limits)
    return [open_line(opened), *itertools.islice(calls(rng, opened[2], dequeues), lines)]


def joined(rng, lines):
    """The bytes of some lines; the last newline may be missing."""
    return '\n'.join(lines).encode() + rng.choice([b'', b'\n'])


def small(rng):
    return joined(rng, schedule(rng, SMALL, rng.randint(5, 120)))


def middle(rng):
    return joined(rng, schedule(rng, MIDDLE, rng.randint(5, 200)))


def largest(rng):
    return joined(rng, schedule(rng, LARGEST, rng.randint(5, 120)))


def filled(rng, size):
    """A schedule of exactly so many bytes."""
    limits = rng.choices([SMALL, MIDDLE, LARGEST], [14, 5, 1])[0]
    opened = sizes(rng, limits[:3] + ((1, 1_000_000),))
    text = open_line(opened) + '\n'
    for line in calls(rng, opened[2], rng.choice([0.2, 0.5])):
        if size - len(text) < LONGEST_LINE + len('s 10\n'):
            break
        text += line + '\n'
    if (size - len(text)) % 2:
        text += 's 10\n'
    return (text + 'd\n' * ((size - len(text)) // 2)).encode()


def nearly_too_long(rng):
    return filled(rng, MOST_INPUT - rng.randint(0, 64))


def just_too_long(rng):
    return filled(rng, MOST_INPUT + rng.randint(1, 64))


def damaged(rng):
    """A schedule with one byte replaced, dropped or put in."""
    data = joined(rng, schedule(rng, SMALL, rng.randint(5, 40)))
    at, byte = rng.randrange(len(data)), bytes([rng.choice(b'0123456789 \n\r\t\0esdopnDES/:\xff')])
    return data[:at] + rng.choice([byte + data[at + 1 :], data[at + 1 :], byte + data[at:]])


def hostile(rng):
    """Bytes of any kind or of the lines' alphabet, alone or after good lines; a few are too long."""
    length = 20_000 if rng.random() < 0.03 else rng.choice([1, 2, 3, 5, 10, 100, 1_000, 8_000])
    if rng.random() < 0.5:
        data = rng.randbytes(rng.randint(0, length))
    else:
        data = bytes(rng.choices(b'open esd  0123456789\n\n', k=rng.randint(0, length)))
    good = schedule(rng, SMALL, rng.randint(0, 20)) if rng.random() < 0.5 else []
    return ''.join(line + '\n' for line in good).encode() + data


GOOD_NUMBERS = ('0', '1', '2', '3', '16', '17', '64', '65', '1000000', '1000001', '4294967295')
BAD_NUMBERS = ('00', '01', '000', '0016', '4294967296', '4294967299', '10000000000', '99999999999999999999', '-1', '')


def mostly(rng, good, bad, share=0.99):
    return rng.choice(good if rng.random() < share else bad)


def token_line(rng):
    """A line's word with numbers about the limits: mostly as many as it takes and one space between."""
    word, count = mostly(
        rng,
        [('open', 4), ('e', 2), ('d', 0), ('s', 1), ('s', 1), ('s', 1)],
        [('open', 3), ('open', 5), ('e', 1), ('e', 3), ('d', 1), ('s', 0), ('s', 2), ('E', 2), ('', 1), ('ok', 0)],
    )
    numbers = [mostly(rng, GOOD_NUMBERS, BAD_NUMBERS) for _ in range(count)]
    spaces = [mostly(rng, ' ', ('', '  ', '\t', ' \t', '\n')) for _ in range(count)]
    return word + ''.join(space + number for space, number in zip(spaces, numbers))


def tokens(rng):
    text = rng.choice(['', '', 'open 2 2 1 9\n', 'open 3 2 3 1\n', 'open 64 64 16 1000000\n'])
    for _ in range(rng.randint(1, 40)):
        text += token_line(rng) + mostly(rng, '\n', ('', ' \n', '\r\n', '\n\n', '\n '), 0.995)
    return text.encode()


def reopened(rng):
    """Several opens, some of them refused, with calls before, between and after."""
    lines = list(itertools.islice(calls(rng, 3, 0.4), rng.choice([0, 0, 3])))
    for _ in range(rng.randint(2, 5)):
        lines += schedule(rng, rng.choice([SMALL, SMALL, MIDDLE, MIDDLE, LARGEST]), rng.randint(3, 40))
        if rng.random() < 0.3:
            wrong = [rng.choice([0, 1, 2, 17, 64, 65, MOST_NUMBER]) for _ in range(4)]
            lines += [open_line(wrong), *itertools.islice(calls(rng, 2, 0.4), 10)]
    return joined(rng, lines)


def full(rng):
    """Few and small records, and more enqueues than dequeues."""
    return joined(rng, schedule(rng, CRAMPED, rng.randint(80, 300), rng.choice([0.05, 0.2, 0.3])))


# class: how many, and how many of them at least must show a form of reply
CLASSES = {
    small: (1_500, {'item': 700, 'empty': 700, 'end': 1_200, 'explained': 1_500}),
    middle: (700, {'item': 350, 'empty': 350, 'end': 500, 'explained': 700}),
    largest: (150, {'item': 60, 'empty': 60, 'end': 100, 'explained': 150}),
    nearly_too_long: (250, {'item': 250, 'explained': 250}),
    just_too_long: (60, {'too long': 60}),
    damaged: (1_000, {'bad line': 500, 'explained': 60}),
    hostile: (800, {'bad line': 600, 'explained': 5, 'too long': 5, 'going': 100}),
    tokens: (1_000, {'bad line': 250, 'explained': 250, 'refused 1': 250, 'refused 3': 100}),
    reopened: (400, {'second open': 400, 'item': 200, 'refused 1': 100, 'explained': 400}),
    full: (400, {'refused 8': 200, 'refused 6': 50, 'item': 200, 'explained': 400}),
}
