#!/usr/bin/env python3
"""Lists functions of Rattle sources that differ only in names, numbers and types.

python3 tools/twins.py FILE..: each function without its clauses and comments is a row of tokens, in which every name, number and type is the same
token. Functions with the same row, of 20 tokens or more, are one line. Then each place where three lines or more of a function, one after the
other, have the same row, of 6 tokens or more.
"""
import re
import sys

TOKEN = re.compile(r"b?\"[^\"]*\"|b?'[^']*'|[A-Za-z_][A-Za-z_0-9]*|[0-9][0-9_a-z]*|[^\sA-Za-z_0-9]")
KEEP = {'fn', 'let', 'mut', 'if', 'else', 'match', 'while', 'for', 'in', 'return', 'as', 'true', 'false', 'loop', 'break'}
FUNCTION = re.compile(r'^ *(?:pub )?(?:extern "C" )?fn (\w+)')


def functions(path):
    """Names and texts of the functions of a file, without comments and clauses."""
    name, text, depth, opened = None, [], 0, False
    for line in open(path, encoding='utf-8'):
        line = re.sub(r'//.*', '', line.rstrip('\n'))
        found = FUNCTION.match(line)
        if name is None and found:
            name, text, depth, opened = found.group(1), [], 0, False
        if name is None or re.match(r'^ *(requires|ensures)\b', line):
            continue
        text.append(line)
        depth += line.count('{') - line.count('}')
        opened = opened or '{' in line
        if opened and depth == 0:
            yield name, text
            name = None


def shape(text):
    """The tokens of a text, every name and number the same."""
    return tuple(token if token in KEEP or not re.match(r'[A-Za-z_0-9"\']', token) else 'name' for token in TOKEN.findall(text))


def runs(lines):
    """How many lines each run of three or more of the same row has, at a function's lines."""
    rows = [shape(line) for line in lines]
    at = 0
    while at < len(rows):
        end = at
        while end < len(rows) and rows[end] == rows[at]:
            end += 1
        if end - at >= 3 and len(rows[at]) >= 6:
            yield end - at
        at = end


def main():
    """Prints the groups, then the runs."""
    groups, repeated = {}, []
    for path in sys.argv[1:]:
        for name, lines in functions(path):
            whole = f'{path.split("/")[-3]}::{name}'
            groups.setdefault(shape(' '.join(lines)), []).append(whole)
            repeated += [f'{whole}: {count} lines' for count in runs(lines)]
    for row, names in sorted(groups.items(), key=lambda item: item[1]):
        if len(names) > 1 and len(row) >= 20:
            print(' '.join(names))
    print('\n'.join(repeated))


main()
