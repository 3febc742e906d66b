#!/usr/bin/env python3
"""Brings the names of definitions and lemmas that crates/ declares to one spelling: words in snake case, types in upper camel case.

usage: tools/port_names.py [--list]    at the top of the repository, once, after the spelling of the toolchain's own names has been turned

A name that specs/ or proofs/ declare (a definition, lemma, constructor or field) is turned wherever it stands as a whole word: in .antt files, in the
.rt files' clauses, in must-fail edits, in tests/ and tools/ and in the code spans of the pages. Names that the check makes for goals stay, and so do
functions of src/, exported C names, strings, inputs and outputs. --list prints the table and what falls together, and writes nothing.
"""
import collections
import os
import re
import subprocess
import sys

SIGNATURE = re.compile(r'^(\s*)((?:(?:abbrev|unfoldable|pub|data|record)\s+)*)([^\s(){}.;,@"«»:]+(?:\s+[^\s(){}.;,@"«»:=→λ]+)*?)\s*((?:[({].*)?):(?:\s|$)(.*)$')
WORD = r'[^\s(){}.;,@"«»\[\]`|:]+'
KEYWORDS = {'pub', 'data', 'record', 'where', 'abbrev', 'unfoldable'}


def tracked(*patterns):
    return subprocess.check_output(['git', 'ls-files', *patterns], text=True).split()


def declared():
    """Every declared name, with the places: (file, line, keywords, indent, type)."""
    found = collections.defaultdict(list)
    for f in tracked('crates/*.antt'):
        lines = open(f, encoding='utf-8').read().split('\n')
        heads = []
        for i, line in enumerate(lines):
            if not line.strip() or line.lstrip().startswith('--'):
                continue
            depth = len(line) - len(line.lstrip())
            while heads and heads[-1][0] >= depth:
                heads.pop()
            within = heads[-1][1] if heads else 'module'
            m = re.match(r'\s*(?:abbrev |unfoldable |pub )*(record|data|module)\b', line)
            heads.append((depth, m.group(1) if m else within if within == 'module' and line.rstrip().endswith('where') else 'body'))
            m = SIGNATURE.match(line)
            if not m or within == 'body' or re.match(r'\s*(let|in|elim|use|λ)\b', line):
                continue
            indent, words, names, parameters, its_type = m.groups()
            if its_type.strip().startswith(('tie.', 'goal.')):
                continue
            for n in names.split():
                if n not in KEYWORDS:
                    found[n].append((f, i + 1, words.strip(), within, (parameters + ' : ' + its_type).strip()))
    return found


def is_type(places):
    return any(re.search(r'→ Type 0$|: Type 0$|: Type 0 where$', p[4].strip()) or 'record' in p[2].split() or 'data' in p[2].split() for p in places)


def snake(word):
    word = re.sub(r'([a-z0-9])([A-Z])', r'\1_\2', word)
    return word.replace('-', '_').lower()


def turned(name, places):
    if not re.fullmatch(r"[A-Za-z][A-Za-z0-9_'-]*", name):
        return name
    parts = name.split('-')
    if is_type(places) and any('proofs/' not in p[0] or p[2] for p in places):
        return ''.join(p[:1].upper() + p[1:] for q in parts for p in q.split('_'))
    if name[0].isupper() and len(parts) > 1:
        if all(p[0].isupper() or p[0].isdigit() for p in parts):
            return ''.join(parts)
        head = []
        while parts and parts[0][0].isupper():
            head.append(parts.pop(0))
        return ''.join(head) + '-' + snake('_'.join(parts))
    if name[0].isupper():
        return name
    return snake(name)


def table():
    names = declared()
    rows = {}
    for n, places in names.items():
        if all(p[0].endswith('/Proof.antt') for p in places):
            continue
        t = turned(n, places)
        if t != n:
            rows[n] = t
    return names, rows


def bare(text):
    """The words that stand bare in a text, not behind a dot."""
    text = re.sub(r'--[^\n]*', '', text)
    text = re.sub(r'[{;]\s*' + WORD + r'\s*=(?!=)', ' ', text)
    return set(m.group(0) for m in re.finditer(r'(?<![.\w\'-])' + WORD, text))


def apart(names, rows):
    """Where two spellings of one file would fall together, the lemma gets `_lem`, a field or constructor `_is`."""
    back = collections.defaultdict(set)
    for n, t in rows.items():
        back[t].add(n)
    texts = {f: bare(open(f, encoding='utf-8').read()) for f in tracked('crates/*.antt') if not f.endswith('/Proof.antt')}
    for f in tracked('crates/*.rt'):
        texts[f] = set(re.findall(r'[(,]\s*(?:mut )?(\w+): ', open(f, encoding='utf-8').read()))
    said = []
    for t, ns in sorted(back.items()):
        members = ns | ({t} if t in names or any(t in w for w in texts.values()) else set())
        if len(members) < 2:
            continue
        # a definition was in camel case and keeps the plain name; a lemma was hyphenated
        members = sorted(members, key=lambda n: (not (re.search('[a-z][A-Z]', n) and any(q[3] == 'module' for q in names[n])), n != t or t not in names, '-' in n, n))
        kept = members[0]
        for n in members[1:]:
            if n in names and all(p[3] == 'record' for p in names[n]):
                continue
            both = [f for f, w in texts.items() if n in w and any(k in w for k in members if k != n)]
            if both:
                rows[n] = t + '_lem'
                said.append((n, rows[n], kept, len(both), both[0]))
    return said



TOKEN = re.compile(r"[^\s(){}.;,@\"«»\[\]`|:]+")


def words_turned(text, rows, antt):
    """The text with each whole word that has a row in its new spelling. A word in snake case turns in antt alone, and not in a path."""

    def one(m):
        w = m.group(0)
        t = rows.get(w)
        if t is None:
            return w
        if re.fullmatch('[a-z0-9_]+', w) and (not antt or text[m.start() - 1 : m.start()] == '.' or text[m.end() : m.end() + 1] == '.'):
            return w
        return t

    return TOKEN.sub(one, text)


def spans_turned(text, rows):
    return re.sub(r'`[^`\n]*`', lambda m: words_turned(m.group(0), rows, False), text)


def camel_turned(text, rows):
    return words_turned(text, {n: t for n, t in rows.items() if re.search('[a-z0-9][A-Z]', n)}, False)


def line_turned(line, rows, antt):
    at = re.search(r'(?<!\S)--(?!\S)|--$' if antt else r'//', line)
    code, comment = (line, '') if not at else (line[: at.start()], line[at.start() :])
    if not antt:
        parts = re.split(r'(b?"(?:[^"\\]|\\.)*")', code)
        code = ''.join(p if k % 2 else words_turned(p, rows, antt) for k, p in enumerate(parts))
    else:
        code = words_turned(code, rows, antt)
    return code + camel_turned(spans_turned(comment, rows), rows)


def outside(rows, names, text):
    """Rows for a text outside crates/: also the names that the toolchain's own script has turned in crates/ and not here."""
    known = set(names) | set(rows.values())
    more = dict(rows)
    for w in set(TOKEN.findall(text)):
        if w not in rows and w not in names and re.fullmatch("[a-z][A-Za-z0-9'-]*", w) and snake(w) != w and snake(w) in known:
            more[w] = snake(w)
    return more


def turn(names, rows):
    for f in tracked('crates/*.antt', 'crates/*.rt', 'crates/*/must-fail/*.edit', 'tests/*.py', 'docs/*.md', 'README.md'):
        old = open(f, encoding='utf-8').read()
        if f.endswith(('.antt', '.rt')):
            new = '\n'.join(line_turned(x, rows, f.endswith('.antt')) for x in old.split('\n'))
        elif f.endswith('.edit'):
            rows_here = outside(rows, names, old)
            new = '\n'.join(x if x.startswith('file:') else line_turned(x, rows_here, 'specs/' in old or 'proofs/' in old) for x in old.split('\n'))
        elif f.endswith('.py'):
            new = words_turned(old, outside(rows, names, old), False)
        else:
            new = spans_turned(old, outside(rows, names, old))
        if new != old:
            open(f, 'w', encoding='utf-8').write(new)


if __name__ == '__main__':
    names, rows = table()
    if '--list' in sys.argv:
        apart(names, rows)
        words = collections.Counter()
        for f in tracked('crates/*.antt', 'crates/*.rt'):
            words.update(set(re.findall(WORD, open(f, encoding='utf-8').read())))
        for n in sorted(rows):
            print(n, rows[n])
        back = collections.defaultdict(list)
        for n, t in rows.items():
            back[t].append(n)
        print('--- fall together')
        for t, ns in sorted(back.items()):
            if len(ns) > 1 or t in names:
                print(t, ns, 'DECLARED' if t in names else '')
        print('--- stand already')
        for t in sorted(back):
            if t in words and t not in names:
                print(t, back[t], words[t])
        raise SystemExit
    apart(names, rows)
    turn(names, rows)
    print(f'{len(rows)} names')
