"""What the files of the crates declare, and the definitions that a statement rests on."""

import functools
import pathlib
import re

ROOT = pathlib.Path(__file__).resolve().parent.parent
MARKS = r'(?:(?:pub|abbrev|unfoldable) )*'
MODULE = re.compile(r'Rattle\.(\w+)\.(specs|proofs)\.([\w.]+)')


class Source:
    """An .antt or .rt file: its declarations, each with the comment above it, and what its `use` lines bring."""

    def __init__(self, path):
        self.path, self.text = path, (ROOT / path).read_text(encoding='utf-8')
        self.blocks, self.imports, self.modules = {}, {}, {}
        for lines in self.split():
            for name in declared(lines):
                self.blocks.setdefault(name, lines)
        for path, names, alias in re.findall(r'^(?:ghost )?use ([^\s{;]+?)(?:\.\{([^}]*)\})?(?: as (\w+))?;?$', self.text, re.M):
            if found := MODULE.fullmatch(path):
                for name in filter(None, map(str.strip, names.split(','))):
                    self.imports[name] = found.groups()
                if not names:
                    self.modules[alias or path.rsplit('.', 1)[-1]] = found.groups()

    def split(self):
        """The declarations: what blank lines part, with the indented lines after them."""
        blocks = []
        for part in re.split(r'\n\s*\n', self.text.strip('\n')):
            if blocks and part.startswith(' ') and self.path.endswith('.antt'):
                blocks[-1] += part.split('\n')
            else:
                blocks.append(part.split('\n'))
        return blocks


def declared(lines):
    """The names that a declaration gives, the constructors of a type among them."""
    text = '\n'.join(line for line in lines if not re.match(r'\s*(?:--|//|#)|infix', line))
    if found := re.match(r'\s*(?:pub )?(?:extern "C" )?(?:fn|struct|enum|const) (\w+)', text):
        return [found[1]]
    if text.startswith('module '):
        return re.findall(rf'^  {MARKS}(?:data |record )?([^\s:(){{}}]+) ', text, re.M)
    if found := re.match(rf'{MARKS}(data |record )?([^\s:(){{}}]+).* (?::|where)', text):
        return [found[2]] + (re.findall(r'^  (\S+) :', text, re.M) if found[1] == 'data ' else [])
    return []


@functools.cache
def source(path):
    return Source(path)


def file_of(crate, part, module):
    """The file of a module of a crate's specs or proofs; none for a type that the code declares, what a check makes, and a library of the toolchain."""
    path = f'crates/{crate}/{part}/{module.replace(".", "/")}.antt'
    return path if (ROOT / path).is_file() else None


def code(path, name):
    return [line for line in source(path).blocks[name] if not re.match(r'\s*--', line)]


def is_definition(path, name):
    """Whether a declaration is a definition, and not a theorem or code."""
    return path.endswith('.antt') and not re.match(r'(?:pub )?[^\s:]+ :', code(path, name)[0])


def statement(path, name):
    """What a declaration says: a function's clauses, a theorem's type, a definition whole."""
    lines = code(path, name)
    if path.endswith('.rt'):
        return ' '.join(clauses('\n'.join(lines)))
    if is_definition(path, name):
        return '\n'.join(lines)
    ends = [n for n, line in enumerate(lines) if n and not line.startswith(' ')]
    return '\n'.join(lines[: ends[0]] if ends else lines).split(' :', 1)[1]


def clauses(text):
    """What the braces of a function's clauses hold."""
    for found in re.finditer(r'\b(?:ensures|requires)\*?(?: \w+)? \{', text):
        depth, end = 1, found.end()
        while depth:
            depth += {'{': 1, '}': -1}.get(text[end], 0)
            end += 1
        yield text[found.end() : end - 1]


@functools.cache
def rests_on(path, name, shut=frozenset()):
    """The (file, definition) pairs that a statement rests on, itself left out, not through the names that are shut."""
    found, todo = set(), [(path, statement(path, name))]
    while todo:
        at, text = todo.pop()
        file = source(at)
        for token in re.split(r'[\s(){}\[\],;|]+', text):
            token = token.lstrip('λ').rstrip('.')
            module, _, last = token.rpartition('.')
            head = token.split('.')[0]
            if whole := MODULE.fullmatch(module):
                target = file_of(*whole.groups()), last
            elif module in file.modules:
                target = file_of(*file.modules[module]), last
            elif head in file.imports:
                target = file_of(*file.imports[head]), head
            elif head in file.blocks:
                target = at, head
            else:
                continue
            if target[0] and target[1] not in shut:
                block = source(target[0]).blocks.get(target[1])
                target = target[0], declared(block)[0] if block else target[1]
                if target not in found and target != (path, name):
                    found.add(target)
                    todo += [(target[0], '\n'.join(code(*target)))] if block else []
    return found
