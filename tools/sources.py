"""What the tools read of a crate's sources: its functions, and its wrong bodies.

A wrong body is a file NAME.edit in a crate's `wrong/` or `must-fail/`: a line 'file: src/lib.rt', and then pairs of
lines 'old: TEXT' and 'new: TEXT'. Each old text stands exactly once in what the pairs before it left. A line
'by: FILE OWNER::NAME' above them names the function that is to be refused, where the pairs change no body (tools/edits).
"""
import re
from pathlib import Path

TOP = Path(__file__).resolve().parent.parent
FUNCTION = re.compile(r'^( *)((?:pub(?:\([a-z]+\))? )?)(?:const )?fn ([a-z_0-9]+)')
OWNER = re.compile(r'^( *)(?:pub )?(impl|trait|mod)\b(.*)$')
CLAUSE = re.compile(r'^\s*(requires|ensures)\*?(?: ([a-z_0-9]+))? \{')
# Where edits lie: tools/edits tries those of both, and `rt ci` those of `must-fail/` too.
PLACES = ('must-fail', 'wrong')


class Function:
    def __init__(self, owner, name, public, first):
        self.owner, self.name, self.public, self.first, self.last = owner, name, public, first, first
        # The first line of its own text, below attributes and comments.
        self.head = first
        self.clauses, self.edits = [], []

    def title(self):
        return f'{self.owner}::{self.name}' if self.owner else self.name


def owner_of(kind, rest):
    """The name of an impl, a trait or a module: `Type`, `Type as Trait`, `Trait`."""
    rest = rest.split('{')[0].split(' where')[0].strip()
    if kind != 'impl':
        return re.match(r'\w*', rest)[0]
    if rest.startswith('<'):
        depth = 0
        for at, letter in enumerate(rest):
            depth += (letter == '<') - (letter == '>' and rest[at - 1] != '-')
            if depth == 0:
                rest = rest[at + 1:].strip()
                break
    if ' for ' in rest:
        trait, _, of = rest.partition(' for ')
        return f'{bare(of)} as {bare(trait)}'
    return bare(rest)


def bare(text):
    """A type's own name: no path, no arguments."""
    return re.split(r'[<:( ]', text.strip().split('::')[-1].lstrip('&'))[0] or text.strip()


def functions_of(lines):
    """The functions of a file, each with the first and the last line of its text, counted from 0."""
    found, owners, open_ones = [], [], []
    for number, line in enumerate(lines):
        indent = len(line) - len(line.lstrip())
        while owners and line.strip() and indent <= owners[-1][0] and not line.strip().startswith(('where', '{', ')', '>')):
            owners.pop()
        match = OWNER.match(line)
        if match and not line.rstrip().endswith(';'):
            # A long header goes on until its brace.
            header = match[3]
            for further in lines[number + 1:]:
                if '{' in header:
                    break
                header += ' ' + further.strip()
            owners.append((indent, owner_of(match[2], header)))
            continue
        match = FUNCTION.match(line)
        if match:
            in_trait = bool(owners)
            owner = owners[-1][1] if owners else ''
            open_ones.append((indent, Function(owner, match[3], bool(match[2]) or in_trait, number)))
            found.append(open_ones[-1][1])
        if open_ones:
            at, function = open_ones[-1]
            function.last = number
            clause = CLAUSE.match(line)
            if clause:
                function.clauses.append((clause[2] or clause[1]))
            if re.match(r'^ {%d}(\}|.*;$|\{\}$)' % at, line) and indent == at and number >= function.first \
                    and (line.strip().startswith(('}', '{}')) or line.rstrip().endswith(';')):
                open_ones.pop()
    for function in found:
        # Attributes and comments above belong to it.
        while function.first > 0 and lines[function.first - 1].lstrip().startswith(('#[', '//')):
            function.first -= 1
    return found


def pairs_of(edit):
    """An edit's pairs, each a file, an old text and a new one."""
    pairs, file, old = [], None, None
    for line in edit.read_text(encoding='utf-8').splitlines():
        key, _, text = line.partition(':')
        text = text[1:] if text.startswith(' ') else text
        if key == 'file':
            file = text.strip()
        elif key == 'old':
            old = text
        elif key == 'new' and old is not None:
            pairs.append((file, old, text))
            old = None
    return pairs


def edits_of(crate):
    """The crate's edits, by name."""
    return sorted((path for place in PLACES for path in (crate / place).glob('*.edit')), key=lambda path: path.stem)


def crates_with_edits():
    return sorted({path.parent.parent for place in PLACES for path in TOP.glob(f'crates/*/{place}/*.edit')})


def dependencies():
    """For each crate of crates.txt the libraries that its line names."""
    found = {}
    for line in (TOP / 'crates.txt').read_text(encoding='utf-8').splitlines():
        head, colon, names = line.split('#')[0].partition(':')
        if colon:
            found[head.split()[0]] = names.split()
    return found


def below(crate, all_of=None):
    """The repository's libraries below a crate, each after those that it stands on."""
    all_of, found = all_of or dependencies(), []
    for name in all_of[crate]:
        if name in all_of:
            found += [it for it in [*below(name, all_of), name] if it not in found]
    return found
