"""A wrong body as it is written: what an edit changes, and whose it is."""
import re
import sys
from pathlib import Path

sys.dont_write_bytecode = True
from sources import CLAUSE, functions_of, pairs_of

IMPORT = re.compile(r' *(ghost )?use ')
# The line of an edit that names a function.
BY = re.compile(r'^by: (\S+) (.+)$', re.MULTILINE)


class Unread(Exception):
    """An edit that can't be applied."""


class Edit:
    def __init__(self, crate, path):
        self.crate, self.path, self.pairs = crate, path, pairs_of(path)
        named = BY.findall(path.read_text(encoding='utf-8'))
        self.is_by_itself, self.own, self.lines, self.fault = bool(named), frozenset(), set(), ''
        try:
            self.texts(crate)
            self.lines, self.own = self.lines_and_functions()
            if named:
                self.own = frozenset(self.function(*it) for it in named)
        except Unread as why:
            self.fault = f'can\'t be applied: {why}'

    def title(self):
        return f'{self.crate.name}/{self.path.stem}'

    def function(self, file, title):
        """A function by its file and its title."""
        path = self.crate / file
        lines = path.read_text(encoding='utf-8').split('\n') if path.is_file() else []
        found = [it for it in functions_of(lines) if it.title() == title]
        if len(found) != 1:
            raise Unread(f'{file} has {len(found)} functions {title}')
        return file, found[0].owner, found[0].name

    def files(self):
        return {file for file, _, _ in self.pairs}

    def texts(self, folder):
        """The files that the edit changes in a folder, with their new texts."""
        found = {}
        for file, old, new in self.pairs:
            path = folder / file
            text = found[file] if file in found else path.read_text(encoding='utf-8') if path.is_file() else ''
            if text.count(old) != 1:
                raise Unread(f'its old text stands {text.count(old)} times in {file}: {old[:100]}')
            found[file] = text.replace(old, new)
        if not found:
            raise Unread('it has no pair of old and new')
        return found

    def apply(self, folder):
        """Changes all its files in a folder, or none."""
        for file, text in self.texts(folder).items():
            (folder / file).write_text(text, encoding='utf-8')

    def lines_and_functions(self):
        """The lines that the edit changes, and the functions whose bodies it changes, or those that it adds where it changes
        no body; each with its file and its owner ('?' of a method that is added). No function where it changes what
        others rest on: a ghost member, a clause, what an imported name means, a lemma. Imports may be added, and these
        functions' own answers may change."""
        texts, lines, changed, added, answers = {}, set(), set(), set(), []
        for file, old, new in self.pairs:
            text = texts.setdefault(file, (self.crate / file).read_text(encoding='utf-8'))
            at = text.find(old)
            line = text.count('\n', 0, at + len(old) - len(old.lstrip()))
            lines.add((file, text.split('\n')[line]))
            texts[file] = text.replace(old, new)
            if file.startswith('proofs/'):
                answers.append(Path(file).parent.name)
            elif at < 0 or not file.startswith('src/') or CLAUSE.match(old):
                return lines, frozenset()
            elif IMPORT.match(old):
                if ' as ' in new and ' as ' not in old:
                    return lines, frozenset()
            elif new.endswith(old.strip()) and re.match(r'impl\b|//', old):
                for it in re.finditer(r'\bfn (\w+)', new):
                    before = new[:it.start()]
                    added.add((file, '' if before.count('{') == before.count('}') else '?', it[1]))
                # (a head of an impl that follows on the same line would not be seen)
                texts[file] = text
            else:
                inner = [it for it in functions_of(text.split('\n')) if it.first <= line <= it.last]
                if not inner:
                    return lines, frozenset()
                changed.add((file, inner[-1].owner, inner[-1].name))
        own = frozenset(changed or added)
        return lines, own if set(answers) <= {name for _, _, name in own} else frozenset()


def mark_twins(edits):
    """Those that change the same as one before them have a fault."""
    seen = {}
    for edit in edits:
        first = seen.setdefault((edit.crate, tuple(edit.pairs)), edit)
        if first is not edit and not edit.fault:
            edit.fault = f'is the same as {first.path.stem}'
