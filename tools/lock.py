"""What a judgement of a wrong body stands on, and the file `wrong.lock` that keeps it.

The prover notes in what a check keeps which modules each function's own modules saw. Of each there is a text in the
repository: a file of definitions, the contract of a function, the types and traits of a file. `wrong.lock` has a line for
each edit that was refused: its name, the kit's logic sum with the number of this way to judge, and the sums of these texts,
of the edited function and of the edit. A line holds as long as each of its sums is that of a text that stands there, and
so what no judgement saw may change: other bodies, lemmas, answers. The file is written by `tools/edits --record` alone.
"""
import functools
import hashlib
import re
import sys

sys.dont_write_bytecode = True
from prover import body_of, is_of, module_of
from sources import TOP, below, functions_of

LOCK = TOP / 'wrong.lock'
# Raised where a change of the tools judges otherwise: no older line holds then.
JUDGING = 1
SAW = re.compile(r'^--@ (?:saw|import) (\S+)', re.MULTILINE)
MODULE = re.compile(r'Rattle-(\w+?)[-.](specs|proofs)(?:\.(.*))?$')
IMPORTS = re.compile(r'(?m)^ *(?:pub(?:\(\w+\))? )?(?:ghost )?use ([^;]*);')


def sum_of(name, text):
    """The sum of a text by its name, whatever its comments and its layout."""
    plain = re.sub(r'(?m)^\s*(//|--).*\n?', '', text)
    return hashlib.sha256(f'{name}\n{" ".join(plain.split())}'.encode()).hexdigest()[:12]


def imports_of(text):
    """The single imports of a file, each with the words by which it is named there."""
    found = []
    for match in IMPORTS.finditer(text):
        path, brace, inner = match[1].partition('{')
        for it in (inner.rstrip('} \n') if brace else path).split(','):
            name = it.strip()
            if name:
                word = re.split(r'::|\.(?=\w)|\s+as\s+', name)[-1]
                found.append((path + name if brace else name, [part for part in word.split('◌') if part]))
    return found


def with_imports(text, imports):
    """A text behind the imports that it names."""
    words = set(re.split(r'[\s(){}\[\],.;:<>«»]+', text))
    def is_named(part):
        return part in words or (not part.isidentifier() and part in text)
    return '\n'.join([*sorted(full for full, parts in imports if any(map(is_named, parts))), text])


class Source:
    """A file of src/ as judgements read it: each function without its body and whole, all that is no body, and all that is in
    no function."""

    def __init__(self, crate, path):
        text = path.read_text(encoding='utf-8')
        self.file, lines = str(path.relative_to(crate)), text.split('\n')
        self.functions, imports, rest, items = functions_of(lines), imports_of(text), list(lines), list(lines)
        self.heads, self.whole = {}, {}
        for it in self.functions:
            body = body_of(it, lines)
            key = f'{crate.name}/{self.file} {it.title()}'
            head = '\n'.join(lines[it.first:body[0] if body else it.last + 1])
            self.heads[it] = sum_of(key, with_imports(head, imports))
            self.whole[it] = sum_of(f'{key} whole', with_imports('\n'.join(lines[it.first:it.last + 1]), imports))
            if body:
                rest[body[0]:body[1]] = [''] * (body[1] - body[0])
            items[it.first:it.last + 1] = [''] * (it.last + 1 - it.first)
        self.items = sum_of(f'{crate.name}/{self.file} items', with_imports(IMPORTS.sub('', '\n'.join(items)), imports))
        self.sum = sum_of(f'{crate.name}/{self.file}', with_imports(IMPORTS.sub('', '\n'.join(rest)), imports))


class Texts:
    """The sums of a crate's texts."""

    def __init__(self, name):
        self.folder = TOP / 'crates' / name
        self.sources = [Source(self.folder, it) for it in sorted((self.folder / 'src').rglob('*.rt'))]
        self.specs = {}
        for it in sorted((self.folder / 'specs').rglob('*.antt')):
            module = '.'.join(it.relative_to(self.folder / 'specs').with_suffix('').parts)
            self.specs[module] = sum_of(f'{name}/specs/{module}', it.read_text(encoding='utf-8'))
        self.whole = sum_of(name, ' '.join([*(it.sum for it in self.sources), *self.specs.values()]))

    def all(self):
        of_sources = (it for of in self.sources for it in (of.sum, of.items, *of.heads.values(), *of.whole.values()))
        return {self.whole, *self.specs.values(), *of_sources}

    @functools.lru_cache(maxsize=None)
    def homes(self, owner):
        """The module that states a type or a trait."""
        stated = re.compile(rf'^ *(?:pub(?:\([a-z]+\))? )?(?:struct|enum|trait) {re.escape(owner)}\b', re.MULTILINE)
        texts = {it.file: (self.folder / it.file).read_text(encoding='utf-8') for it in self.sources}
        return [module_of(file) for file, text in texts.items() if stated.search(text)][:1]

    def of_path(self, path):
        """The sums of what a path names: functions, or what their file has beside bodies; none where it names nothing."""
        def is_named(of, it):
            modules = [module_of(of.file), *self.homes(it.owner.partition(' as ')[0])]
            return it.name in path and is_of(path, modules, it.owner, it.name)
        found = [of.heads[it] for of in self.sources for it in of.functions if is_named(of, it)]
        if found:
            return found
        homes = [it for it in self.sources if f'{path}::'.startswith(f'{module_of(it.file)}::') and module_of(it.file)]
        homes = homes or [it for it in self.sources if not module_of(it.file)]
        return [max(homes, key=lambda it: len(module_of(it.file))).sum] if homes else []

    def of_module(self, part, rest):
        """The sums of a module that a judgement saw; that of the whole crate where no text of it is known."""
        steps = rest.split('.') if rest else []
        # (a value that is dropped is of a type that was seen)
        if 'Destruct' in rest:
            return []
        if part == 'specs' and steps[:1] in (['contracts'], ['declared'], ['formers']):
            return self.of_path('::'.join(steps[1:])) or [self.whole]
        if part == 'specs':
            known = [it for it in self.specs if f'{rest}.'.startswith(f'{it}.')]
            return [self.specs[max(known, key=len)]] if known else [self.whole]
        # (a lemma makes no wrong body right)
        files = [self.folder / 'proofs' / f'{"/".join(steps[:it])}.antt' for it in range(1, len(steps) + 1)]
        if any(it.is_file() for it in files):
            return []
        return self.of_path('::'.join(steps[:-1])) or [self.whole]


@functools.lru_cache(maxsize=None)
def texts_of(name):
    return Texts(name)


@functools.lru_cache(maxsize=None)
def standing(name):
    """The sums of all texts of a crate and of those below it."""
    return set().union(*(texts_of(it).all() for it in [*below(name), name]))


def files_of(edit):
    """The sums of an edit, and of the files of proofs/ that it changes."""
    files = [edit.path, *(edit.crate / it for it in sorted(edit.files()) if it.startswith('proofs/'))]
    return {sum_of(f'{edit.crate.name}/{it.name}', it.read_text(encoding='utf-8')) for it in files if it.is_file()}


def changed_by(edit):
    """The sums of the texts that an edit changes where it changes what functions rest on."""
    texts = texts_of(edit.crate.name)
    found = {texts.specs[it] for it in texts.specs if f'specs/{it.replace(".", "/")}.antt' in edit.files()}
    for source in texts.sources:
        if source.file in edit.files():
            found |= {source.sum, *source.heads.values()}
    return found


def modules_seen(crate, edit, kept):
    """The modules of crates of the repository that the modules of an edit's own functions saw, by what its checks kept."""
    found = set()
    for file, owner, name in edit.own:
        modules = crate.modules(file, owner)
        for it in crate.functions():
            path = it[len(crate.name) + 2:]
            if is_of(path, modules, owner, name):
                for at in kept.glob(f'*/Rattle-{crate.name}-proofs.{path.replace("::", ".")}.*.oantt'):
                    found |= set(SAW.findall(at.read_bytes().decode(errors='replace')))
    return {(it[1], it[2], it[3] or '') for it in map(MODULE.match, found) if it and it[1] in (*crate.below, crate.name)}


def seen_by(crate, edit, kept):
    """The sums of what the judgement of an edit read; the whole of the crate and of those below it where that is not known."""
    found, seen = files_of(edit), modules_seen(crate, edit, kept)
    for source in texts_of(crate.name).sources:
        own = {(owner, name) for file, owner, name in edit.own if file == source.file}
        whole = {source.whole[it] for it in source.functions if (it.owner, it.name) in own}
        found |= whole | ({source.items} if own else set())
    if edit.is_by_itself:
        found |= changed_by(edit)
    if not seen:
        found |= {texts_of(it).whole for it in [*crate.below, crate.name]}
    return found | {sum for name, part, rest in seen for sum in texts_of(name).of_module(part, rest)}


class Lock:
    """The lines of wrong.lock."""

    def __init__(self, logic):
        self.mark, self.lines = f'{logic}:{JUDGING}', {}
        for line in LOCK.read_text(encoding='utf-8').splitlines() if LOCK.is_file() else []:
            title, mark, *sums = line.split()
            self.lines[title] = mark, frozenset(sums)

    def holds(self, edit):
        """Whether all that the edit's judgement read stands there still."""
        mark, sums = self.lines.get(edit.title(), ('', frozenset()))
        return mark == self.mark and sums <= standing(edit.crate.name) | files_of(edit) and files_of(edit) <= sums

    def note(self, edit, sums):
        self.lines[edit.title()] = self.mark, frozenset(sums)

    def write(self):
        lines = [f'{title} {mark} {" ".join(sorted(sums))}\n' for title, (mark, sums) in sorted(self.lines.items())]
        LOCK.write_text(''.join(lines), encoding='utf-8')
