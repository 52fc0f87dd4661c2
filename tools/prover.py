"""How the prover is asked about a crate with wrong bodies in it: what is checked, and what is taken as it stands.

Of all functions but those that are looked at the contract alone is of use: a body that never ends stands in place of each
one's, and a proof that is refused at once. It calls the toolchain's `rattle check` itself, over the libraries that `rt ci`
left in out/; elsewhere it has `rt lib` make one that is missing.
"""
import json
import re
import shutil
import subprocess
import sys
import tempfile
from pathlib import Path

sys.dont_write_bytecode = True
from sources import TOP, below, dependencies, functions_of

PARTS = ('src', 'specs', 'proofs')


def kit():
    return Path(subprocess.run(['rt', 'doc'], stdout=subprocess.PIPE, text=True, check=True).stdout.strip()).parent


def module_of(file):
    """The module of a source file, as a path below the crate."""
    steps = Path(file).relative_to('src').with_suffix('').parts
    return '::'.join(it for it in steps if it not in ('lib', 'main', 'mod'))


class Crate:
    """A crate whose edits are tried, and how the toolchain checks it."""

    def __init__(self, folder, toolchain):
        self.folder, self.name, self.kit = folder, folder.name, toolchain
        self.lines = dependencies()
        self.below = below(self.name, self.lines)
        # Folders of proofs that the toolchain was seen not to read.
        self.unread = set()

    def words(self):
        root = 'src/main.rt' if (self.folder / 'src/main.rt').is_file() else 'src/lib.rt'
        found = ['--crate-name', self.name, root]
        for name in ['std', *[it for it in self.lines[self.name] if it not in self.lines]]:
            found += ['--extern', f'{name}={self.kit}/rlibs/{name}.rlib']
        found += ['-L', f'dependency={self.kit}/rlibs']
        for name in self.lines[self.name]:
            if name in self.lines:
                found += ['--extern', f'{name}={library(name)}']
        for name in self.below:
            found += ['-L', f'dependency={library(name).parent}']
        found += ['--antt-project', f'{self.kit}/rattle/logic/antt-project.json', '--logic-built', f'{self.kit}/logic_built']
        return found + ['--links', f'{self.name}=', '--jobs', '1']

    def modules(self, file, owner):
        """The modules by which the prover may name a function: its file's, and its type's where it is a method that an impl of
        no trait gives a type of another file."""
        if not owner or ' as ' in owner:
            return [module_of(file)]
        stated = re.compile(rf'^ *(?:pub(?:\([a-z]+\))? )?(?:struct|enum|trait) {re.escape(owner)}\b', re.MULTILINE)
        homes = [it.relative_to(self.folder) for it in sorted((self.folder / 'src').rglob('*.rt'))
                 if stated.search(it.read_text(encoding='utf-8'))]
        return list(dict.fromkeys([module_of(file), *[module_of(it) for it in homes[:1]]]))

    def functions(self):
        """The crate's functions by the names that the prover gives them, as they stand in what `rt ci` made of the crate."""
        try:
            made = json.loads((library(self.name) / 'toolchain/mir.json').read_text(encoding='utf-8'))
        except (OSError, ValueError):
            return []
        return [name for name, *_ in made if name.startswith(f'{self.name}::')]

    def cycles(self):
        """The names of the functions that call themselves or one another, by the name of the cycle."""
        found = {}
        for file in sorted((self.folder / 'src').rglob('*.rt')):
            lines = file.read_text(encoding='utf-8').split('\n')
            for function in functions_of(lines):
                named = re.search(r'#\[cycle\((\w+)\)\]', '\n'.join(lines[function.first:function.last]))
                if named:
                    found.setdefault(named[1], set()).add(function.name)
        # (one that calls itself alone is a cycle of its name)
        for folder in (self.folder / 'proofs').rglob('+*'):
            found.setdefault(folder.name[1:], {folder.name[1:]})
        return found

    def names_in(self, modules):
        """The names of the functions that stand in the files of these modules."""
        files = [it for it in (self.folder / 'src').rglob('*.rt') if is_in(module_of(it.relative_to(self.folder)), modules)]
        return {it.name for file in files for it in functions_of(file.read_text(encoding='utf-8').split('\n'))}

    def proofs(self, edits, modules=()):
        """The folders of the proofs of the functions that these edits change, and of those of these modules, and of all
        others; closures are in neither."""
        places = [(self.modules(file, owner), owner, name) for edit in edits for file, owner, name in edit.own]
        names, own, others = {name for _, _, name in places} | self.names_in(modules), set(), set()
        cycles = self.cycles()
        recursive = set().union(*cycles.values())
        for folder in (self.folder / 'proofs').rglob('+*'):
            (own if cycles[folder.name[1:]] & names else others).add(folder.relative_to(self.folder / 'proofs'))
        for function in self.functions():
            path = function[len(self.name) + 2:]
            steps = path.split('::')
            if '+' not in path and 'fn' not in steps and steps[-1] not in recursive:
                (own if is_in(path, modules) or any(is_of(path, *it) for it in places) else others).add(Path(*steps))
        return own - self.unread, others - self.unread

    def take_bodies(self, room, edits, modules):
        """Takes the bodies from all functions of a copy but those that these edits change, those of these modules and of their
        types, and those that call themselves or one another, which have one proof."""
        own, recursive = set().union(*(edit.own for edit in edits)), set().union(*self.cycles().values())
        for path in (room / 'src').rglob('*.rt'):
            file, lines = str(path.relative_to(room)), path.read_text(encoding='utf-8').split('\n')
            kept = recursive | {name for of, _, name in own if of == file}
            if modules:
                homes = {it.name: self.modules(file, it.owner) for it in functions_of(lines)}
                kept |= {name for name, of in homes.items() if any(is_in(it, modules) for it in of)}
            path.write_text('\n'.join(without_bodies(lines, kept)), encoding='utf-8')

    def check(self, edits, kept, only=(), own=(), others=(), modules=(), answers=None):
        """What the prover says of a copy of the crate with these edits: its status, its lines, and the copy's functions. The
        proofs in the folders `others` it refuses at once, and their functions have no body; for those in `own` it offers no
        answers. In the folders of `answers` these texts are the answers."""
        with tempfile.TemporaryDirectory(prefix='wrong-body-') as room:
            room = Path(room)
            for part in PARTS:
                if (self.folder / part).is_dir():
                    shutil.copytree(self.folder / part, room / part)
            for edit in edits:
                edit.apply(room)
            for folder, text in (answers or {}).items():
                (room / 'proofs' / folder / 'Answers.antt').write_text(text, encoding='utf-8')
            for folder in others:
                for name in ('Answers.antt', 'Invariants.antt'):
                    (room / 'proofs' / folder / name).unlink(missing_ok=True)
                add_refused(room / 'proofs' / folder / 'Proof.antt', f'{folder.name}_spec')
            for folder in own:
                add_refused(room / 'proofs' / folder / 'Answers.antt', 'refused')
            files = {file for edit in edits for file in (*edit.files(), *(of for of, _, _ in edit.own)) if file.endswith('.rt')}
            functions = {it: functions_of((room / it).read_text(encoding='utf-8').split('\n')) for it in files}
            if others and self.functions():
                self.take_bodies(room, edits, modules)
            words = [f'{self.kit}/bin/rattle', 'check', *self.words(), '--incremental', kept]
            for module in sorted(only):
                words += ['--only', module]
            ran = subprocess.run(words, cwd=room, stdin=subprocess.DEVNULL, stdout=subprocess.PIPE, stderr=subprocess.STDOUT,
                                 text=True, errors='replace')
            return ran.returncode, ran.stdout.split('\n'), functions


def add_refused(file, name):
    """Adds to a file of a proof a declaration that the prover refuses at once. Where a file has such a fault, it does not run
    once more to print the answers that the file lacks."""
    file.parent.mkdir(parents=True, exist_ok=True)
    with file.open('a', encoding='utf-8') as text:
        text.write(f'\npub {name} : unproved\n{name} = unproved\n')


def without_bodies(lines, kept):
    """The lines of a file, each at its place, in which a function has a body that never ends, of which the toolchain makes
    little; but for those whose names are kept, those that stand in one or around one, and constant ones."""
    found, functions = list(lines), functions_of(lines)
    stay = [it for it in functions if it.name in kept or re.search(r'\bconst fn\b', lines[it.head])]
    for it in functions:
        body = body_of(it, lines)
        if body and not any(it.first <= other.last and other.first <= it.last for other in stay):
            first, behind = body
            found[first:behind] = ['loop {}', *[''] * (behind - first - 1)]
    return found


def body_of(function, lines):
    """The first line of a function's body and the one behind its last, as `rt fmt` sets them; None where it has no line."""
    head = lines[function.head]
    indent = head[:len(head) - len(head.lstrip())]
    own = range(function.head, function.last)
    # The brace stands alone below clauses and bounds, and else ends the line of the name or of the result.
    opening = next((at for at in own if lines[at] == indent + '{'), None)
    if opening is None:
        ends = (at for at in own if lines[at].endswith('{') and (at == function.head or lines[at].startswith(indent + ')')))
        opening = next(ends, None)
    # (an edit may set whole functions in one line, and what stood there behind them)
    if '}' in head or opening is None or lines[function.last] != indent + '}' or opening + 1 == function.last:
        return None
    return opening + 1, function.last


def library(name):
    return TOP / 'crates' / name / 'out' / 'rlib' / f'{name}.rlib'


def make_libraries(crates):
    """Has `rt lib` make these crates and the libraries below that are missing, or that a check of this checkout made of an
    older text. A program is no library, and nothing stands on it."""
    names = dict.fromkeys(it for crate in crates for it in [*crate.below, crate.name])
    for name in (it for it in names if (TOP / 'crates' / it / 'src/lib.rt').is_file()):
        if not library(name).is_dir() or (library(name).parent / 'stamp').is_file():
            ran = subprocess.run(['rt', 'lib'], cwd=TOP / 'crates' / name, stdin=subprocess.DEVNULL, stdout=subprocess.PIPE,
                                 stderr=subprocess.STDOUT, text=True, errors='replace')
            if ran.returncode:
                sys.exit(f'tools/edits: the library {name} is not proved:\n{ran.stdout[-2000:]}')


def is_in(path, modules):
    """Whether a path is one of these modules, or stands below one."""
    return any(path == it or path.startswith(f'{it}::') for it in modules)


def is_of(function, modules, owner, name):
    """Whether the prover's name of a function, below the crate, is that of this source, in one of the modules. A method of an
    impl of a trait is `TYPETRAIT::name`, where the arguments of either may follow it, and `AnyTRAIT::name` where the type is
    any; one of an impl for some arguments alone is `TYPE+ARGUMENT::name`. A closure stands below its function."""
    of, _, trait = owner.partition(' as ')
    if re.fullmatch(r'[A-Z]\d?', of):
        of = 'Any'
    head = rf'{re.escape(of[:1].upper() + of[1:])}[\w+]*{re.escape(trait)}' if trait else rf'{re.escape(of)}(\+|$)'
    for module in modules:
        front = module.split('::') if module else []
        steps = function.split('::')
        if steps[:len(front)] != front:
            continue
        steps = steps[len(front):]
        if steps[:1] == ['fn']:
            steps = steps[1:]
        if not owner and steps[:1] == [name]:
            return True
        if owner and steps[1:2] == [name] and re.match(head, steps[0]):
            return True
    return False
