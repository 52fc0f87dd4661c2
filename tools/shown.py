"""The examples of the comments and of the pages, and what stands around them (tools/frames.txt).

An example is a block of code in a comment, or a `rust` block of a page that is neither a file nor made of items.
"""
import re
import sys
from pathlib import Path

sys.dont_write_bytecode = True
import sources

FENCE = re.compile(r'^( *//[/!]) ```(\w*)$')
# What only a proof can use: the contract of a call that does nothing.
FOR_PROOFS = '// From here on a proof knows'
ITEM = re.compile(r'^(?:pub )?(?:fn|struct|enum|impl|trait|type|#!?\[)\b', re.MULTILINE)
USE = re.compile(r'^use [^;]*;$', re.MULTILINE)
STRING = re.compile(r'b?"(?:[^"\\]|\\.)*"', re.DOTALL)


def bare(code):
    """Code without its comments, and of its texts what they name in braces."""
    code = STRING.sub(lambda text: ' '.join(re.findall(r'\{([a-z]\w*)', text[0])), code)
    return re.sub(r'//.*', '', code)


class Example:
    """The code of a block, and the line that it begins on."""

    def __init__(self, file, line, code):
        self.file, self.line, self.code = file, line, code
        self.text = '\n'.join(code)
        self.bare = bare(self.text)
        self.crate = file.split('/')[1] if file.startswith('crates/') else 'docs'
        self.why_not = 'for proofs' if self.text.startswith(FOR_PROOFS) else None
        self.given = []

    def name(self):
        return re.sub(r'\W', '_', re.sub(r'^crates/|/src(?=/)|\.\w+$', '', self.file)).lower() + f'_{self.line}'

    def makes(self, name):
        return re.search(rf'\blet\b[^=;]*?\b{name}\b|\bfor\b(?:(?!\bin\b)[^;])*?\b{name}\b|\bfn {name}\b', self.bare)

    def placed(self):
        """What it begins with, and its lines, each with its file and line."""
        lines = [(code, self.line) for code in self.given] + [*zip(self.code, range(self.line, self.line + len(self.code)))]
        return [(code, f'{self.file}:{number}') for code, number in lines]

    def takes(self, name):
        return re.search(rf'(?<![.\w]){name}\b(?!\s*(?:::|!|:[^:]))', self.bare) and not self.makes(name)


def of_comments():
    """The examples of the comments of the libraries."""
    for path in sorted(sources.TOP.glob('crates/*/src/**/*.rt')):
        file = str(path.relative_to(sources.TOP))
        begun = None
        for number, line in enumerate(path.read_text(encoding='utf-8').splitlines(), 1):
            fence = FENCE.match(line)
            if fence and begun is None:
                begun, kind, code = number + 1, fence[2], []
            elif fence:
                if not kind:
                    yield Example(file, begun, code)
                begun = None
            elif begun is not None:
                code.append(re.sub(r'^ *//[/!] ?', '', line))


def of_pages():
    """The blocks of pages that are made of statements alone."""
    top = sources.TOP
    for path in sorted([*top.glob('*.md'), *top.glob('docs/*.md'), *top.glob('crates/*/README.md')]):
        lines, begun = path.read_text(encoding='utf-8').splitlines(), None
        for number, line in enumerate(lines, 1):
            if begun is None and re.match(r'^ *```rust$', line):
                begun = number
            elif begun is not None and re.match(r'^ *```$', line):
                code = lines[begun:number - 1]
                indent = min((len(it) - len(it.lstrip()) for it in code if it.strip()), default=0)
                code = [it[indent:] for it in code]
                text = USE.sub('', '\n'.join(code)).strip()
                if text and not ITEM.search(text) and not re.search(r'\bself\b|^ghost ', text, re.MULTILINE):
                    yield Example(str(path.relative_to(top)), begun + 1, code)
                begun = None


class Frame:
    """What stands around the examples of a section: code above them, and values, each with its names."""

    def __init__(self):
        self.code, self.given = [], []


def module_of(key):
    return 'of_' + re.sub(r'\W', '_', key.removesuffix('.rt'))


def frames(text):
    """The frames by the name of a crate or of a file, and the examples that are not run."""
    found, not_run, at = {}, [], None
    for line in text.splitlines():
        section = re.match(r'^\[(.*)\]$', line)
        if section and section[1] == 'not run':
            at = not_run
        elif section:
            at = Frame()
            found.update(dict.fromkeys(section[1].split(), at))
        elif at is not_run and line:
            place, _, why = line.partition(': ')
            file, _, word = place.partition(' ')
            at.append((file if (sources.TOP / file).exists() else f'crates/{file}', word, why))
        elif at is not None and at is not not_run and line.startswith('given '):
            pattern = line[6:].partition('=')[0].partition(':')[0]
            at.given.append((re.findall(r'\b(?!let\b|mut\b)[a-z]\w*', pattern), line[6:]))
        elif at is not None and at is not not_run:
            at.code.append(line)
    return found, not_run


def framed(examples, found, not_run):
    """Gives each example what it begins with; the examples by frame. What is not run says why."""
    by_frame, used = {}, set()
    for it in examples:
        for place in not_run:
            if place[0] == it.file and re.search(rf'\b{place[1]}\b' if place[1] else '', it.text):
                it.why_not = place[2]
                used.add(place)
        if it.why_not:
            continue
        key = re.sub('^crates/', '', it.file)
        key = key if key in found else it.crate
        frame = found.get(key)
        if frame is None:
            it.why_not = f'tools/frames.txt has no section {it.crate}'
            continue
        needed, given = it.text, []
        for names, code in reversed(frame.given):
            probe = Example(it.file, it.line, [needed])
            if any(probe.takes(name) for name in names):
                given.insert(0, code)
                needed += '\n' + code.partition('=')[2]
        it.given = given
        by_frame.setdefault(key, []).append(it)
    for file, word, _ in not_run:
        if not any(place[:2] == (file, word) for place in used):
            raise SystemExit(f'tools/frames.txt names no example {file} {word}'.rstrip())
    return by_frame


class Module:
    """The examples of a frame as functions of a file, and for the lines of it those of the examples."""

    def __init__(self, key, frame):
        self.name, self.places = module_of(key), {}
        self.lines = ['//! Examples.', *frame.code, 'use std::test::Fail;', '']

    def add(self, head, placed, is_test):
        """A function of these lines. What they use, stands above all examples."""
        self.lines += [*['#[test]'] * is_test, f'{head} {{', '    let alloc = rt.alloc();']
        in_use = False
        for code, place in placed:
            in_use = in_use or code.startswith('use ')
            self.lines.append('' if in_use else f'    {code}')
            self.places[(f'{self.name}.rt', len(self.lines))] = place
            in_use = in_use and not code.endswith(';')
        self.lines += ['    Ok(())', '}', '']


def write_crate(modules, folder, beside=()):
    """Writes a crate of modules and of files beside them; returns its root, and for the lines of it those of examples."""
    src, places = Path(folder) / 'src', {}
    src.mkdir(parents=True)
    for it in modules:
        places.update(it.places)
        (src / f'{it.name}.rt').write_text('\n'.join(it.lines), encoding='utf-8')
    for name, file in beside:
        (src / f'{name}.rt').write_bytes(file.read_bytes())
    names = ''.join(f'#[cfg(test)]\nmod {it};\n' for it in [*(it.name for it in modules), *(name for name, _ in beside)])
    (src / 'lib.rt').write_text(f'//! All examples.\n#![tactic(auto)]\n\n{names}', encoding='utf-8')
    return src / 'lib.rt', places


def libraries_of(by_frame, found):
    """The libraries that the code above the examples names."""
    code = '\n'.join('\n'.join(found[key].code) for key in by_frame)
    return [it for it in dict.fromkeys(re.findall(r'(?m)^use (\w+)::', code)) if it not in ('core', 'std')]


def told_of(said, places):
    """What was said of lines of examples, with their files and lines, and which errors."""
    for line in said.splitlines():
        place = re.search(r'(\w+\.rt):(\d+)', line)
        if place and (place[1], int(place[2])) in places:
            yield f'{places[(place[1], int(place[2]))]}: {line[place.end():].lstrip(":0123456789 ") or line}'
        elif re.search(r'error\[|^ *error: ', line):
            yield line
