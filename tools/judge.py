"""What the prover says of a wrong body, and what that shows.

A goal that is not proved shows that the body is wrong, unless the answer that is kept for it does not fit: where the body
names or joins its values otherwise, the prover gives the goal or what it stands on another name, and refuses the answer
for that alone. Such an answer is *lost*, and goals of its clause count for nothing until it is mended (tools/mend.py).
"""
import re
import sys

sys.dont_write_bytecode = True
from prover import is_of

# What the prover says where a proof file names something that is no longer there.
LOST_NAME = re.compile(r'has no field|is not in scope(?! here, so)|has no `|was not admitted|\(nearest: ')
# What it says of a text that can't be compiled, and where.
UNCOMPILED = re.compile(r'\berror\[[\w-]+\]')
COMPILED_AT = re.compile(r'(?:\./)?(src/\S+?):(\d+):\d+: error\[')
# What it says of a proof file.
IN_PROOF = re.compile(r'(?:\./)?proofs/(\S+)/(Answers|Invariants|Proof)\.antt:\d+:\d+: error: (?:`([^`]+)`: )?(.*)', re.DOTALL)


def joined(said):
    """The prover's lines, each with those that go on with it."""
    lines = []
    for line in said:
        if line.startswith('  ') and lines:
            lines[-1] += '\n' + line.strip()
        else:
            lines.append(line)
    return lines


def clause_of(goal):
    """The clause that a goal is of, or '' of one that is of none, as a call's `requires` or a loop's invariant."""
    return goal.rpartition('-clause-')[2] if '-clause-' in goal else ''


def is_lost(said):
    """Whether the prover refuses an answer for a name: by its first line, or by one that goes on with the record's field."""
    first, *more = said.split('\n')
    return bool(LOST_NAME.search(first)) or any(it.startswith('has no field') for it in more)


def is_own_proof(path, name, crate, own):
    """Whether a declaration in the folder `path` of proofs/ is of the function, or of it in the cycle that it stands in."""
    file, owner, of = own
    steps = path.split('/')
    in_cycle = steps[-1].startswith('+') and name.split('::')[-1].startswith(f'{of}-')
    return in_cycle or is_of('::'.join(steps), crate.modules(file, owner), owner, of)


class Lost:
    """An answer that lost a name: where it stands, its own name ('' of an import), the name that it lost, and those that the
    prover offers; or one that waits for another that did."""

    def __init__(self, folder, file, answer, name='', offers=(), waits=False):
        self.folder, self.file, self.answer, self.name, self.offers, self.waits = folder, file, answer, name, offers, waits


def offers_of(name, lines):
    """The names that the prover offers in place of a goal's or of a way into a join."""
    help = next((it for it in lines if it.startswith(f'help: `Goals` has no `{name}`; ')), '')
    asked = re.findall(r'`([^`]+)`', help.partition(f'has no `{name}`; ')[2].partition('; a `use`')[0])
    return [it for it in asked if clause_of(it) == clause_of(name)]


def lost_by(folder, file, answer, said, lines):
    """What one of the prover's lines says is lost."""
    waiting = re.match(r'\d+ declarations? that depends? on .* not checked: (.*)', said)
    if waiting:
        return [Lost(folder, file, it.strip(), waits=True) for it in waiting[1].split('\n')[0].split(',')]
    field = re.search(r'has no field `([^`]+)`', said)
    if field:
        offered = re.search(r'\(nearest: ([^)]*)\)', said)
        return [Lost(folder, file, answer, f'.{field[1]}', re.findall(r'\.[^\s,]+', offered[1]) if offered else [])]
    name = re.search(r'module `\S+` has no `([^`]+)`', said)
    if not name:
        return [Lost(folder, file, answer)]
    more = [] if answer else re.findall(r'`([^`]+)`', said.partition('not found: ')[2].split('\n')[0])
    return [Lost(folder, file, answer, it, offers_of(name[1], lines)) for it in (name[1], *more)]


def lost_of(lines, crate, own):
    """The answers of a function that lost a name, and those that wait for one that did."""
    found = [it for line in lines if (it := IN_PROOF.match(line)) and it[3] != 'refused' and is_lost(it[4])]
    own_found = [it for it in found if is_own_proof(it[1], it[3] or '', crate, own)]
    return [lost for it in own_found for lost in lost_by(it[1], it[2], it[3] or '', it[4], lines)]


def is_counted(goal, lost):
    """Whether a goal that is not proved shows something, by the answers that are lost."""
    return not any(it.file != 'Answers' or not it.answer or clause_of(it.answer) == clause_of(goal) for it in lost)


def goals_of(lines, functions, crate, own):
    """The goals of one function that the prover did not prove, by its own lines; those of lost answers left out."""
    file, owner, name = own
    modules, found = crate.modules(file, owner), []
    spans = [(it.first, it.last) for it in functions.get(file, ()) if (it.owner, it.name) == (owner, name)]
    for line in lines:
        told = re.match(r'fn (\S+): (.*)', line)
        if told and told[1].startswith(f'{crate.name}::') and is_of(told[1][len(crate.name) + 2:], modules, owner, name):
            missed = re.search(r'did not prove (`[^`]+`(?:, `[^`]+`)*)', told[2])
            found += re.findall(r'`([^`]+)`', missed[1]) if missed else []
        note = re.match(r'note: (src/\S+?):(\d+):\d+: .*\(`([^`]+)`\)', line)
        if note and note[1] == file and any(first < int(note[2]) <= last + 1 for first, last in spans):
            found.append(note[3])
        error = IN_PROOF.match(line)
        if error and error[3] and not is_lost(error[4]) and is_own_proof(error[1], error[3], crate, own):
            found.append(error[3])
    return list(dict.fromkeys(found))


def refused_in(lines, functions, crate, edit):
    """For each function of an edit its goals that show that the body is wrong, and all its lost answers."""
    refused, lost = [], []
    for own in sorted(edit.own):
        gone = lost_of(lines, crate, own)
        goals = [it for it in goals_of(lines, functions, crate, own) if is_counted(it, gone)]
        refused += [(own[2], goals)] if goals else []
        lost += gone
    return refused, lost


def is_unread(line):
    """Whether the prover could not read a text of src/ or specs/, where a text that only states what is false reads well."""
    told = re.match(r'(?:\./)?(?:src|specs)/\S+?:\d+:\d+: error: (?:(`[^`]*`): )?(.*)', line)
    if not told:
        return False
    said = re.sub(r'`[^`]*`', '', told[2])
    return not told[1] or bool(re.search(r'is not in scope|has no field|is no name|operand is missing|expected the end|cannot continue', said))


def told_alone(code, lines):
    """Whether an edit that was tried alone is refused, and what to say of it."""
    if code == 0:
        return False, 'is still proved'
    uncompiled = next((it for it in lines if UNCOMPILED.search(it)), None)
    if uncompiled:
        return False, f'can\'t be compiled: {uncompiled[:200]}'
    told = [it for it in lines if re.match(r'(note: )?\S+:\d+:\d+:', it) and (': error' in it or it.startswith('note: '))]
    if code != 1 or not told or not any(re.match(r'logic=not-proved|only=', it) for it in lines):
        return False, f'gives no verdict (status {code}): ' + ' '.join(it for it in lines[-4:] if it)[:200]
    unread = next((it for it in told if is_unread(it)), None)
    if unread:
        return False, f'can\'t be read: {unread[:200]}'
    clauses = [it for it in told if not (re.match(r'(note: )?(\./)?proofs/', it) and is_lost(it))]
    if not clauses:
        return False, f'is refused for a name alone: {told[0][:200]}'
    return True, clauses[0][:160]
