"""The self-test of tools/edits: planted edits and planted lines of wrong.lock, each of which has to be taken for what it is."""
import shutil
import sys
import tempfile
import time
from pathlib import Path

sys.dont_write_bytecode = True
import lock
import trial
from prover import Crate, kit, make_libraries
from sources import TOP
from wrong import Edit, mark_twins

WITHIN = 'src/within.rt'
TAKEN = '        if take_part(input, line, most - line.len())? {'
FRONT = '    if !take_front(input, line, limit)? {'
# What is planted in streams: a name, what is to be said of it, the function that it is by, and its pairs.
PLANTED = [
    ('two_bodies', 'refused', '', [
        ('src/write.rt', '        .write_all(bytes)', '        .write_all(&bytes[..0])'),
        ('src/run_fault.rt', 'write!(f, "no memory")', 'write!(f, "no memor")')]),
    ('flush_writes', 'refused', '', [('src/write.rt', '        .flush()', '        .write_all(b"\\n")')]),
    ('harmless', 'is still proved', '', [
        ('src/run_fault.rt', 'if error.kind() == ErrorKind::OutOfMemory {', 'if !(error.kind() != ErrorKind::OutOfMemory) {')]),
    # Kept answers lose a value's name, the prover says, in a record; the body keeps every clause.
    ('harmless_value', 'is still proved', '', [(WITHIN, FRONT, '    let is_whole = take_front(input, line, limit)?; if !is_whole {')]),
    # A goal has another name, and its kept answer stands under the old one; one body keeps every clause, one does not.
    ('harmless_goal', 'is still proved', '', [(WITHIN, TAKEN, TAKEN.replace('if ', 'let ended = ', 1).replace(' {', '; if ended {'))]),
    ('wrong_goal', 'refused', '', [(WITHIN, TAKEN, TAKEN.replace('if ', 'let ended = ', 1).replace(' {', '; if !ended {'))]),
    # The ways into a join, which all answers import, have other names.
    ('harmless_join', 'is still proved', '', [
        (WITHIN, 'let is_ended = end == 0 || shown[end - 1]', 'let is_empty = end == 0; let is_ended = is_empty || shown[end - 1]')]),
    ('name_alone', 'is refused for a name alone', '', [
        ('proofs/read/next_line/Answers.antt', 'c.clear.ensures.items', 'c.cleared.ensures.items')]),
    # A clause that its own function can't keep, and no other needs.
    ('by_its_function', 'refused', f'{WITHIN} len_through', [
        (WITHIN, 'ensures bound { result ≤ length shown.now }', 'ensures bound { result < length shown.now }')]),
    ('by_another', 'is not refused in', f'{WITHIN} take_part', [
        (WITHIN, 'ensures most { result ≤ most }', 'ensures most { result < most }')]),
    ('flush_writes_again', 'is the same as flush_writes', '', [('src/write.rt', '        .flush()', '        .write_all(b"\\n")')]),
    ('nowhere', 'can\'t be applied', '', [('src/write.rt', '        .flushed()', '        .flush()')]),
    ('no_such_name', 'can\'t be compiled', '', [('src/read.rt', 'match input.read_until(', 'match input.read_unto(')]),
]
# How the planted edits stand in rounds, and which are tried over their module.
ROUNDS, ALONE = [7, 1, 1, 1], ['name_alone']
# The edit that keeps every clause, for which a line is planted.
KEEPER = 'harmless'


def planted(crate, room):
    """The planted edits."""
    edits = []
    for name, _, by, pairs in PLANTED:
        path = Path(room) / f'{name}.edit'
        text = ''.join(f'file: {file}\nold: {old}\nnew: {new}\n' for file, old, new in pairs)
        path.write_text((f'by: {by}\n' if by else '') + text, encoding='utf-8')
        edits.append(Edit(crate.folder, path))
    mark_twins(edits)
    return edits


def test_edits(crate, edits, run):
    """What is judged otherwise than planted."""
    rounds, alone = trial.rounds_of([it for it in edits if not it.fault])
    if [len(it) for it in rounds] != ROUNDS or [it.path.stem for it in alone] != ALONE:
        yield f'the rounds are others: {[len(it) for it in rounds]}'
    run.judge(crate, edits)
    said = {edit.path.stem: text for edit, text in run.wrong}
    for name, wanted, _, _ in PLANTED:
        if not said.get(name, 'refused').startswith(wanted):
            yield f'{name}: {said.get(name, "refused")}'


def test_lock(crate, edits, run, room, edits_tool):
    """What of a line of wrong.lock is taken otherwise than planted."""
    keeper = next(it for it in edits if it.path.stem == KEEPER)
    lock.LOCK = Path(room) / 'wrong.lock'
    kept = lock.Lock('planted')
    kept.note(keeper, run.seen[keeper])
    kept.write()
    if not lock.Lock('planted').holds(keeper) or lock.Lock('other').holds(keeper):
        yield 'a line holds for another kit, or not for its own'
    every = [it for it in edits if not it.fault]
    for commit in 'abcdefgh':
        judged, again = edits_tool.plan(every, lock.Lock('planted'), commit, least=0, percent=50)
        if (keeper in judged) != (keeper in again) or len(judged) < len(every) - 1:
            yield 'a line is taken for more than its edit, or the draw is not judged'
    if keeper not in edits_tool.plan(every, lock.Lock('planted'), 'a', is_all=True)[0]:
        yield '--all does not judge what has a line'
    drawn = edits_tool.plan(every, lock.Lock('planted'), 'a')[1]
    again = edits_tool.Run(drawn, time.time() + edits_tool.SECONDS)
    again.judge(crate, drawn)
    if [it.path.stem for it, _ in again.wrong] != [KEEPER]:
        yield 'a drawn body that is proved is not found'


def test_texts(crate, edits, run, room):
    """Changes of texts for which a line is to hold, and for which it is not."""
    edit = next(it for it in edits if it.path.stem == 'wrong_goal')
    seen = run.seen[edit]
    lock.TOP = Path(room) / 'top'
    changes = [
        (WITHIN, '        Some(at) => at + 1,', '        Some(at) => 1 + at,', True),
        ('specs/Steps.antt', 'pub ', 'pub  changed ', False),
        (WITHIN, 'ensures part { TakesPart', 'ensures part { TakesAll', False),
        (WITHIN, 'ensures too_long { result', 'ensures longer { result', True),
        (WITHIN, 'let most = limit as usize + 1;', 'let most = 1 + limit as usize;', False),
    ]
    for file, old, new, holds in changes:
        shutil.rmtree(lock.TOP, ignore_errors=True)
        at = lock.TOP / 'crates' / crate.name
        for part in ('src', 'specs', 'proofs'):
            shutil.copytree(crate.folder / part, at / part)
        text = (at / file).read_text(encoding='utf-8')
        (at / file).write_text(text.replace(old, new, 1), encoding='utf-8')
        lock.texts_of.cache_clear()
        lock.standing.cache_clear()
        if old not in text or (seen <= lock.standing(crate.name) | lock.files_of(edit)) != holds:
            yield f'a line {"does not hold" if holds else "holds"} where `{old.strip()}` changes'


def self_test(edits_tool):
    """Tries the planted edits, and plants lines; each has to come to what is said of it."""
    crate = Crate(TOP / 'crates/streams', kit())
    make_libraries([crate])
    with tempfile.TemporaryDirectory() as room:
        edits, run = planted(crate, room), edits_tool.Run()
        wrong = [*test_edits(crate, edits, run), *test_lock(crate, edits, run, room, edits_tool), *test_texts(crate, edits, run, room)]
    for it in wrong:
        print(f'tools/edits judges what is planted otherwise: {it}')
    if not wrong:
        print('tools/edits --self-test: each planted edit, and each planted line of wrong.lock, was judged as it is')
    return 1 if wrong else 0
