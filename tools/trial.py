"""Tries wrong bodies: many in one check, a round, and one by itself where a round says nothing of it.

In a round an edit counts as refused where the prover names a goal of one of the edit's own functions that it did not
prove, of whose clause no answer is lost (tools/judge.py). What is not named is tried by itself, over the proofs of what it
calls, with its answers mended. An edit that has no function of its own is tried over its whole module, and then the crate.
"""
import re
import sys
from pathlib import Path

sys.dont_write_bytecode = True
from judge import COMPILED_AT, UNCOMPILED, clause_of, joined, refused_in, told_alone
from mend import Answers
from prover import is_of, module_of
from sources import functions_of
from wrong import Unread

# What the prover says of a proof file that is no function's.
UNREAD_PROOF = re.compile(r'(?:\./)?proofs/(\S+)/(?:Answers|Proof)\.antt: error(?:\[reserved-name\])?: '
                          r'rattle (?:does not read this file|generates the module)')
# How often an edit is tried with its answers mended anew.
MENDS = 8


def rounds_of(edits):
    """The edits in rounds, in which no two change the same function or line, and those that are tried by themselves."""
    rounds, single, alone = [], [], []
    for edit in edits:
        if not edit.own:
            alone.append(edit)
            continue
        if edit.is_by_itself:
            single.append([edit])
            continue
        free = next((it for it in rounds if not any(edit.own & other.own or edit.lines & other.lines for other in it)), None)
        if free is None:
            rounds.append([edit])
        else:
            free.append(edit)
    return rounds + single, alone


def together(crate, edits):
    """Those of the edits that can be applied one upon the other, and the others."""
    texts, fit, others = {}, [], []
    for edit in edits:
        try:
            changed = dict(texts)
            for file, old, new in edit.pairs:
                text = changed.get(file) or (crate.folder / file).read_text(encoding='utf-8')
                if text.count(old) != 1:
                    raise Unread(file)
                changed[file] = text.replace(old, new)
        except (OSError, Unread):
            others.append(edit)
        else:
            texts = changed
            fit.append(edit)
    return fit, others


def names_of(crate, edits):
    """What a check of these edits looks at: the functions of each, and with them those that they call; a function's whole
    module where its name is not known, and the whole crate (no name) where that is the root."""
    known, found = crate.functions(), set()
    for file, owner, name in set().union(*(it.own for it in edits)):
        if owner == '':
            found.add('::'.join(it for it in (crate.name, module_of(file), name) if it))
            continue
        modules = crate.modules(file, owner)
        own = [it for it in known if is_of(it[len(crate.name) + 2:], modules, owner, name)]
        # (the closures of a function come with it)
        named = [it for it in own if it.endswith(f'::{name}')] or modules[:1]
        if named == ['']:
            return ()
        found.update(named)
    return found


def check_apart(crate, edits, kept, only, modules=(), answers=None):
    """A check with these edits, in which all functions but theirs, and those of these modules, are taken by their contracts."""
    unread = True
    while unread:
        code, lines, functions = crate.check(edits, kept, only, *crate.proofs(edits, modules), modules, answers)
        unread = {Path(it[1]) for line in lines if (it := UNREAD_PROOF.match(line))} - crate.unread
        crate.unread |= unread
    return code, joined(lines), functions


def uncompiled_of(edits, lines, functions):
    """The edits in whose functions a text stands that can't be compiled."""
    places = [(it[1], int(it[2]) - 1) for line in lines if (it := COMPILED_AT.match(line))]
    def has(edit):
        spans = [(file, it.first, it.last) for file, owner, name in edit.own for it in functions.get(file, ())
                 if it.name == name and it.owner == owner]
        return any(file == of and first <= line <= last for of, line in places for file, first, last in spans)
    return [it for it in edits if has(it)]


def try_round(crate, edits, kept, say):
    """For each edit the goals of its own functions that a check with all of them does not prove, and that show that it is
    wrong, and its lost answers."""
    edits, _ = together(crate, edits)
    while edits:
        code, lines, functions = check_apart(crate, edits, kept, names_of(crate, edits))
        if code == 1 and not any(UNCOMPILED.search(it) for it in lines):
            return {it: refused_in(lines, functions, crate, it) for it in edits}
        spoilers = uncompiled_of(edits, lines, functions)
        if not spoilers or code == 0:
            break
        edits = [it for it in edits if it not in spoilers]
    uncompiled = next((it for it in lines if UNCOMPILED.search(it)), '') if edits else ''
    if edits and (uncompiled or code):
        say(f'{crate.name}: a round of {len(edits)} says nothing, and each is tried by itself (status {code}): '
            f'{uncompiled[:200]}')
    return {}


def answers_of(crate, edit):
    """The answers that an edit's own functions have with it, by their folders."""
    changed, found = edit.texts(crate.folder), {}
    for folder in crate.proofs([edit])[0]:
        file = f'proofs/{folder}/Answers.antt'
        if file in changed or (crate.folder / file).is_file():
            found[str(folder)] = Answers(changed.get(file) or (crate.folder / file).read_text(encoding='utf-8'))
    return found


def mend(answers, lost, refused):
    """Mends the lost answers, and goes on to other names for those of these goals; whether any answer has changed."""
    before = [it.text() for it in answers.values()]
    for it in lost:
        if it.file == 'Answers' and it.folder in answers and not it.waits:
            answers[it.folder].lose(it.answer, it.name, it.offers)
    for it in [it for of in answers.values() for _, goals in refused for goal in goals if (it := of.retried(goal))]:
        it.retry()
    return before != [it.text() for it in answers.values()]


def counted(refused, answers):
    """Of these goals those that show that the body is wrong: the answer of the goal is refused and no other name is left to
    try in it, or the goal has none and no answer of its clause was left out, which might be its own."""
    unread = {clause_of(it) for of in answers.values() for it in of.unread()}
    def shows(goal):
        answer = next((it for of in answers.values() if (it := of.of(goal))), None)
        return not answer.next_name() if answer else clause_of(goal) not in unread
    shown = [(name, [it for it in goals if shows(it)]) for name, goals in refused]
    return [(name, goals) for name, goals in shown if goals]


def try_mended(crate, edit, kept, lost=()):
    """Whether an edit is refused in its own functions, with the answers mended that a round told lost: by the contracts of what
    they call as long as answers are mended, and then over the proofs of these, so that all is proved or something is not."""
    answers, names = answers_of(crate, edit), names_of(crate, [edit])
    is_apart = is_mended = mend(answers, lost, ())
    for _ in range(MENDS):
        texts = {folder: it.text() for folder, it in answers.items()}
        if is_apart:
            code, lines, functions = check_apart(crate, [edit], kept, names, answers=texts)
        else:
            code, lines, functions = crate.check([edit], kept, names, answers=texts)
        lines = joined(lines)
        if code != 1 or any(UNCOMPILED.search(it) for it in lines):
            holds, said = told_alone(code, lines)
            return holds, said + (', with its answers by the names that stand there now' if is_mended and code == 0 else '')
        refused, lost = refused_in(lines, functions, crate, edit)
        shown = counted(refused, answers)
        if shown:
            return True, said_of(shown)
        if not mend(answers, lost, refused):
            if not is_apart:
                break
            is_apart = False
        else:
            is_mended = True
    unread = [it for of in answers.values() for it in of.unread()] + [it.answer or it.file for it in lost]
    if unread:
        return False, f'shows nothing, since answers lost their names: {" ".join(dict.fromkeys(unread))}'
    return told_elsewhere(code, lines, edit)


def told_elsewhere(code, lines, edit):
    """What is said of an edit of whose own functions no goal is named."""
    holds, said = told_alone(code, lines)
    return False, f'is not refused in {", ".join(sorted(name for _, _, name in edit.own))}: {said}' if holds else said


def said_of(refused):
    return '; '.join(f'{name}: {", ".join(goals[:4])}' for name, goals in refused)


def try_over_module(crate, edit, kept):
    """Whether a check with an edit that has no function of its own is refused: first of the modules that it changes, where
    the makers of its types stand, and of `semantics`, which says what the types mean that no maker can; then of all."""
    modules = {module_of(it) for it in edit.files() if it.startswith('src/')}
    if modules and '' not in modules:
        if (crate.folder / 'src/semantics.rt').is_file():
            modules.add('semantics')
        code, lines, _ = check_apart(crate, [edit], kept, modules, modules)
        holds, said = told_alone(code, lines)
        if holds:
            return holds, said
    code, lines, _ = crate.check([edit], kept)
    return told_alone(code, joined(lines))


def try_alone(crate, edit, kept, lost):
    """Whether a check with this edit alone is refused, and what to say of it."""
    try:
        return try_mended(crate, edit, kept, lost) if edit.own else try_over_module(crate, edit, kept)
    except Unread as why:
        return False, f'can\'t be applied: {why}'


def work_of(crate, edits):
    """By what crates are put in order: how many checks its edits take, by the lines of its functions."""
    rounds, alone = rounds_of(edits)
    texts = [it.read_text(encoding='utf-8').split('\n') for it in (crate.folder / 'src').rglob('*.rt')]
    return (len(rounds) + len(alone)) * sum(it.last - it.first for text in texts for it in functions_of(text))
