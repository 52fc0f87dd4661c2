"""Which state of the repository this is: the version by CHANGELOG, the commit and its time, and the kit."""
import os
import re
import subprocess
import sys
import time

sys.dont_write_bytecode = True
from sources import TOP


def git(*words):
    how = {'stdout': subprocess.PIPE, 'stderr': subprocess.DEVNULL, 'text': True, 'cwd': TOP}
    return subprocess.run(['git', *words], **how).stdout.strip()


def headings():
    return re.findall(r'(?m)^## (.*)$', (TOP / 'CHANGELOG.md').read_text(encoding='utf-8'))


def released():
    """The last version that CHANGELOG has."""
    return next((it[0] for it in map(re.compile(r'\d[\w.]*').match, headings()) if it), '0')


def is_released():
    """Whether CHANGELOG begins with a version."""
    return headings()[0].startswith(released())


def commit():
    """The commit, with a mark where a file differs from it."""
    return git('rev-parse', '--short=10', 'HEAD') + '+' * bool(git('status', '--porcelain', '--untracked-files=no'))


def moment():
    """The time of the commit in seconds, or the one that SOURCE_DATE_EPOCH fixes."""
    return int(os.environ.get('SOURCE_DATE_EPOCH') or git('log', '-1', '--format=%ct'))


def day(form='%Y-%m-%d'):
    return time.strftime(form, time.gmtime(moment()))


def title():
    """As `0.1.0 (commit 79d957af2b, 2026-11-30)`; before that `later than` where CHANGELOG begins with what is unreleased."""
    return f'{"" if is_released() else "later than "}{released()} (commit {commit()}, {day()})'


def number():
    """The version as packages compare it."""
    return released() if is_released() else f'{released()}+{day("%Y%m%d")}.{commit().replace("+", ".changed")}'


def toolchain():
    """The line of `rt version`."""
    return subprocess.run(['rt', 'version'], stdout=subprocess.PIPE, text=True, check=True).stdout.strip()
