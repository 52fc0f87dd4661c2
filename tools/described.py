"""What the programs say of their own words, as manual pages and as completions of shells.

Of `vet` that is the output of `--help`; of `explain`, which has no options, the comments of the words that it reads.
"""
import re
import sys
import textwrap

sys.dont_write_bytecode = True
from sources import TOP

OPTION = re.compile(r'^ {2,6}(?:(-\w), )?--([\w-]+)(?:( |\[=)<([^>]+)>\]?)?(?: {2,}(\S.*))?$')
VALUES = re.compile(r' *\[possible values: ([^\]]*)\]')
TOKEN = re.compile(r'(?m)^ */// `(\w+)(=S)?`: (.*)$')


class Option:
    """One whose value is optional takes it behind `=` alone."""

    def __init__(self, short, name, between, value, text):
        self.short, self.name, self.optional = short, name, between == '[='
        self.value = '' if self.optional else value
        self.behind = value if self.optional else ''
        named = VALUES.search(text)
        self.values = named[1].split(', ') if named else []
        self.text = VALUES.sub('', text)


def options_of(told):
    """The options of a text as clap writes it; what is wrapped is joined."""
    found = []
    for line in told.partition('Options:\n')[2].splitlines():
        match = OPTION.match(line)
        if match:
            found.append([match[1], match[2], match[3], match[4], match[5] or ''])
        elif found and re.match(r' {8}', line):
            found[-1][4] = f'{found[-1][4]} {line.strip()}'.strip()
        elif found and line.strip():
            break
    return [Option(*it) for it in found]


def tokens():
    """The words of a check of texts, each with whether a text follows and what it says."""
    text = (TOP / 'crates/explain_words/src/word.rt').read_text(encoding='utf-8')
    return [(name, bool(equals), said) for name, equals, said in TOKEN.findall(text)]


def roff(text):
    """A text of which no character means something to roff, a sentence on lines of its own."""
    lines = [line for it in re.split(r'(?<=\.)\s+', text) for line in textwrap.wrap(it, 78, break_on_hyphens=False)]
    lines = [it.replace('\\', '\\e').replace('-', '\\-') for it in lines]
    return '\n'.join('\\&' + it if it[:1] in ('.', "'") else it for it in lines)


def roff_options(options):
    lines = []
    for it in options:
        short = f'Fl {it.short[1:]} , ' if it.short else ''
        behind = f' Ns Op = Ns Ar {it.behind}' if it.optional else ''
        lines += [f'.It {short}Fl -{roff(it.name)}' + f' Ar {it.value}' * bool(it.value) + behind]
        lines += [roff(it.text + '.')]
        lines += [f'One of {" and ".join(it.values)}.'] if it.values else []
    return '\n'.join(lines)


def roff_tokens():
    lines = []
    for name, follows, said in tokens():
        lines += [f'.It Cm {name}' + (' Ns = Ns Ar S' if follows else ''), roff(said)]
    return '\n'.join(lines)


def quoted(text):
    return "'" + text.replace("'", "'\\''") + "'"


def written(options):
    """The words of options: of one with an optional value each value stands behind `=`."""
    return [word for it in options for word in [f'--{it.name}', *(f'--{it.name}={value}' for value in it.values * it.optional)]]


def bash(options):
    flags = ' '.join(written(options))
    cases = [f"    --{it.name}) COMPREPLY=($(compgen -W '{' '.join(it.values)}' -- \"$word\")); return ;;"
             for it in options if it.value]
    return '\n'.join([
        '# Completion of vet for bash.', '_vet() {', '    local word=${COMP_WORDS[COMP_CWORD]}',
        '    case ${COMP_WORDS[COMP_CWORD - 1]} in', *cases, '    esac', '    case $word in',
        f"    -*) COMPREPLY=($(compgen -W '{flags}' -- \"$word\")) ;;", '    *) COMPREPLY=($(compgen -f -- "$word")) ;;',
        '    esac', '}', 'complete -o filenames -F _vet vet', ''])


def bash_explain():
    names = ' '.join(name + '=' * follows for name, follows, _ in tokens())
    return '\n'.join([
        '# Completion of explain for bash.', '_explain() {', '    local word=${COMP_WORDS[COMP_CWORD]}',
        "    if ((COMP_CWORD == 1)); then COMPREPLY=($(compgen -W 'between text' -- \"$word\"))",
        f"    elif [ \"${{COMP_WORDS[1]}}\" = text ]; then COMPREPLY=($(compgen -W '{names}' -- \"$word\")); fi",
        '    case ${COMPREPLY[0]} in *=) compopt -o nospace ;; esac', '}', 'complete -F _explain explain', ''])


def zsh(options):
    lines = ['#compdef vet', '_arguments -S \\']
    for it in options:
        said = re.sub(r'([\[\]:\\])', r'\\\1', it.text)
        value = f':{it.value}:({" ".join(it.values)})' if it.values else f':{it.value}:' if it.value else ''
        after = f'=-[{said}]::{it.behind}:({" ".join(it.values)})' if it.optional else f'[{said}]{value}'
        lines += [f'    {quoted(f"--{it.name}{after}")} \\']
        lines += [f'    {quoted(f"{it.short}[{said}]")} \\'] if it.short else []
    return '\n'.join([*lines, "    '1:RULES:_files' '*:FILES:_files'", ''])


def zsh_explain():
    names = ' '.join(quoted(re.sub(r'([:\\])', r'\\\1', name + '=' * follows) + f':{said}') for name, follows, said in tokens())
    return '\n'.join([
        '#compdef explain', 'local -a tokens', f'tokens=({names})', 'if ((CURRENT == 2)); then', '    compadd between text',
        "elif [[ $words[2] = text ]]; then", "    _describe token tokens", 'fi', ''])


def fish(options):
    lines = ['# Completion of vet for fish.']
    for it in options:
        words = ['complete -c vet', f'-l {it.name}'] + ([f'-s {it.short[1:]}'] if it.short else [])
        words += [f'-{"f" if it.optional else "x"} -a {quoted(" ".join(it.values))}'] if it.values else ['-x'] if it.value else []
        lines.append(' '.join([*words, f'-d {fish_quoted(it.text)}']))
    return '\n'.join([*lines, ''])


def fish_quoted(text):
    return "'" + text.replace('\\', '\\\\').replace("'", "\\'") + "'"


def fish_explain():
    lines = ['# Completion of explain for fish.', 'complete -c explain -f',
             "complete -c explain -n __fish_use_subcommand -a 'between text'"]
    for name, follows, said in tokens():
        word = name + '=' * follows
        lines.append(f"complete -c explain -n '__fish_seen_subcommand_from text' -a {word} -d {fish_quoted(said)}")
    return '\n'.join([*lines, ''])


def completions(options):
    """Each shell's file of each program, by its path below `share`."""
    return {
        'bash-completion/completions/vet': bash(options),
        'bash-completion/completions/explain': bash_explain(),
        'zsh/vendor-completions/_vet': zsh(options),
        'zsh/vendor-completions/_explain': zsh_explain(),
        'fish/vendor_completions.d/vet.fish': fish(options),
        'fish/vendor_completions.d/explain.fish': fish_explain(),
    }
