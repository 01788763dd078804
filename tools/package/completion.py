"""Completion of words in shells: the table of commands, forms, options and values, and the text for each shell."""
from helps import REFERENCE, TOOLS, commands, help_of, option_of

# What the launcher takes beside the commands of the program, and the command that the plain program does not answer.
LAUNCHER, LEFT_OUT = ("try", "help", "version", "where"), "live"
# Names of values that are files.
FILES = {"FILE", "LOG", "PLAN", "STREAMS", "STEPS"}

# bash and zsh ask one function for the words after a key: the name of a command, with its form, with an option.
BASH = """\
# Completes words in bash: commands, forms, options, their values, and files. An installation puts it in place. Or call:
#
#     . PATH/tools/completion.bash
#
# tools/print-completion has written it from the helps of the tools and the commands of the launcher.
# shellcheck shell=bash

# The words that stand after a key.
_fttcan_words() {{
    case $1 in
{table}
    esac
}}

# Whether a command is the launcher, which is a script, and not the built program.
_fttcan_is_launcher() {{ [ "$(head -c 2 -- "$(type -P -- "$1")" 2>/dev/null)" = '#!' ]; }}

_fttcan() {{
    local typed=${{COMP_WORDS[COMP_CWORD]}} before=${{COMP_WORDS[COMP_CWORD - 1]}} key=${{1##*/}} at=1 first words=
    COMPREPLY=()
    [ "$key" = reference ] && key={reference}
    first=$(_fttcan_words "$key FORM")
    if [ "$key" = fttcan ] && _fttcan_is_launcher "$1"; then
        [ "${{COMP_WORDS[1]}}" = try ] && [ "$COMP_CWORD" -gt 1 ] && at=2
        [ "$at" -eq 1 ] && first="$first {launcher}"
    fi
    if [ -n "$first" ] && [ "$COMP_CWORD" -eq "$at" ]; then
        words=$first
    else
        [ -n "$first" ] && key="$key ${{COMP_WORDS[at]}}"
        [[ $typed == -* ]] && words=$(_fttcan_words "$key") || words=$(_fttcan_words "$key $before")
    fi
    if [ -n "$words" ]; then
        mapfile -t COMPREPLY < <(compgen -W "$words" -- "$typed")
    elif [[ $typed != -* ]]; then
        mapfile -t COMPREPLY < <(compgen -f -- "$typed")
    fi
}}

complete -o filenames -F _fttcan fttcan ./fttcan {names} {paths}
"""
ZSH = """\
#compdef fttcan {names}
# Completes words in zsh: commands, forms, options, their values, and files. Its folder has to be in fpath, under the
# name _fttcan, where an installation puts it.
# tools/print-completion has written it from the helps of the tools and the commands of the launcher.

# The words that stand after a key.
_fttcan_words() {{
    case $1 in
{table}
    esac
}}

_fttcan() {{
    local key=${{words[1]:t}} at=2 first found
    first=$(_fttcan_words "$key FORM")
    if [[ $key == fttcan ]]; then
        # The launcher is a script, and the built program is none.
        if [[ $(head -c 2 -- ${{~words[1]:c}} 2>/dev/null) == '#!' ]]; then
            [[ $words[2] == try ]] && (( CURRENT > 2 )) && at=3
            (( at == 2 )) && first="$first {launcher}"
        fi
    fi
    if [[ -n $first ]] && (( CURRENT == at )); then
        found=$first
    else
        [[ -n $first ]] && key="$key $words[at]"
        if [[ $PREFIX == -* ]]; then
            found=$(_fttcan_words $key)
        else
            found=$(_fttcan_words "$key $words[CURRENT-1]")
        fi
    fi
    if [[ -n $found ]]; then
        compadd -- ${{=found}}
    elif [[ $PREFIX != -* ]]; then
        _files
    fi
}}

_fttcan "$@"
"""
FISH = """\
# Completes words in fish: commands, forms, options, their values, and files. An installation puts it in place. Or call:
#
#     source PATH/tools/completion.fish
#
# tools/print-completion has written it from the helps of the tools and the commands of the launcher.

# Whether the command is the launcher, which is a script, and not the built program.
function __fttcan_is_launcher
    set -l path (command -s (commandline -opc)[1])
    test -n "$path"; and test (head -c 2 $path | string collect) = '#!'
end

{rows}
"""


def sets():
    """For each command that has commands or forms: the name of each, what is told of it, and its options. And for each
    other tool its options, under an empty name. An option has its name, its choices, its value and what is told."""
    program = {name: (told, [(option, [], value, "") for option, value in options.items()])
               for name, (options, told) in commands().items()}
    found = {"fttcan": program,
             REFERENCE: {name: it for name, it in program.items() if name != LEFT_OUT}}
    for name in TOOLS:
        told = help_of(name)
        found[name] = {form.words: (form.told, options_of(name, form.words)) for form in told.forms}
        found[name] = found[name] or {"": ("", options_of(name))}
    return found


def options_of(name, *form):
    """The options of a tool or of one of its forms."""
    return [(*option_of(row), row.told) for row in help_of(name, *form).options]


def table(every):
    """The words after each key, as the rows of a case of a shell."""
    rows = []
    for name, forms in every.items():
        if "" not in forms:
            rows.append((f"{name} FORM", forms))
        for form, (_, options) in forms.items():
            key = f"{name} {form}".strip()
            rows.append((key, [option for option, *_ in options]))
            rows += [(f"{key} {option}", choices) for option, choices, *_ in options if choices]
    return "\n".join(f"    '{key}') printf %s '{' '.join(words)}' ;;" for key, words in rows if words)


def quoted(text):
    """A text as fish has it in quotes, cut after its first part."""
    text = text.split("; ")[0].split(". ")[0].rstrip(".")
    return "'" + text.replace("\\", "\\\\").replace("'", "\\'") + "'"


def fish_rows(every):
    """The rows of fish."""
    rows = []
    for name, forms in every.items():
        for form, (told, options) in forms.items():
            when = f" -n '__fish_seen_subcommand_from {form}'" if form else ""
            if form:
                rows.append(f"complete -c {name} -n __fish_use_subcommand -f -a {form} -d {quoted(told)}")
            for option, choices, value, said in options:
                kind = f" -x -a '{' '.join(choices)}'" if choices else "" if not value else " -r" if value in FILES \
                    else " -x"
                text = f" -d {quoted(said)}" if said else ""
                rows.append(f"complete -c {name}{when} -l {option.removeprefix('--')}{kind}{text}")
    return rows + ["complete -c fttcan -n '__fish_use_subcommand; and __fttcan_is_launcher' -f -a "
                   f"'{' '.join(LAUNCHER)}'"]


def text_for(shell):
    """The file of completion for bash, zsh or fish."""
    every = sets()
    return {"bash": BASH, "zsh": ZSH, "fish": FISH}[shell].format(
        table=table(every), rows="\n".join(fish_rows(every)), launcher=" ".join(LAUNCHER), reference=REFERENCE,
        names=" ".join((*TOOLS, REFERENCE)), paths=" ".join(f"tools/{name}" for name in (*TOOLS, "reference")))
