"""Completions of words for shells: all commands and options, and names of files."""

from __future__ import annotations

from collections.abc import Iterable, Iterator

from releasing.words import COMMANDS, FIRST, Command, Option

BASH = """# Completions of cardhouse for bash.
_cardhouse() {{
    local at command= part= words= word=${{COMP_WORDS[COMP_CWORD]}}
    for ((at = 1; at < COMP_CWORD; at++)); do
        case ${{COMP_WORDS[at]}} in
            -*) ;;
            *)
                [ -z "$command" ] || {{ part=${{COMP_WORDS[at]}}; break; }}
                command=${{COMP_WORDS[at]}}
                ;;
        esac
    done
    case $command in
        '') words="{first}" ;;
{cases}    esac
    # Where nothing of this is meant, a file is.
    COMPREPLY=($(compgen -W "$words" -- "$word"))
    [[ -n $word || -z $command || $command/$part = series/ ]] || COMPREPLY=()
}}
complete -o default -F _cardhouse cardhouse
"""

ZSH = """#compdef cardhouse
# Completions of cardhouse for zsh.
local state
local -a commands parts
commands=(
{commands}
)
parts=(
{parts}
)
_arguments -C {first} '1: :->command' '*:: :->words'
case $state in
    command) _describe command commands ;;
    words)
        case $words[1] in
{cases}
            *) _files ;;
        esac
        ;;
esac
"""

SERIES = """            series)
                _arguments -C '1: :->part' '*:: :->of_part'
                case $state in
                    part) _describe part parts ;;
                    of_part)
                        case $words[1] in
{cases}
                            *) _files ;;
                        esac
                        ;;
                esac
                ;;"""


def names(options: Iterable[Option]) -> list[str]:
    return [it.name for it in options]


def bash() -> str:
    """What bash sources."""
    cases = "".join(f"        {it.name}) {words_of(it)} ;;\n" for it in COMMANDS if it.options)
    return BASH.format(first=" ".join([*(it.name for it in COMMANDS), *names(FIRST)]), cases=cases)


def words_of(command: Command) -> str:
    own = f'words="{" ".join([*(it.name for it in command.parts), *names(command.options)])}"'
    if not command.parts:
        return own
    parts = "".join(f' {it.name}) words="{" ".join(names(it.options))}" ;;' for it in command.parts if it.options)
    return f"case $part in '') {own} ;;{parts} esac"


def zsh() -> str:
    """What zsh has in a folder of its `fpath`."""
    parts = [part for it in COMMANDS for part in it.parts]
    cases = "\n".join(case_of(it, 12) if not it.parts else series_of(it) for it in COMMANDS if it.options)
    return ZSH.format(
        commands="\n".join(f"    {quoted(f'{it.name}:{it.said}')}" for it in COMMANDS),
        parts="\n".join(f"    {quoted(f'{it.name}:{it.said}')}" for it in parts),
        first=" ".join(map(argument, FIRST)),
        cases=cases,
    )


def series_of(command: Command) -> str:
    return SERIES.format(cases="\n".join(case_of(it, 28) for it in command.parts if it.options))


def case_of(command: Command, indented: int) -> str:
    options = "".join(f"{argument(it)} " for it in command.options)
    return f"{' ' * indented}{command.name}) _arguments {options}'*:file:_files' ;;"


def argument(option: Option) -> str:
    behind = f":{option.takes}: " if option.takes not in ("FILE", "DIR") else f":{option.takes}:_files"
    return quoted(f"{option.name}[{option.said}]{behind if option.takes else ''}")


def quoted(text: str) -> str:
    """A text as one word of a shell."""
    return "'" + text.replace("'", "'\\''") + "'"


def fish() -> str:
    """What fish sources."""
    return "\n".join(["# Completions of cardhouse for fish.", *fish_lines()]) + "\n"


def fish_lines() -> Iterator[str]:
    first = "__fish_use_subcommand"
    for option in FIRST:
        yield fish_line(first, option)
    for command in COMMANDS:
        yield f"complete -c cardhouse -n {first} -f -a {command.name} -d {fish_quoted(command.said)}"
    for command in COMMANDS:
        behind = f"__fish_seen_subcommand_from {command.name}"
        for option in command.options:
            yield fish_line(behind, option)
        all_parts = " ".join(it.name for it in command.parts)
        for part in command.parts:
            before = f"{behind}; and not __fish_seen_subcommand_from {all_parts}"
            yield f"complete -c cardhouse -n '{before}' -f -a {part.name} -d {fish_quoted(part.said)}"
            for option in part.options:
                yield fish_line(f"{behind}; and __fish_seen_subcommand_from {part.name}", option)


def fish_line(when: str, option: Option) -> str:
    name = f"-l {option.name[2:]}" if option.name.startswith("--") else f"-s {option.name[1:]}"
    takes = " -r" if option.takes in ("FILE", "DIR") else " -x" if option.takes else ""
    return f"complete -c cardhouse -n '{when}' {name}{takes} -d {fish_quoted(option.said)}"


def fish_quoted(text: str) -> str:
    return "'" + text.replace("'", "\\'") + "'"
