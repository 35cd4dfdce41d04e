"""Completions of a command for bash, zsh and fish, made from the helps that it prints."""
from __future__ import annotations

import re
from typing import Callable, Dict, Iterator, List, NamedTuple, Tuple

from building.helps import Command, Option

# What stands for a file in a help.
FILES = ("FILE", "PATH", "MAP", "OUT", "GEOJSON", "ACCEPTED", "FOLDER")
HEAD = "{command}: made from its --help"


class Place(NamedTuple):
    """A command or a subcommand: the subcommand's name, empty for the command itself, and its options."""

    name: str
    command: Command


def places_of(command: Command) -> List[Place]:
    """The command, and its subcommands."""
    return [Place("", command), *(Place(below.name, below) for below in command.commands)]


def is_file(option: Option) -> bool:
    """Whether the value of an option is a file."""
    return option.value.strip("<>") in FILES


def short(text: str) -> str:
    """What a list of completions says of an option, or of a subcommand: the first clause, in signs that are easily quoted."""
    clause = re.split(r"[;:] |\. | \[", text)[0]
    return re.sub(r"[^\w ,./():'=+-]", "", clause).strip()


def function_of(command: Command) -> str:
    """The name of a command's function in a shell."""
    return "_" + command.name.replace("-", "_")


# ---- bash


def bash_values(place: Place) -> Iterator[str]:
    """What follows an option of a place: some words, a file, or nothing that could be completed."""
    files, others = [], []
    for option in place.command.options():
        before = [f'"{place.name} {name}"' for name in option.names]
        if option.choices():
            yield f'    {" | ".join(before)}) COMPREPLY=($(compgen -W "{" ".join(option.choices())}" -- "$word")) && return ;;'
        elif option.value:
            (files if is_file(option) else others).extend(before)
    yield from (f"    {' | '.join(names)}) {how}return ;;" for names, how in ((files, ""), (others, "compopt +o default && ")) if names)


def bash_words(place: Place) -> str:
    """What stands at a place: its options after a hyphen, and else its subcommands, or files."""
    options = " ".join(name for option in place.command.options() for name in option.names)
    words = " ".join(below.name for below in place.command.commands)
    return f'    "{place.name}") options="{options}" words="{words}" ;;'


def bash_of(command: Command) -> str:
    """The completions for bash. (Where no word fits, bash completes the names of files.)"""
    places, names = places_of(command), " | ".join(below.name for below in command.commands) or "-"
    return "\n".join([
        f"# {HEAD.format(command=command.name)}",
        f"{function_of(command)}() {{",
        '    local word="${COMP_WORDS[COMP_CWORD]}" before="${COMP_WORDS[COMP_CWORD - 1]}" place="" one options words',
        '    for one in "${COMP_WORDS[@]:1:COMP_CWORD-1}"; do',
        f'        case "$one" in {names}) place="$one" && break ;; esac',
        "    done",
        "    COMPREPLY=()",
        '    case "$place $before" in',
        *(line for place in places for line in bash_values(place)),
        "    esac",
        '    case "$place" in',
        *map(bash_words, places),
        "    esac",
        '    case "$word" in -*) words="$options" ;; esac',
        '    COMPREPLY=($(compgen -W "$words" -- "$word"))',
        "}",
        f"complete -o default -F {function_of(command)} {command.name}",
        "",
    ])  # fmt: skip


# ---- zsh


def in_quotes(text: str) -> str:
    """A text as it stands between two quotes of a shell."""
    return text.replace("'", "'\\''")


def zsh_option(option: Option) -> str:
    """An option, as _arguments takes it."""
    names = option.names[0] if len(option.names) == 1 else "{" + ",".join(option.names) + "}"
    value = f":{option.value.strip('<>').replace(':', ' ')}:" if option.value else ""
    if option.choices():
        value = f":value:({' '.join(option.choices())})"
    elif is_file(option):
        value += "_files"
    return f"'*'{names}'[{in_quotes(short(option.text))}]{value}'"


def zsh_arguments(place: Place) -> Iterator[str]:
    """The call of _arguments at a place."""
    yield "_arguments -C \\"
    for option in place.command.options():
        yield f"    {zsh_option(option)} \\"
    if place.command.commands:
        listed = " ".join(f'{below.name}\\:"{in_quotes(short(below.about))}"' for below in place.command.commands)
        yield f"    '1:command:(({listed}))' '*::word:->below'"
    else:
        yield "    '*:file:_files'" if place.command.takes_words() else "    '*: :'"


def zsh_of(command: Command) -> str:
    """The completions for zsh."""
    first, *below = places_of(command)
    lines = [f"#compdef {command.name}", f"# {HEAD.format(command=command.name)}", "local curcontext=\"$curcontext\" state line", *zsh_arguments(first)]
    if below:
        lines.append('case "$state:${line[1]}" in')
        for place in below:
            lines += [f"below:{place.name})", *(f"    {line}" for line in zsh_arguments(place)), "    ;;"]
        lines.append("esac")
    return "\n".join([*lines, ""])


# ---- fish


def fish_option(option: Option) -> str:
    """An option, as complete takes it."""
    names = " ".join(f"-l {name[2:]}" if name.startswith("--") else f"-s {name[1:]}" for name in option.names)
    if option.choices():
        return f"{names} -x -a '{' '.join(option.choices())}' -d '{in_quotes(short(option.text))}'"
    value = " -r -F" if is_file(option) else " -x" if option.value else ""
    return f"{names}{value} -d '{in_quotes(short(option.text))}'"


def fish_lines(command: Command, place: Place) -> Iterator[str]:
    """The lines about a place."""
    when = f"-n '__fish_seen_subcommand_from {place.name}'" if place.name else "-n __fish_use_subcommand" if command.commands else ""
    head = " ".join(filter(None, ["complete", "-c", command.name, when]))
    if not place.command.takes_words():
        yield f"{head} -f"
    for option in place.command.options():
        yield f"{head} {fish_option(option)}"
    for below in place.command.commands:
        yield f"{head} -a {below.name} -d '{in_quotes(short(below.about))}'"


def fish_of(command: Command) -> str:
    """The completions for fish."""
    lines = [line for place in places_of(command) for line in fish_lines(command, place)]
    return "\n".join([f"# {HEAD.format(command=command.name)}", *lines, ""])


# Where a shell's completions of a command stand below share/, and what makes them.
SHELLS: Dict[str, Tuple[str, Callable[[Command], str]]] = {
    "bash": ("bash-completion/completions/{}", bash_of),
    "zsh": ("zsh/site-functions/_{}", zsh_of),
    "fish": ("fish/vendor_completions.d/{}.fish", fish_of),
}
