"""Completions of `vault`, `vaultc` and `vaultq` for bash, zsh and fish, made of the subcommands and their options."""
from __future__ import annotations

from typing import Callable, Dict, List, Tuple

from . import cli
from .records import dataclass

RUN_OPTIONS = ("--answers", "--depth", "--fuel", "--heap", "--input")
"""The options of a run, of commands whose words go to vaultc as they are."""

RUNS = ("run", "crun", "host")
TEXTS_OF_C = ("crun", "verify")
OF_VAULTC = ("check", "crun", "emit", "explain", "fmt", "host", "link", "load", "module", "run", "verify")
OF_VAULTQ = ("faults", "keys", "paths")


@dataclass(frozen=True)
class Command:
    """A subcommand: its name, its line of help, its options, and the ending of the files that it takes."""

    name: str
    help: str
    options: Tuple[str, ...]
    ending: str


def options_of(name: str, parser: cli.Parser) -> Tuple[str, ...]:
    """The long options of a subcommand."""
    own = [option for action in parser._actions for option in action.option_strings if option.startswith("--")]
    return tuple(sorted({*own, *(RUN_OPTIONS if name in RUNS else ())}))


def commands() -> List[Command]:
    """All subcommands, in the order of the alphabet."""
    found = []
    for name in cli.command_names():
        module = cli.module_of(name)
        line = (module.__doc__ or "").partition("\n")[0].rstrip(".")
        ending = "c" if name in TEXTS_OF_C or name == "bind" else "v"
        found.append(Command(name, line, options_of(name, cli.parser_of(name, module)), ending))
    return found


def bash(found: List[Command]) -> str:
    """The completion for bash."""
    options = "".join(f'        {it.name}) options="{" ".join(it.options)}" ;;\n' for it in found if it.options)
    of_c = " | ".join(it.name for it in found if it.ending == "c")
    return f"""\
# Completion of bash for vault, vaultc and vaultq.
_vault() {{
    local word=${{COMP_WORDS[COMP_CWORD]}} before=${{COMP_WORDS[COMP_CWORD - 1]}} command=${{COMP_WORDS[1]}} options="" ending=v
    COMPREPLY=()
    if [ "$COMP_CWORD" -eq 1 ]; then
        local names="{' '.join(it.name for it in found)} --help --version"
        case ${{COMP_WORDS[0]}} in *vaultc) names="{' '.join(OF_VAULTC)}" ;; *vaultq) names="{' '.join(OF_VAULTQ)}" ;; esac
        mapfile -t COMPREPLY < <(compgen -W "$names" -- "$word")
        return
    fi
    case $command in
{options}    esac
    case ${{COMP_WORDS[0]}}:$command in *vaultc:{' | *vaultc:'.join(RUNS)}) options="{' '.join(RUN_OPTIONS)}" ;; *vaultc:* | *vaultq:*) options="" ;; esac
    case $before in --fuel | --heap | --depth) return ;; esac
    if [[ $word == -* ]]; then
        mapfile -t COMPREPLY < <(compgen -W "$options" -- "$word")
        return
    fi
    compopt -o filenames 2> /dev/null
    case $before in --*) mapfile -t COMPREPLY < <(compgen -f -- "$word"); return ;; esac
    case $command in {of_c}) ending=c ;; esac
    mapfile -t COMPREPLY < <(compgen -f -X "!*.$ending" -- "$word"; compgen -d -- "$word")
}}
complete -F _vault vault vaultc vaultq bin/vault bin/vaultc bin/vaultq
"""


def quoted(text: str) -> str:
    """A text in single quotes, for zsh and fish."""
    return "'" + text.replace("\\", "").replace("'", "’") + "'"


def zsh(found: List[Command]) -> str:
    """The completion for zsh."""
    names = "".join(f"        {quoted(it.name + ':' + it.help.replace(':', ','))}\n" for it in found)
    options = "".join(f"        {it.name}) options=({' '.join(it.options)}) ;;\n" for it in found if it.options)
    of_c = "|".join(it.name for it in found if it.ending == "c")
    return f"""\
#compdef vault vaultc vaultq
# Completion of zsh for vault, vaultc and vaultq, for a folder in $fpath.
_vault() {{
    local -a names options
    names=(
{names}    )
    if [[ ${{words[1]:t}} == vaultc ]]; then
        names=({' '.join(OF_VAULTC)})
    elif [[ ${{words[1]:t}} == vaultq ]]; then
        names=({' '.join(OF_VAULTQ)})
    fi
    if (( CURRENT == 2 )); then
        _describe command names
        return
    fi
    case ${{words[2]}} in
{options}    esac
    if [[ $PREFIX == -* ]]; then
        compadd -a options
        return
    fi
    case ${{words[2]}} in
        {of_c}) _files -g '*.c' ;;
        *) _files -g '*.v' ;;
    esac
}}
_vault "$@"
"""


def fish(found: List[Command]) -> str:
    """The completion for fish."""
    lines = ["# Completion of fish for vault, vaultc and vaultq.", "complete -c vault -c vaultc -c vaultq -f"]
    lines += [f"complete -c vaultq -n __fish_use_subcommand -a {name}" for name in OF_VAULTQ]
    lines.append(f"complete -c vaultq -n '__fish_seen_subcommand_from {' '.join(OF_VAULTQ)}' -a '(__fish_complete_suffix .v)'")
    for it in found:
        programs = "-c vault -c vaultc" if it.name in OF_VAULTC else "-c vault"
        lines.append(f"complete {programs} -n __fish_use_subcommand -a {it.name} -d {quoted(it.help)}")
        seen = f"'__fish_seen_subcommand_from {it.name}'"
        lines += [f"complete -c vault -n {seen} -l {option[2:]}" for option in it.options]
        lines.append(f"complete {programs} -n {seen} -a '(__fish_complete_suffix .{it.ending})'")
    return "\n".join(lines) + "\n"


SHELLS: Dict[str, Callable[[List[Command]], str]] = {"bash": bash, "fish": fish, "zsh": zsh}


def text(shell: str) -> str:
    """The completion for a shell of SHELLS."""
    return SHELLS[shell](commands())
