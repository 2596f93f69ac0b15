"""Completion of the words of `um` in a shell: by argcomplete if it is there, otherwise by words that stay the same."""
import argparse
from typing import Any

from umc.commands import COMMANDS
from umc.errors import UmError
from umc.front import Front
from umc.program import find
from umc.texts import gather, library_folders

BASH = """\
_um() {{
    local word=${{COMP_WORDS[COMP_CWORD]}} words
    if [ "$COMP_CWORD" = 1 ]; then
        words="{commands} help --help --version"
    elif [[ $word == -* ]]; then
        case ${{COMP_WORDS[1]}} in
{options}
        esac
    fi
    COMPREPLY=($(compgen -W "$words" -- "$word"))
}}
complete -o default -F _um um
"""
ZSH = "autoload -U +X bashcompinit && bashcompinit\n"


def run(args: argparse.Namespace, front: Front) -> int:
    """Prints the script for a shell."""
    script = _dynamic(args.shell) or (_fish() if args.shell == "fish" else _bash(args.shell))
    front.write(script.encode())
    return 0


def _dynamic(shell: str) -> str | None:
    """The script of argcomplete, which asks `um` at each completion."""
    try:
        import argcomplete  # type: ignore[import]
    except ImportError:
        return None
    if shell == "fish":
        return str(argcomplete.shellcode(["um"], shell="fish"))
    return (ZSH if shell == "zsh" else "") + str(argcomplete.shellcode(["um"], shell="bash"))


def options_of(name: str) -> list[str]:
    """The options of a command that stand in its help."""
    actions = COMMANDS[name].parser()._actions
    return [word for action in actions if action.help != argparse.SUPPRESS for word in action.option_strings]


def _bash(shell: str) -> str:
    lines = [f'        {name}) words="{" ".join(options_of(name))}" ;;' for name in COMMANDS]
    return (ZSH if shell == "zsh" else "") + BASH.format(commands=" ".join(COMMANDS), options="\n".join(lines))


def _fish() -> str:
    lines = []
    for command in COMMANDS.values():
        lines.append(f"complete -c um -n __fish_use_subcommand -a {command.name} -d '{command.summary}'")
        for word in options_of(command.name):
            flag = f"-l {word[2:]}" if word.startswith("--") else f"-s {word[1:]}"
            lines.append(f"complete -c um -n '__fish_seen_subcommand_from {command.name}' {flag}")
    return "\n".join(lines) + "\n"


def complete() -> None:
    """Answers a shell that asks by argcomplete."""
    try:
        import argcomplete
    except ImportError:
        return
    parser = argparse.ArgumentParser(prog="um")
    parser.add_argument("--version", action="store_true")
    commands = parser.add_subparsers(dest="command")
    for command in COMMANDS.values():
        own = commands.add_parser(command.name, help=command.summary, conflict_handler="resolve")
        command.words(own)
        for action in own._actions:
            if action.dest in COMPLETERS:
                action.completer = COMPLETERS[action.dest]  # type: ignore[attr-defined]
    argcomplete.autocomplete(parser)


def functions(prefix: str, parsed_args: argparse.Namespace, **rest: Any) -> list[str]:
    """The functions of the program that the words name."""
    try:
        program = find()
        text = gather(parsed_args.file, getattr(parsed_args, "before", []), program)
        answer = program.ask(["types"], text.data)
    except UmError:
        return []
    names = [line.partition(" : ")[0] for line in answer.output.decode().splitlines()] if answer.status == 0 else []
    return [name for name in names if name.startswith(prefix)]


def library(prefix: str, **rest: Any) -> list[str]:
    """The files of the library, and files."""
    from argcomplete.completers import FilesCompleter  # type: ignore[import]
    try:
        folders = library_folders(find())
    except UmError:
        folders = []
    names = {file.stem for folder in folders for file in folder.glob("*.um")}
    return sorted(name for name in names if name.startswith(prefix)) + list(FilesCompleter()(prefix))


COMPLETERS = {"function": functions, "before": library}
