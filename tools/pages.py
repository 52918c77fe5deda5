#!/usr/bin/env python3
"""Makes the man page and the completions of a release from what `linda --help` and `linda CMD --help` print.

    tools/pages.py FOLDER [FILE]      writes those of the program FILE (crates/linda/out/linda, if none is given) into the folder
    tools/pages.py --check [FILE]     plays each line of the synopsis, and ends with 1 if the program refuses one of them, or takes what it does not have

The man page is packaging/linda.1.in, in which these lines are replaced: `@SYNOPSIS@`, of all commands; `@ABOUT CMD@`, the first line
of a command's help; `@OPTIONS CMD@`, its arguments and options, and without CMD those of the program; `@EXAMPLES@`, what comes after the options of
each. `@VERSION@` and `@DATE@` stay: tools/release puts those in.
"""

import argparse
import re
import subprocess
import sys
from pathlib import Path
from typing import NamedTuple

TOP = Path(__file__).resolve().parent.parent
FOLDER = TOP / "packaging"
PROVED = TOP / "crates/linda/out/linda"
# Most used first, as in the manual.
COMMANDS = ("serve", "call", "inspect", "run", "pipe")
ROW = re.compile(r" +(?P<names>\S.*?)(?:  +(?P<help>\S.*))?")
# Options that only a form with a unix socket has.
ONLY_SOCKET = {"--socket", "--mode"}
# Options that need another one, and values that the program takes.
ASKS_FOR = {"--mode": "--socket", "--metric": "--status"}
TAKEN = {"--mode": "600", "--dir": "/nonexistent/folder", "--trace": "/dev/null", "--metric": "tag", "--socket": "/nonexistent/s"}
# The program's own option, which its parser does not know: a sentence of its help names it. The other two words mean the same.
VERSION = ("--version", "Print the version")
VERSIONS = (VERSION[0], "-V", "version")
# The parser's own command, whose arguments are the other commands.
HELP = ("help", "Print the help of a command")


class Row(NamedTuple):
    """An option, `--port <P>`, or an argument, `<DIR>` or `[PORT]...`, with its help."""

    long: str
    short: str
    value: str
    help: str

    def is_folder(self) -> bool:
        return self.value in ("D", "DIR")

    def is_file(self) -> bool:
        # (Q is a port, or the path of a unix socket)
        return self.value in ("FILE", "PATH", "Q")

    def is_many(self) -> bool:
        """Whether it may be there more than once."""
        return "once for each" in self.help


class Help(NamedTuple):
    """What a command's help has."""

    about: str
    usage: tuple[str, ...]
    arguments: tuple[Row, ...]
    options: tuple[Row, ...]
    examples: tuple[str, ...]


def row_of(line: str) -> Row:
    found = ROW.fullmatch(line)
    if not found:
        sys.exit(f"tools/pages.py: a line of the help is not understood: {line!r}")
    names, value = found["names"], re.search(r"[<[]([A-Z]+)[]>]", found["names"])
    long, short = re.search(r"--[a-z]+", names), re.search(r"(?<!-)-[a-z]\b", names)
    return Row(long.group() if long else "", short.group() if short else "", value.group(1) if value else "", found["help"] or "")


def help_of(program: Path, command: str) -> Help:
    # (the help says the name by which the program is called)
    words = ["linda", *([command] if command else []), "--help"]
    text = subprocess.run(words, executable=program, capture_output=True, text=True, check=True).stdout
    about, _, rest = text.partition("\n\nUsage: ")
    usage, *parts = re.split(r"\n\n(?=[A-Z])", rest.strip("\n"))
    found: dict[str, tuple[str, ...]] = {}
    for at, part in enumerate(parts):
        head, *lines = part.splitlines()
        if head in ("Commands:", "Arguments:", "Options:"):
            found[head] = tuple(lines)
        else:
            found["after"] = tuple("\n\n".join(parts[at:]).splitlines())
            break
    rows = {head: tuple(map(row_of, found.get(head, ()))) for head in ("Arguments:", "Options:")}
    if not command and {line.split()[0] for line in found["Commands:"]} != {*COMMANDS, "help"}:
        sys.exit(f"tools/pages.py: the help has other commands than {', '.join(COMMANDS)}")
    return Help(about.strip(), tuple(usage.strip().splitlines()), rows["Arguments:"], rows["Options:"], found.get("after", ()))


# ---- the man page

def escaped(text: str) -> str:
    """The text as it must be written in a line of the man page to be printed so."""
    text = text.replace("\\", "\\e").replace("-", "\\-")
    return "\\&" + text if text.startswith((".", "'")) else text


class Form(NamedTuple):
    """A line of the synopsis: the words that must be there, and the options that may be."""

    command: str
    words: tuple[str, ...]
    options: tuple[Row, ...]


def form_of(name: str, it: Help, usage: str) -> Form:
    words = tuple(word for word in usage.split() if word not in ("linda", name, "[OPTIONS]"))
    without = {*words, "--help", *(ONLY_SOCKET if "--socket" not in words else ())}
    return Form(name, words, tuple(row for row in it.options if row.long not in without))


def synopsis_of(form: Form) -> list[str]:
    shown, at = [], 0
    while at < len(form.words):
        word = form.words[at]
        if word.startswith("--"):
            value = form.words[at + 1].replace("<", "").replace(">", "")
            one = value.removesuffix("...")
            shown.append(f".BI {escaped(word)}\\~ {one}")
            # (the program takes one value after each option, so it is the option that may come again)
            shown += [f".RB [ {escaped(word)}\\~\\fI{one}\\fP ]..."] if one != value else []
            at += 1
        else:
            shown.append(f".IR {word.replace('<', '').replace('>', '')}")
        at += 1
    for row in form.options:
        value = f"\\~\\fI{row.value}\\fP" if row.value else ""
        shown.append(f".RB [ {escaped(row.long)}{value} ]{'...' if row.is_many() else ''}")
    return [f".B linda {form.command}", *shown, ".br"]


# ---- each line of the synopsis, played

def played_words(form: Form) -> list[str]:
    """The words that must be there, with values that the program takes."""
    return [TAKEN.get(form.words[at - 1], "1") if word.startswith("<") and at and form.words[at - 1].startswith("--") else
            "1" if word.startswith("<PORT") else "/nonexistent/folder" if word.startswith("<") else word for at, word in enumerate(form.words)]


def option_words(row: Row) -> list[str]:
    return [row.long, *([TAKEN.get(row.long, "1")] if row.value else [])]


def is_taken(program: Path, words: list[str]) -> bool:
    """Whether the program's parser takes these words. What is named in them is not there, so nothing is served."""
    return subprocess.run([program, *words], stdin=subprocess.DEVNULL, capture_output=True, check=False, timeout=60).returncode != 2


def misspelled(program: Path, forms: list[Form]) -> list[str]:
    """The command lines that the program refuses though a form has them, or takes though no form does."""
    wrong = []

    def see(words: list[str], expected: bool) -> None:
        if is_taken(program, words) != expected:
            wrong.append(f"linda {' '.join(words)}: {'refused' if expected else 'taken'}")

    for form in forms:
        words, rows = [form.command, *played_words(form)], {row.long: row for row in form.options}
        see(words, True)
        for row in form.options:
            asked = ASKS_FOR.get(row.long)
            see([*words, *(option_words(rows[asked]) if asked in rows else []), *option_words(row)], True)
            if asked in rows:
                see([*words, *option_words(row)], False)
        see([*words, *(word for row in form.options for word in option_words(row))], True)
        if form.command == "call":
            see([*words, *("--socket s".split() if "--socket" not in form.words else ["7000"])], False)
            see([*words, *("7001" if "--socket" not in form.words else "--socket s").split()], True)
        for at, word in enumerate(form.words):
            if word.startswith("--"):
                see([form.command, *(it for place, it in enumerate(played_words(form)) if place not in (at, at + 1))], False)
    for name in COMMANDS:
        see([HELP[0], name], True)
    see([HELP[0], "nothing"], False)
    for word in VERSIONS:
        see([word], True)
        see([word, "more"], False)
    return wrong


def rows_in_man(it: Help, usages: list[str]) -> list[str]:
    """The lines of each argument and option; one is required if each of these usages has it."""
    lines = []
    for row in (*it.arguments, *it.options):
        if not row.long:
            named = f".I {row.value}"
        elif row.short:
            named = f".BR {escaped(row.short)} ,\\~ {escaped(row.long)}"
        else:
            named = f".BI {escaped(row.long)}\\~ {row.value}" if row.value else f".B {escaped(row.long)}"
        lines += [".TP", named, escaped(row.help) + "."]
        if row.long and all(row.long in usage.split() for usage in usages):
            lines.append("Required.")
    return lines


def man_page(helps: dict[str, Help], forms: list[Form]) -> str:
    lines = []
    for line in (FOLDER / "linda.1.in").read_text().splitlines():
        found = re.fullmatch(r"@([A-Z]+)(?: ([a-z]+))?@", line)
        if not found:
            lines.append(line)
            continue
        kind, name = found[1], found[2] or ""
        if kind == "SYNOPSIS":
            lines += [part for form in forms for part in synopsis_of(form)]
        elif kind == "ABOUT":
            lines.append(escaped(helps[name].about) + ".")
        elif kind == "OPTIONS":
            lines += rows_in_man(helps[name], [" ".join(form.words) for form in forms if form.command == name] or [*helps[name].usage])
        elif kind == "EXAMPLES":
            for command in ("", *COMMANDS):
                lines += [f".SS linda {command}".rstrip(), ".nf", *map(escaped, helps[command].examples), ".fi"]
    return "\n".join(lines) + "\n"


# ---- completions

def first_lower(text: str) -> str:
    return text[:1].lower() + text[1:]


def quoted(text: str, marks: str) -> str:
    """Between single quotes, with a backslash before each of these marks."""
    for mark in marks:
        text = text.replace(mark, "\\" + mark)
    return "'" + text.replace("'", "'\\''") + "'"


def bash_page(helps: dict[str, Help]) -> str:
    rows = list({row.long: row for it in helps.values() for row in it.options if row.value}.values())
    folders, files, others = [], [], []
    for row in rows:
        (folders if row.is_folder() else files if row.is_file() else others).append(row.long)
    cases = "".join(f"    {name}) options=\"{' '.join(row.long for row in helps[name].options)}\" ;;\n" for name in COMMANDS)
    cases += f"    {HELP[0]}) options=\"{' '.join(COMMANDS)}\" ;;\n"
    top = " ".join((*COMMANDS, HELP[0], *(row.long for row in helps[""].options), *VERSIONS))
    of_folder = [name for name in COMMANDS if any(row.is_folder() for row in helps[name].arguments)]
    return f"""# Completions of linda for bash, made by tools/pages.py.

_linda() {{
    local word=${{COMP_WORDS[COMP_CWORD]}} before=${{COMP_WORDS[COMP_CWORD - 1]}} options
    if [ "$COMP_CWORD" -eq 1 ]; then
        mapfile -t COMPREPLY < <(compgen -W "{top}" -- "$word")
        return
    fi
    case $before in
    {" | ".join(folders)})
        mapfile -t COMPREPLY < <(compgen -d -- "$word")
        return
        ;;
    {" | ".join(files)})
        mapfile -t COMPREPLY < <(compgen -f -- "$word")
        return
        ;;
    {" | ".join(others)})
        COMPREPLY=()
        return
        ;;
    esac
    case ${{COMP_WORDS[1]}} in
{cases}    *) options= ;;
    esac
    case ${{COMP_WORDS[1]}} in
    {" | ".join(of_folder)})
        if [ "${{word#-}}" = "$word" ]; then
            mapfile -t COMPREPLY < <(compgen -d -- "$word")
            return
        fi
        ;;
    esac
    mapfile -t COMPREPLY < <(compgen -W "$options" -- "$word")
}}

complete -o filenames -F _linda linda
"""


def zsh_page(helps: dict[str, Help]) -> str:
    def row_in_zsh(row: Row, is_many: bool) -> str:
        kind = "_files -/" if row.is_folder() else "_files" if row.is_file() else ""
        if not row.long:
            return quoted(f"{'*' if is_many else ''}:{row.value}:{kind}", "")
        told = quoted(f"{first_lower(row.help)}", ":[]")[1:-1]
        return f"'{'*' if row.is_many() else ''}{row.long}[{told}]{f':{row.value}:{kind}' if row.value else ''}'"

    def rows_of(it: Help) -> str:
        words = [*(row_in_zsh(row, False) for row in it.options), *(row_in_zsh(row, f"<{row.value}>..." in it.usage[0]) for row in it.arguments)]
        return " \\\n        ".join(["    _arguments", *words])

    commands = "".join(f"    {quoted(name + ':' + first_lower(helps[name].about).replace(':', chr(92) + ':'), '')}\n" for name in COMMANDS)
    commands += "".join(f"    {quoted(name + ':' + first_lower(told), '')}\n" for name, told in (HELP, (VERSIONS[-1], VERSION[1])))
    cases = "".join(f"{name})\n{rows_of(helps[name])}\n    ;;\n" for name in COMMANDS)
    cases += f"{HELP[0]})\n    _values command {' '.join(COMMANDS)}\n    ;;\n"
    top = " ".join([*(row_in_zsh(row, False) for row in helps[""].options), *(f"'{word}[{first_lower(VERSION[1])}]'" for word in VERSIONS[:-1])])
    return f"""#compdef linda
# Completions of linda for zsh, made by tools/pages.py.

local -a commands
commands=(
{commands})

if (( CURRENT == 2 )); then
    _describe command commands
    _arguments {top}
    return
fi

local name=$words[2]
shift words
(( CURRENT-- ))

case $name in
{cases}esac
"""


def fish_page(helps: dict[str, Help]) -> str:
    lines = ["# Completions of linda for fish, made by tools/pages.py.", "", "complete -c linda -f"]
    lines += [f"complete -c linda -n __fish_use_subcommand -a {name} -d {quoted(helps[name].about, chr(92))}" for name in COMMANDS]
    for name, told in (HELP, (VERSIONS[-1], VERSION[1])):
        lines.append(f"complete -c linda -n __fish_use_subcommand -a {name} -d {quoted(told, chr(92))}")
    top = [*(("-l", row.long, row.help) for row in helps[""].options), ("-l", *VERSION), ("-s", VERSIONS[1], VERSION[1])]
    lines += [f"complete -c linda -n __fish_use_subcommand {kind} {name.strip('-')} -d {quoted(told, chr(92))}" for kind, name, told in top]
    for name in COMMANDS:
        lines.append("")
        seen = f"complete -c linda -n '__fish_seen_subcommand_from {name}'"
        for row in helps[name].options:
            kind = " -x -a '(__fish_complete_directories)'" if row.is_folder() else " -r -F" if row.is_file() else " -x" if row.value else ""
            lines.append(f"{seen} -l {row.long[2:]}{kind} -d {quoted(row.help, chr(92))}")
        lines += [f"{seen} -a '(__fish_complete_directories)'" for row in helps[name].arguments if row.is_folder()]
    lines += ["", f"complete -c linda -n '__fish_seen_subcommand_from {HELP[0]}' -a '{' '.join(COMMANDS)}'"]
    return "\n".join(lines) + "\n"


class Made(NamedTuple):
    """The pages that are made from the help, by their names, and the forms of the synopsis."""

    pages: dict[str, str]
    forms: list[Form]


def made(program: Path) -> Made:
    helps = {name: help_of(program, name) for name in ("", *COMMANDS)}
    forms = [form_of(name, helps[name], usage) for name in COMMANDS for usage in helps[name].usage]
    pages = {"linda.1": man_page(helps, forms), "linda.bash": bash_page(helps), "_linda": zsh_page(helps), "linda.fish": fish_page(helps)}
    return Made(pages, forms)


def main() -> None:
    options = argparse.ArgumentParser(description=__doc__, formatter_class=argparse.RawDescriptionHelpFormatter)
    options.add_argument("--check", action="store_true")
    options.add_argument("words", nargs="*", type=lambda it: Path(it).resolve(), metavar="FOLDER [FILE]")
    given = options.parse_args()
    folder = given.words[:0 if given.check else 1]
    program = (given.words[len(folder):] or [PROVED])[0]
    if len(given.words) > len(folder) + 1 or not (given.check or folder):
        options.error("FOLDER [FILE], or --check [FILE]")
    if not program.is_file():
        sys.exit(f"tools/pages.py: there is no {program}")
    it = made(program)
    if given.check:
        wrong = misspelled(program, it.forms)
        print("\n".join([*wrong, f"{len(wrong)} command lines are others than the synopsis says"]))
        sys.exit(1 if wrong else 0)
    for name, text in it.pages.items():
        (folder[0] / name).write_text(text)


if __name__ == "__main__":
    main()
