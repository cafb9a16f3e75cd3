#!/usr/bin/env python3
"""Makes the manual pages, and the completions for bash, zsh and fish, in a directory as it is in a prefix: below share.

All comes from what is written once: the pages of the programs, by help2man, and the completions from what the programs
print for `--help`; librocktray(3) from the header of the C library.
"""

import argparse
import os
import re
import subprocess
from datetime import datetime, timezone
from pathlib import Path
from typing import NamedTuple, Optional

PROGRAM = "rocktray"


class Option(NamedTuple):
    """An option of a command: its names, the name of its value, whether a value may be left out, and its choices."""

    names: list
    value: Optional[str]
    is_optional: bool
    choices: list
    help: str


class Command(NamedTuple):
    """A command as its help describes it."""

    about: str
    commands: dict
    options: list


def run(*command):
    """What a command writes to standard output."""
    return subprocess.run([os.fspath(argument) for argument in command], stdout=subprocess.PIPE, check=True, text=True).stdout


def rows(text, title):
    """The rows of a section of the help: each with what is left of two spaces, and the text on the right of them."""
    found = re.search(rf"^{title}:\n((?: .*\n|\n(?= ))*)", text, re.M)
    rows = []
    for line in found[1].splitlines() if found else []:
        indent = len(line) - len(line.lstrip())
        if line.strip() and indent > 8:
            rows[-1][1] = f"{rows[-1][1]} {line.strip()}".strip()
        elif line.strip():
            left, _, right = line.strip().partition("  ")
            rows.append([left, right.strip()])
    return rows


def option_of(left, right):
    """The option of a row."""
    names = re.findall(r"(?<![\w<-])--?[\w-]+", left)
    value = re.search(r"<(.+?)>", left)
    choices = re.search(r" ?\[possible values: (.*?)\]", right)
    said = right.replace(choices[0], "") if choices else right
    return Option(names, value and value[1], "[=" in left, choices[1].split(", ") if choices else [], said)


def command_of(text):
    """The command with this help."""
    commands = dict(rows(text, "Commands"))
    return Command(text.split("\n")[0].rstrip("."), commands, [option_of(*row) for row in rows(text, "Options")])


def read_commands(program):
    """The program and its subcommands, as their help describes them; the name of the program itself is empty."""
    whole = command_of(run(program, "--help"))
    return {"": whole, **{name: command_of(run(program, name, "--help")) for name in whole.commands if name != "help"}}


def bash_value(option):
    """What bash does for the value of an option. One that may be left out comes only after `=`."""
    offer = "_filedir -d; " if option.value == "DIRECTORY" else ""
    if option.choices:
        offer = f"COMPREPLY=($(compgen -W '{' '.join(option.choices)}' -- \"$cur\")); "
    return f"if $split; then {offer}return; fi" if option.is_optional else f"{offer}return"


def bash(commands):
    """The completions for bash."""
    lines = [f"# bash completion for {PROGRAM}", "_rocktray() {", "    local cur prev words cword split"]
    lines += ["    _init_completion -s -n := || return", "    local command= argument", "    for argument in \"${words[@]:1:cword-1}\"; do"]
    lines += [f"        case $argument in {'|'.join(commands[''].commands)}) command=$argument; break ;; esac", "    done"]
    lines += ["    case $command:$prev in"]
    for name, command in commands.items():
        for option in command.options:
            if option.value:
                where = "|".join(f"{name}:{it}" for it in option.names)
                lines.append(f"        {where}) {bash_value(option)} ;;")
    lines += ["    esac", "    $split && return", "    case $command in"]
    for name, command in commands.items():
        known = " ".join([*command.commands, *(it + "=" * option.is_optional for option in command.options for it in option.names)])
        files = " [[ $cur == -* ]] || _filedir;" if name else ""
        said = known if not name else " ".join(it for option in command.options for it in option.names)
        lines.append(f"        {name or chr(39) * 2}) COMPREPLY=($(compgen -W '{said}' -- \"$cur\"));{files} return ;;")
    lines += [f"        help) COMPREPLY=($(compgen -W '{' '.join(commands[''].commands)}' -- \"$cur\")) ;;", "    esac", "} &&"]
    return "\n".join([*lines, f"complete -F _rocktray {PROGRAM}", ""])


def quoted(text):
    """A text between single quotes of zsh, in which brackets and colons are no syntax."""
    return re.sub(r"([\[\]:\\])", r"\\\1", text).replace("'", "'\\''")


def zsh_option(option):
    """The specification of an option for _arguments."""
    names = option.names
    form = f"({' '.join(names)})" if len(names) > 1 else ""
    action = f"({' '.join(option.choices)})" if option.choices else "_files -/" if option.value == "DIRECTORY" else ""
    value = f"{'::' if option.is_optional else ':'}{quoted(option.value)}:{action}" if option.value else ""
    sign = "=-" if option.is_optional else "=" if option.value else ""
    return [f"'{form}{name}{sign if name.startswith('--') else ''}[{quoted(option.help)}]{value}'" for name in names]


def zsh(commands):
    """The completions for zsh."""
    lines = [f"#compdef {PROGRAM}", "", "_rocktray() {", "    local curcontext=$curcontext state line", "    local -a commands"]
    lines += ["    commands=(", *(f"        '{name}:{quoted(about)}'" for name, about in commands[""].commands.items()), "    )"]
    head = [spec for option in commands[""].options for spec in zsh_option(option)]
    lines += ["    _arguments -C -S " + " ".join(head) + " '1: :->command' '*:: :->rest' && return"]
    lines += ["    case $state in", f"        command) _describe -t commands '{PROGRAM} command' commands ;;"]
    lines += ["        rest) curcontext=${curcontext%:*}-$words[1]:", "            case $words[1] in"]
    for name, command in list(commands.items())[1:]:
        lines += [f"                {name})", "                    _arguments -S \\"]
        lines += [f"                        {spec} \\" for option in command.options for spec in zsh_option(option)]
        lines += ["                        '*:INPUT:_files' ;;"]
    lines += ["                help) _describe -t commands 'command' commands ;;", "            esac ;;", "    esac", "}", ""]
    return "\n".join([*lines, '_rocktray "$@"', ""])


def fish(commands):
    """The completions for fish."""
    lines = []
    for name, about in commands[""].commands.items():
        lines.append(f"complete -c {PROGRAM} -f -n __fish_use_subcommand -a {name} -d {fish_text(about)}")
    for name, command in commands.items():
        where = f"'__fish_seen_subcommand_from {name}'" if name else "__fish_use_subcommand"
        for option in command.options:
            names = " ".join(f"-l {it[2:]}" if it.startswith("--") else f"-s {it[1:]}" for it in option.names)
            value = "" if not option.value or option.is_optional else " -r"
            if option.choices:
                value += f" -f -a '{' '.join(option.choices)}'"
            elif option.value == "DIRECTORY":
                value = " -x -a '(__fish_complete_directories)'"
            lines.append(f"complete -c {PROGRAM} -n {where} {names}{value} -d {fish_text(option.help)}")
    return "\n".join([*lines, f"complete -c {PROGRAM} -n '__fish_seen_subcommand_from help' -f -a '{' '.join(commands[''].commands)}'", ""])


def fish_text(text):
    """A text between single quotes of fish."""
    return "'" + text.replace("\\", "\\\\").replace("'", "\\'") + "'"


def page(program, arguments, about, version, epoch, see):
    """The manual page of a command, made by help2man from what it prints."""
    name = about[0].lower() + about[1:]
    command = ["help2man", "--no-info", "--no-discard-stderr", "--section=1", f"--name={name}", f"--source=Rocktray {version}"]
    command += [f"--version-string={version}", "--manual=Rocktray", f"--include={see}", " ".join([str(program), *arguments])]
    made = subprocess.run(command, stdout=subprocess.PIPE, check=True, text=True,
                          env={**os.environ, "SOURCE_DATE_EPOCH": str(epoch), "LC_ALL": "C.UTF-8"}).stdout
    title = "-".join([program.name, *arguments])
    made = made.replace(str(program), program.name)
    made = re.sub(r"^\.TH \S+", f".TH {title.upper()}", made, count=1, flags=re.M)
    return re.sub(r"^(\.SH NAME\n).*?( \\- )", lambda found: found[1] + title.replace("-", "\\-") + found[2], made, count=1, flags=re.M)


def roff(text):
    """A text of the header as running text of a manual page."""
    text = text.replace("\\", "\\e").replace("-", "\\-")
    return re.sub(r"^([.'])", r"\\&\1", re.sub(r"`(.*?)`", r"\\fB\1\\fR", text), flags=re.M)


def comment(text):
    """The lines of a comment of C without its marks."""
    return "\n".join(re.sub(r"^ ?\*? ?", "", line) for line in text.strip().removeprefix("/*").removesuffix("*/").split("\n")).strip()


def paragraphs(text):
    """The paragraphs of a comment; lines that are indented keep their form."""
    made = []
    for block in re.split(r"\n\n+", text):
        lines = block.split("\n")
        if all(line.startswith(" ") for line in lines):
            made += [".PP", ".nf", *(roff(line) for line in lines), ".fi"]
        else:
            made += [".PP", *(roff(line) for line in lines)]
    return made[1:]


def library_page(header, version, epoch):
    """librocktray(3): the header, as a page."""
    date = datetime.fromtimestamp(epoch, timezone.utc).strftime("%B %Y")
    top, _, rest = header.partition("#ifndef ROCKTRAY_H")
    description = comment(top).partition("\n\n")[2]
    calls = re.findall(r"(/\*(?:(?!\*/).)*?\*/)\n(\w[^;{}#]*\([^;{}]*\);)", rest, re.S)
    codes, _, after = re.search(r"enum rocktray_code \{\n(.*)", rest, re.S)[1].partition("\n};")
    types = re.findall(r"(/\*(?:(?!\*/).)*?\*/)\n((?:enum|struct) \w+ \{\n.*?\n\};|#define \w+ [^\n]*)", after, re.S)
    lines = [f'.TH LIBROCKTRAY 3 "{date}" "Rocktray {version}" "Rocktray"', ".SH NAME"]
    lines += ["librocktray \\- reads mail (RFC 5322, MIME), proved", ".SH SYNOPSIS", ".nf", ".B #include <rocktray.h>", ".PP"]
    lines += [roff(line) for _, call in calls for line in call.split("\n")]
    lines += [".fi", ".PP", "Link with \\fB\\-lrocktray\\fR, or by \\fBpkg\\-config \\-\\-cflags \\-\\-libs rocktray\\fR."]
    lines += [".SH DESCRIPTION", *paragraphs(description), ".SH CALLS"]
    for said, call in calls:
        name = re.search(r"(rocktray_\w+)\(", call)[1]
        lines += [".TP", f".B {name}", *(roff(line) for line in comment(said).split("\n"))]
    lines += [".SH CODES", ".nf", *(roff(line.removeprefix("    ")) for line in codes.split("\n")), ".fi"]
    lines += [".SH TYPES"] * bool(types)
    for said, definition in types:
        lines += [".PP", *(roff(line) for line in comment(said).split("\n")), ".PP", ".nf", *map(roff, definition.split("\n")), ".fi"]
    lines += [".SH SEE ALSO", "rocktray(1)", ""]
    return "\n".join(lines), [re.search(r"(rocktray_\w+)\(", call)[1] for _, call in calls]


def write(path, text):
    """Writes a file, in directories that are made for it."""
    path.parent.mkdir(parents=True, exist_ok=True)
    path.write_text(text, encoding="utf-8")


def make(binaries, header, directory, version, epoch):
    """Makes all pages and completions."""
    manual, program = directory / "share" / "man", binaries / PROGRAM
    commands = read_commands(program)
    see, titles = directory / "see", ["-".join([PROGRAM, name]).rstrip("-") for name in commands]
    for title, (name, command) in zip(titles, commands.items()):
        others = [f"{roff(other)}(1)" for other in [*titles, "mail_show"] if other != title]
        write(see, f"[see also]\n{', '.join(others)}, librocktray(3)\n")
        write(manual / "man1" / f"{title}.1", page(program, [name] if name else [], command.about, version, epoch, see))
    write(see, f"[see also]\n{titles[0]}(1)\n")
    about = run(binaries / "mail_show", "--help").split(":")[0]
    write(manual / "man1" / "mail_show.1", page(binaries / "mail_show", [], about, version, epoch, see))
    see.unlink()
    text, calls = library_page(header.read_text(encoding="utf-8"), version, epoch)
    write(manual / "man3" / "librocktray.3", text)
    for call in calls:
        write(manual / "man3" / f"{call}.3", ".so man3/librocktray.3\n")
    write(directory / "share" / "bash-completion" / "completions" / PROGRAM, bash(commands))
    write(directory / "share" / "zsh" / "site-functions" / f"_{PROGRAM}", zsh(commands))
    write(directory / "share" / "fish" / "vendor_completions.d" / f"{PROGRAM}.fish", fish(commands))


def main():
    parser = argparse.ArgumentParser(description=__doc__, formatter_class=argparse.RawDescriptionHelpFormatter)
    parser.add_argument("binaries", metavar="BINARIES", type=Path, help="the directory of the programs rocktray and mail_show")
    parser.add_argument("header", metavar="HEADER", type=Path, help="the header of the C library, as it is installed")
    parser.add_argument("directory", metavar="DIRECTORY", type=Path, help="where they go")
    given = parser.parse_args()
    if not (given.binaries / PROGRAM).is_file() or not given.header.is_file():
        parser.error("there is no program or no header")
    version = re.search(r'^#define ROCKTRAY_VERSION "(.+)"$', given.header.read_text(encoding="utf-8"), re.M)[1]
    make(given.binaries.resolve(), given.header, given.directory, version, int(os.environ.get("SOURCE_DATE_EPOCH", "0")))


if __name__ == "__main__":
    main()
