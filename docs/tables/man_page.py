"""Makes the man page and the bash completion of a program from its help.

    python3 docs/tables/man_page.py bin/roombox docs      # writes docs/roombox.1 and docs/roombox.bash (`make man`)

All that the two say of commands, options, statuses and examples is what `PROGRAM --help` and `PROGRAM COMMAND --help` print; tests/guide.py looks
whether the files of docs/ are what is made from the program that it tries.
"""

import re
import subprocess
import sys
from dataclasses import dataclass, field
from pathlib import Path

SEE_ALSO = "docs/GUIDE.md: input, output, how a room decides. docs/REFERENCE.md: each number, formats, limits. RFC 5545 (iCalendar), RFC 5546 (iTIP), RFC 6638 (scheduling)."


@dataclass
class Help:
    """What the help of the program or of a command says."""
    about: str
    usage: str
    lists: dict = field(default_factory=dict)
    """Under Commands, Arguments and Options: pairs of what is listed and its text."""
    paragraphs: list = field(default_factory=list)
    """The text behind the lists; each is a list of lines."""

    def examples(self):
        return [line.removeprefix("Example: ") for lines in self.paragraphs for line in lines if line.startswith("Example: ")]

    def prose(self):
        """The paragraphs that are neither the examples nor the table of statuses."""
        return [lines for lines in self.paragraphs if not lines[0].startswith("Example: ") and lines[0] != "Exit status:"]

    def statuses(self):
        """Of the table of statuses each number and its text."""
        return [line.split(None, 1) for lines in self.paragraphs if lines[0] == "Exit status:" for line in lines[1:]]

    def long_options(self):
        return [word for shown, _ in self.lists.get("Options", []) for word in re.findall(r"--[a-z-]+", shown)]


def help_of(program, *words):
    text = subprocess.run([program, *words, "--help"], capture_output=True, check=True, text=True).stdout
    about, usage, *blocks = [block.split("\n") for block in text.strip("\n").split("\n\n")]
    found = Help(" ".join(about), usage[0].removeprefix("Usage: "))
    for lines in blocks:
        if lines[0] in ("Commands:", "Arguments:", "Options:"):
            found.lists[lines[0][:-1]] = [re.split(r" {2,}", line.strip(), maxsplit=1) for line in lines[1:]]
        elif found.paragraphs and lines[0].startswith(" "):
            # an example with an empty line in it
            found.paragraphs[-1] += ["  ", *lines]
        else:
            found.paragraphs.append(lines)
    return found


def all_help(program):
    """The help of the program, and of each of its commands by name."""
    top = help_of(program)
    return top, {name: help_of(program, name) for name, _ in top.lists["Commands"]}


def literal(text):
    """Text whose octets are shown as they are."""
    text = text.replace("\\", "\\e").replace("-", "\\-").replace("'", "\\(aq").replace("`", "\\(ga")
    return "\\&" + text if text.startswith((".", "\\(aq")) else text


def prose(text):
    """A line of running text; what is between grave accents is bold."""
    pieces = text.split("`")
    shown = "".join(f"\\fB{literal(piece)}\\fR" if odd % 2 else piece.replace("\\", "\\e").replace("--", "\\-\\-") for odd, piece in enumerate(pieces))
    return "\\&" + shown if shown.startswith((".", "'")) else shown


def paragraph(lines):
    """A paragraph in which lines that begin with two spaces are shown as they are."""
    out, shown = [".PP"], False
    for line in lines:
        if line.startswith("  ") != shown:
            shown = not shown
            out += [".RS", ".nf"] if shown else [".fi", ".RE"]
        out.append(literal(line[2:]) if shown else prose(line))
    return out + ([".fi", ".RE"] if shown else [])


def listed(pairs):
    return [line for name, text in pairs for line in (".TP", f"\\fB{literal(name)}\\fR", prose(text))]


def man_page(program):
    """The text of the man page."""
    top, commands = all_help(program)
    version = subprocess.run([program, "--version"], capture_output=True, check=True, text=True).stdout.strip()
    name = version.split()[0]
    out = [f'.\\" Made by docs/tables/man_page.py from the help of {name}: edit the texts there.', f'.TH {name.upper()} 1 "" "{version}" "User Commands"']
    out += [".SH NAME", f"{name} \\- {prose(top.about[0].lower() + top.about[1:].rstrip('.'))}"]
    out += [".SH SYNOPSIS", ".nf", *(f"\\fB{literal(help.usage)}\\fR" for help in (top, *commands.values())), ".fi"]
    out += [".SH DESCRIPTION", prose(top.about)]
    for lines in top.prose():
        out += paragraph(lines)
    out += [".SH OPTIONS", *listed(top.lists["Options"]), ".SH COMMANDS"]
    for help in commands.values():
        out += [f".SS {literal(help.usage)}", prose(help.about)]
        for kind in ("Arguments", "Options"):
            out += listed(help.lists.get(kind, []))
        for lines in help.prose():
            out += paragraph(lines)
    out += [".SH EXIT STATUS", *listed(top.statuses())]
    out += [".SH EXAMPLES", ".nf", *(literal(example) for help in commands.values() for example in help.examples()), ".fi"]
    out += [".SH SEE ALSO", SEE_ALSO]
    return "\n".join(out) + "\n"


def completion(program):
    """The text of the bash completion: the commands, the long options of each, and else names of files."""
    top, commands = all_help(program)
    names = list(commands)
    name = top.usage.split()[0]
    cases = "\n".join(f'    {command}) options="{" ".join(help.long_options())}" ;;' for command, help in commands.items())
    return f"""# Completion of {name} in bash: `source docs/{name}.bash`. Made by docs/tables/man_page.py from the help of {name}.

_{name}() {{
    local word=${{COMP_WORDS[COMP_CWORD]}} options="{" ".join(names + top.long_options())}" at
    for ((at = 1; at < COMP_CWORD; at++)); do
        case ${{COMP_WORDS[at]}} in
        {" | ".join(names)}) break ;;
        esac
    done
    COMPREPLY=()
    if ((at < COMP_CWORD)); then
        # behind a command a word that begins no option is the name of a file, or not known
        [[ $word == -* ]] || return
    fi
    case ${{COMP_WORDS[at]}} in
{cases}
    esac
    mapfile -t COMPREPLY < <(compgen -W "$options" -- "$word")
}}

complete -o default -F _{name} {name}
"""


def main():
    program, folder = str(Path(sys.argv[1]).resolve()), Path(sys.argv[2])
    name = Path(program).name
    (folder / f"{name}.1").write_text(man_page(program), encoding="utf-8")
    (folder / f"{name}.bash").write_text(completion(program), encoding="utf-8")


if __name__ == "__main__":
    main()
