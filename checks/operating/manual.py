#!/usr/bin/env python3
"""Holds the manual page and the completions of `bulwynef` to the texts of its `--help`.

    checks/operating/manual.py [write] [PROGRAM]

docs/bulwynef.1 is the page, docs/bulwynef.bash the completions. Each must be what this script makes of the texts; with `write` they are made
anew. Then `man --warnings` must say nothing of the page, and bash must complete each command and each option.

Wants crates/bulwynef/out/bulwynef, or another PROGRAM, and Debian's man-db and bash.
"""

import re
import subprocess
import sys
from pathlib import Path

TOP = Path(__file__).resolve().parents[2]
PROGRAM = TOP / "crates/bulwynef/out/bulwynef"
PAGE, COMPLETIONS = TOP / "docs/bulwynef.1", TOP / "docs/bulwynef.bash"

STATUS = [
    (0, "It was done. If status or explain says that a node is exposed, the status is 3 in place of 0."),
    (1, "It was refused. Standard error has a line: refused, the number and the name of the refusal, and where the fault stands."),
    (2, "The words of the command line are missing or not understood, or ask for help."),
    (3, "status or explain says that a node is exposed."),
    (4, "There is no proof. A file of the output's name stays as it was."),
    (5, "A bundle has another program or directory than those named."),
]

# An option or an argument: its words, and behind two blanks or on the next lines its text.
ENTRY = re.compile(r"^ {2,6}(-h, --help|--?[\w-]+(?: <[^>]+>)?|(?:<[^>]+>|\[[^\]]+\])(?:\.\.\.)?|\w+)(?:  +(\S.*))?$")


class Help:
    """What a text of `--help` has: what is done, the usage, and sections of entries."""

    def __init__(self, text):
        self.about, self.usage, self.example, self.sections = [], "", "", {}
        section = None
        for line in text.splitlines():
            if line.startswith("Usage: "):
                self.usage, section = line[len("Usage: ") :], None
            elif line.startswith("Example: "):
                self.example = line[len("Example: ") :]
            elif re.fullmatch(r"[A-Z]\w+:", line):
                section = self.sections.setdefault(line[:-1], [])
            elif section is None and not self.usage:
                self.about.append(line)
            elif section is not None and line.strip():
                entry = ENTRY.match(line)
                if entry:
                    section.append([entry[1], entry[2] or ""])
                else:
                    section[-1][1] = f"{section[-1][1]} {line.strip()}".strip()
        self.about = " ".join(self.about).strip()

    def options(self):
        """Each long option, with the values that it may have where these are listed."""
        for words, text in self.sections.get("Options", []):
            values = re.search(r"\[possible values: ([^\]]*)\]", text)
            yield re.search(r"--[\w-]+", words)[0], "<" in words, values[1].split(", ") if values else []


def help_of(program, *words):
    done = subprocess.run([program, *words, "--help"], capture_output=True, text=True, stdin=subprocess.DEVNULL, timeout=60)
    return Help(done.stdout + done.stderr)


def helps(program):
    """The program's own text, and that of each command, by its name."""
    whole = help_of(program)
    names = [name for name, _ in whole.sections["Commands"] if name != "help"]
    return whole, {name: help_of(program, name) for name in names}


# ---- the page


def roff(text):
    """Text as troff writes it as it is."""
    text = text.replace("\\", "\\e").replace("-", "\\-")
    return "\\&" + text if text[:1] in (".", "'") else text


def page_lines(whole, commands):
    yield '.\\" Made by checks/operating/manual.py from the texts of --help.'
    yield ".TH BULWYNEF 1"
    yield ".nh"
    yield ".SH NAME"
    yield f"bulwynef \\- {roff(whole.about.split('.')[0][:1].lower() + whole.about.split('.')[0][1:])}"
    yield ".SH SYNOPSIS"
    for text in commands.values():
        yield ".PP"
        yield f".B {roff(text.usage)}"
    yield ".SH DESCRIPTION"
    yield roff(whole.about + ".")
    for name, text in commands.items():
        yield f".SH {roff(name.upper())}"
        yield roff(text.about + ".")
        for entries in (text.sections.get("Arguments", []), text.sections.get("Options", [])):
            for words, about in entries:
                yield ".TP"
                yield f".B {roff(words)}"
                yield roff(about)
        if text.example:
            yield ".PP"
            yield "Example:"
            yield ".PP"
            yield ".nf"
            yield roff(text.example)
            yield ".fi"
    yield ".SH EXIT STATUS"
    for status, about in STATUS:
        yield ".TP"
        yield f".B {status}"
        yield roff(about)


# ---- completions


def completion_lines(commands):
    yield "# Made by checks/operating/manual.py from the texts of --help."
    yield "_bulwynef() {"
    yield '    local word="${COMP_WORDS[COMP_CWORD]}" before="${COMP_WORDS[COMP_CWORD-1]}"'
    yield "    COMPREPLY=()"
    yield '    if [ "$COMP_CWORD" -eq 1 ]; then'
    yield f'        COMPREPLY=($(compgen -W "{" ".join(commands)}" -- "$word"))'
    yield "        return"
    yield "    fi"
    yield '    case "${COMP_WORDS[1]} $before" in'
    for name, text in commands.items():
        for option, _, values in text.options():
            if values:
                yield f'    "{name} {option}")'
                yield f'        COMPREPLY=($(compgen -W "{" ".join(values)}" -- "$word"))'
                yield "        return ;;"
    yield "    esac"
    yield '    case "${COMP_WORDS[1]} $word" in'
    for name, text in commands.items():
        yield f'    "{name} -"*)'
        yield f'        COMPREPLY=($(compgen -W "{" ".join(option for option, _, _ in text.options())}" -- "$word")) ;;'
    yield "    esac"
    yield "}"
    yield "complete -o default -F _bulwynef bulwynef"


def completed(*words):
    """What bash completes the last of these words to."""
    listed = " ".join(f"'{word}'" for word in words)
    script = f'source "{COMPLETIONS}"; COMP_WORDS=({listed}); COMP_CWORD={len(words) - 1}; _bulwynef; echo "${{COMPREPLY[@]}}"'
    done = subprocess.run(["bash", "-eu", "-c", script], capture_output=True, text=True, timeout=60)
    return done.stdout.split() if done.returncode == 0 and done.stderr == "" else [done.stderr]


def completion_faults(commands):
    """What bash does not complete as it should."""
    if completed("bulwynef", "") != list(commands):
        yield f"bash completes {completed('bulwynef', '')} for the commands"
    for name, text in commands.items():
        if completed("bulwynef", name[:-1]) != [name]:
            yield f"bash does not complete {name[:-1]} to {name}"
        for option, _, values in text.options():
            if option not in completed("bulwynef", name, option[:-1]):
                yield f"bash does not complete {option} of {name}"
            if values and completed("bulwynef", name, option, "") != values:
                yield f"bash does not complete the values of {option} of {name}"


def faults(program, write):
    whole, commands = helps(program)
    made = {PAGE: "\n".join(page_lines(whole, commands)) + "\n", COMPLETIONS: "\n".join(completion_lines(commands)) + "\n"}
    for path, text in made.items():
        if write:
            path.write_text(text)
        if not path.is_file() or path.read_text() != text:
            yield f"{path.relative_to(TOP)}: is not what is made of the texts: write it anew by the word `write`"
    shown = subprocess.run(["man", "--warnings", "-l", PAGE], capture_output=True, text=True, env={"PATH": "/usr/bin:/bin", "LC_ALL": "C.UTF-8", "MANWIDTH": "100"}, timeout=60)
    if shown.returncode != 0 or shown.stderr:
        yield f"man says of the page: {shown.stderr}"
    for name, text in commands.items():
        if not text.about or not text.example or not text.usage:
            yield f"the text of {name} says too little"
        if re.sub(r"\s+", " ", text.about) not in re.sub(r"\s+", " ", shown.stdout):
            yield f"the page as it is shown has no text of {name}"
    yield from completion_faults(commands)


def main():
    words = sys.argv[1:]
    write = words[:1] == ["write"]
    program = Path((words[1:] if write else words)[0]).resolve() if words[write:] else PROGRAM
    found = list(faults(program, write))
    print(*found, sep="\n", end="\n" if found else "")
    if not found:
        print("the manual page and the completions are those of --help")
    return 1 if found else 0


if __name__ == "__main__":
    sys.exit(main())
