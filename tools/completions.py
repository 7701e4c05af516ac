#!/usr/bin/env python3
"""Writes the completions of uda50 for bash, zsh and fish, from what its parser prints as `uda50 VERB --help`.

    tools/completions.py PROGRAM            writes completions/uda50.bash, completions/_uda50 and completions/uda50.fish
    tools/completions.py --check PROGRAM    only fails if one of them would change

PROGRAM is a build of uda50. The kinds of values and arguments that the help doesn't tell are in tables here.
"""
import re
import subprocess
import sys
from pathlib import Path

FOLDER = Path(__file__).resolve().parent.parent / "completions"
HEAD = "Completions of uda50 for {}. tools/completions.py writes them from what `uda50 VERB --help` prints."
HELP = "Prints the help of the program, of a verb or of scripts"
# For each value of an option, and each argument, what a shell calls it, and whether it is a file.
VALUES = {"A..B": ("blocks", False), "N": ("blocks", False), "FILE": ("file", True), "TO": ("device", True),
          "DRIVE": ("drive", False)}
ARGUMENTS = {"SCRIPT": ("script", "_files"), "FROM": ("from", "_uda50_image"), "TO": ("to", "_files"), "FILE": ("file", "_files"),
             "IMAGE": ("image", "_uda50_image"), "LBN": ("first block", " "), "COUNT": ("number of blocks", " ")}
# An apostrophe between apostrophes in a script of zsh.
IN_ZSH = "'\\''"
# The verb whose image is a new file, which has no `lock:`.
MAKES = "create"


class Option:
    """An option: its names, its value if it has one, the values that are possible, and its text."""

    def __init__(self, line):
        found = re.match(r"\s+(?:-(\w), |    )--([\w-]+)(?: <(\S+)>)?\s+(.*)", line)
        self.short, self.long, self.value, self.text = found.groups()
        values = re.search(r" \[possible values: (.*)\]$", self.text)
        self.values = values[1].split(", ") if values else []
        self.text = self.text[: values.start()] if values else self.text

    def words(self):
        return [f"-{self.short}"] * bool(self.short) + [f"--{self.long}"]

    def for_zsh(self):
        text = quoted(self.text.replace(":", "\\:"), IN_ZSH)
        if self.value:
            name, is_file = VALUES[self.value]
            values = f"({' '.join(self.values)})" if self.values else "_files" if is_file else " "
            return f"'--{self.long}[{text}]:{name}:{values}'"
        words = self.words()
        return f"'({' '.join(words)})'{{{','.join(words)}}}'[{text}]'" if self.short else f"'--{self.long}[{text}]'"

    def for_fish(self):
        names = f"-s {self.short} " * bool(self.short) + f"-l {self.long}"
        kind = "" if not self.value else " -r" if VALUES[self.value][1] else " -x"
        kind += f" -a '{' '.join(self.values)}'" if self.values else ""
        return f"{names}{kind} -d '{quoted(self.text)}'"


class Verb:
    """A verb: its name, its text, its options, and its arguments with whether they repeat."""

    def __init__(self, program, name, text):
        self.name, self.text = name, text
        help = printed(program, name, "--help")
        self.options = [Option(line) for line in section(help, "Options")]
        self.arguments = [re.match(r"\s+[<\[](\w+)[>\]](\.\.\.)?", line).groups() for line in section(help, "Arguments")]

    def arguments_for_zsh(self):
        for place, (name, repeats) in enumerate(self.arguments, 1):
            text, kind = ARGUMENTS[name]
            kind = "_files" if self.name == MAKES else kind
            yield f"'{'*' if repeats else place}:{text}:{kind}'"


def quoted(text, quote="\\'"):
    return text.replace("'", quote)


def printed(program, *words):
    return subprocess.run([program, *words], capture_output=True, text=True, check=True).stdout


def section(help, title):
    """Returns the lines of a section of a help text."""
    found = re.search(rf"(?ms)^{title}:\n(.*?)(?:\n\n|\Z)", help)
    return found[1].rstrip("\n").split("\n") if found else []


def verbs_of(program):
    lines = (line.split(None, 1) for line in section(printed(program, "--help"), "Commands"))
    return [Verb(program, name, text.strip()) for name, text in lines if name != "help"]


def named(verbs):
    """Returns the name and the text of each verb, and of `help`."""
    return [*((it.name, it.text) for it in verbs), ("help", HELP)]


def for_bash(verbs):
    names = " ".join(it.name for it in verbs)
    values = {f"--{it.long}": it.values for verb in verbs for it in verb.options if it.value}
    cases = [(it.name, " ".join(word for option in it.options for word in option.words())) for it in verbs]
    return "\n".join([
        f"# {HEAD.format('bash')}",
        "",
        "_uda50() {",
        "    local word=${COMP_WORDS[COMP_CWORD]} options=",
        "    COMPREPLY=()",
        "    case ${COMP_WORDS[COMP_CWORD - 1]} in",
        "        --drive)",
        f"            COMPREPLY=($(compgen -W '{' '.join(values['--drive'])}' -- \"${{word^^}}\"))",
        "            return ;;",
        f"        {' | '.join(it for it in values if it != '--drive')}) return ;;",
        "    esac",
        '    if [ "$COMP_CWORD" = 1 ]; then',
        f"        options='{names} help -h --help -V --version'",
        "    else",
        "        case ${COMP_WORDS[1]} in",
        *(f"            {verb}) options='{words}' ;;" for verb, words in [*cases, ("help", f"{names} script")]),
        "        esac",
        "    fi",
        "    # (without a match, the names of files are completed)",
        '    if [ "$COMP_CWORD" = 1 ] || [ "${COMP_WORDS[1]}" = help ] || [[ $word == -* ]]; then',
        '        COMPREPLY=($(compgen -W "$options" -- "$word"))',
        "    fi",
        "}",
        "",
        "complete -o default -F _uda50 uda50",
        "",
    ])


def for_zsh(verbs):
    lines = [
        "#compdef uda50",
        f"# {HEAD.format('zsh')}",
        "",
        "# an image, with or without lock: before it",
        "_uda50_image() {",
        "    compset -P 'lock:'",
        "    _files",
        "}",
        "",
        "_uda50() {",
        "    local -a verbs",
        "    verbs=(",
        *(f"        '{name}:{quoted(text, IN_ZSH)}'"
          for name, text in named(verbs)),
        "    )",
        "    if (( CURRENT == 2 )); then",
        "        _describe -t commands verb verbs",
        "        _arguments '(- *)'{-h,--help}'[Print help]' '(- *)'{-V,--version}'[Print version]'",
        "        return",
        "    fi",
        "    local verb=$words[2]",
        "    shift words",
        "    (( CURRENT-- ))",
        "    case $verb in",
    ]
    for verb in verbs:
        words = [*(it.for_zsh() for it in verb.options), *verb.arguments_for_zsh()]
        lines += [f"        {verb.name})", "            _arguments -s \\"]
        lines += [" \\\n".join(" " * 16 + word for word in words)]
        lines += ["            ;;"]
    names = " ".join(it.name for it in verbs)
    return "\n".join([*lines, "        help)", f"            _values verb {names} script", "            ;;", "    esac", "}", "",
                      '_uda50 "$@"', ""])


def for_fish(verbs):
    def line(condition, words):
        return f"complete -c uda50 -n {condition} {words}"

    lines = [f"# {HEAD.format('fish')}", ""]
    lines += [line("__fish_use_subcommand", f"-f -a {name} -d '{quoted(text)}'") for name, text in named(verbs)]
    lines += [line("__fish_use_subcommand", "-s h -l help -d 'Print help'"),
              line("__fish_use_subcommand", "-s V -l version -d 'Print version'"), ""]
    for verb in verbs:
        lines += [line(f"'__fish_seen_subcommand_from {verb.name}'", it.for_fish()) for it in verb.options]
    words = " ".join(it.name for it in verbs)
    return "\n".join([*lines, line("'__fish_seen_subcommand_from help'", f"-f -a '{words} script'"), ""])


def main():
    words = [it for it in sys.argv[1:] if it != "--check"]
    if len(words) != 1:
        sys.exit(__doc__)
    verbs = verbs_of(words[0])
    stale = 0
    for name, made in ("uda50.bash", for_bash(verbs)), ("_uda50", for_zsh(verbs)), ("uda50.fish", for_fish(verbs)):
        if (FOLDER / name).read_text(encoding="utf-8") == made:
            continue
        stale += 1
        if "--check" in sys.argv:
            print(f"completions/{name} isn't what tools/completions.py writes")
        else:
            (FOLDER / name).write_text(made, encoding="utf-8")
    return 1 if stale and "--check" in sys.argv else 0


if __name__ == "__main__":
    sys.exit(main())
