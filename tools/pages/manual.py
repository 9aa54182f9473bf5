"""Writes the manual page and the completion for bash of a command, of what its `--help` says, and that of each command
below it. So what is read offline is what the program says.
"""
import functools
import os
import re
import subprocess

# The heading of a section, with or without text behind it.
HEADING = re.compile(r"^(usage|positional arguments|options|commands|exit status|examples?):(?: (.*))?$", re.I)
COMMAND = re.compile(r"^ {2,4}([a-z][a-z-]*)(?: {2,}|$)")
# An option as help lists it, and what stands for its value.
OPTION = re.compile(r"^ +(?:-\w, +)?(--[a-z-]+)(?:[ =](<\w+>|[A-Z_]+))?")
# A word that is no option, as help lists it.
WORD = re.compile(r"^ {2}(\w+)(?: {2,}|$)")
# What asks the hall for the ids of such a word, and what makes a word of each line.
IDS = {"round": ("round list", "cut -d, -f1"), "puzzle": ("puzzle list", "cut -d, -f1,2 --output-delimiter=/")}
# Values that are files.
FILES = ("<F>", "<G>", "<L>", "KEY_FILE", "NAMES", "PROGRAM", "SHEET")
# Help that wraps its lines does so at this width.
WIDTH = 100


class Help:
    """What a command of this name says of itself, and the commands below it."""

    def __init__(self, program, name, *words):
        self.name = " ".join([name, *words])
        env = {**os.environ, "COLUMNS": str(WIDTH), "PYTHONDONTWRITEBYTECODE": "1"}
        asked = [program, *words, "--help"]
        self.text = subprocess.run(asked, capture_output=True, text=True, check=True, env=env, timeout=300).stdout
        lines = self.text.rstrip("\n").split("\n")
        self.options = [it.groups() for it in filter(None, map(OPTION.match, lines))]
        self.ids = [it[1] for it in filter(None, map(WORD.match, self.section("positional arguments"))) if it[1] in IDS]
        names = [it[1] for it in filter(None, map(COMMAND.match, self.section("commands")))]
        self.below = [Help(program, name, *words, it) for it in names]

    def section(self, name):
        """The lines of a section."""
        lines, found = [], False
        for line in self.text.split("\n"):
            heading = HEADING.match(line)
            if heading:
                found = heading[1].lower() == name
                line = heading[2]
            if found and line:
                lines.append(line)
        return lines

    def all(self):
        yield self
        for it in self.below:
            yield from it.all()

    def summary(self):
        """What it says first of itself."""
        paragraph = next(it for it in self.text.split("\n\n") if not HEADING.match(it.split("\n")[0]))
        said = re.split(r"[.:](?:\s|$)", " ".join(paragraph.split()))[0]
        return said[0].lower() + said[1:]


@functools.cache
def help_of(program, name):
    """What the program says of itself, which is installed by this name. It is asked once."""
    return Help(program, name)


def escaped(text):
    text = text.replace("\\", "\\e").replace("-", "\\-")
    return f"\\&{text}" if text.startswith((".", "'")) else text


def page_lines(text):
    """The lines of a help text, for troff: usage and what stands further in stay as they are, the others are filled."""
    is_kept = False
    for line in text.rstrip("\n").split("\n"):
        heading = HEADING.match(line)
        if line and is_kept != (line.startswith(" ") or line.lower().startswith("usage:")):
            is_kept = not is_kept
            yield ".nf" if is_kept else ".fi"
        if not line:
            yield ".sp" if is_kept else ".PP"
        elif heading and not is_kept:
            yield f".B {escaped(heading[1])}:"
            yield from [escaped(heading[2])] if heading[2] else []
        else:
            yield escaped(line)
    if is_kept:
        yield ".fi"


def page(of, version, day, others, origin=""):
    """The page of the first section for a command, with what tells of which sources it is, in lines."""
    lines = [f'.TH {of.name} 1 "{day}" "{of.name} {version}" "User Commands"']
    lines += [".SH NAME", f"{of.name} \\- {escaped(of.summary())}", ".SH DESCRIPTION", *page_lines(of.text)]
    if of.below:
        lines.append(".SH COMMANDS")
    for it in list(of.all())[1:]:
        lines += [f".SS {escaped(it.name)}", *page_lines(it.text)]
    if origin:
        told = "The program says its version. What else is known of its making:"
        lines += [".SH VERSION", told, ".PP", ".nf", *map(escaped, origin.rstrip("\n").split("\n")), ".fi"]
    lines += [".SH SEE ALSO", ", ".join(map(escaped, others))]
    # Two breaks in a row are one, and none stands under a heading.
    kept = [it for at, it in enumerate(lines) if it != ".PP" or not lines[at - 1].startswith((".S", ".PP"))]
    return "\n".join(kept) + "\n"


COMPLETION = """# Completion of {name} for bash, written of what its --help says.
_{name}() {{
  local word path={name} words current=${{COMP_WORDS[COMP_CWORD]}} before=${{COMP_WORDS[COMP_CWORD - 1]}}
  for word in "${{COMP_WORDS[@]:1:COMP_CWORD - 1}}"; do
    case "$path $word" in
      {paths}) path="$path $word" ;;
    esac
  done
  COMPREPLY=()
  case $before in
    {files}) mapfile -t COMPREPLY < <(compgen -f -- "$current"); return ;;
    {values}) return ;;
  esac
  case $path in
{words}
  esac
{ids}  mapfile -t COMPREPLY < <(compgen -W "$words" -- "$current")
}}
complete -o default -F _{name} {name}
"""


def ids_of(of):
    """The lines that add the ids of the hall that HALL_URL names: once, and without waiting for long."""
    for name, (words, cut) in IDS.items():
        paths = [f"'{it.name}'" for it in of.all() if name in it.ids]
        if paths:
            asked = f"timeout 2 {of.name} --patience 0 {words} --csv 2> /dev/null | sed 1d | {cut}"
            yield f"  case $path in {' | '.join(paths)}) words+=\" $({asked})\" ;; esac\n"


def completion(of):
    """The completion of a command's words: its commands and options, and the ids of rounds and puzzles."""
    options = dict(option for it in of.all() for option in it.options)
    files = [it for it, value in options.items() if value in FILES] or ["--"]
    values = [it for it, value in options.items() if value and value not in FILES] or ["--"]
    paths = [f"'{it.name}'" for it in list(of.all())[1:]] or ["''"]
    words = []
    for it in of.all():
        of_this = [below.name.split()[-1] for below in it.below] + [option for option, _ in it.options]
        words.append(f"    '{it.name}') words='{' '.join(of_this)}' ;;")
    joined = {"paths": " | ".join(paths), "files": " | ".join(files), "values": " | ".join(values),
              "ids": "".join(ids_of(of))}
    return COMPLETION.format(name=of.name, words="\n".join(words), **joined)
