#!/usr/bin/env python3
"""Makes the completions of the installed program for bash, zsh and fish, of what `./sqmod help` prints.

make_completions.py FOLDER: leaves sqmod.bash, _sqmod and sqmod.fish in the folder. A command is what a line of the usage has after
`sqmod`; its options are those of that line. An option that is followed by F, FILE or FOLDER takes a path.
"""

import re
import subprocess
import sys
from pathlib import Path

ROOT = Path(__file__).resolve().parent.parent
CHECKOUT = "\n\nIn a checkout of the sources "
PATHS = ("F", "FILE", "FOLDER", "FOLDER..")


def commands():
    """The options of each command, and which of them take a path."""
    text = subprocess.run([ROOT / "sqmod", "help"], check=True, capture_output=True, text=True).stdout.partition(CHECKOUT)[0]
    usage = next(it for it in text.split("\n\n") if it.startswith("Usage:"))
    found = {}
    for line in usage.removeprefix("Usage:").split("\n"):
        name, _, rest = line.strip().removeprefix("sqmod ").partition(" ")
        if not name.startswith("-"):
            found[name] = dict(re.findall(r"(--[a-z-]+)(?: ([A-Z][A-Z/.]*))?", rest))
    return found


def takes_path(value):
    return value in PATHS


def bash(found):
    yield "# Completions of sqmod for bash."
    yield "_sqmod() {"
    yield "  local word=${COMP_WORDS[COMP_CWORD]} before=${COMP_WORDS[COMP_CWORD-1]} words="
    yield "  if [ \"$COMP_CWORD\" = 1 ]; then"
    yield f"    words='{' '.join(found)}'"
    yield "  else"
    yield "    case ${COMP_WORDS[1]}:$before in"
    for name, options in found.items():
        for option, value in options.items():
            if value and not takes_path(value):
                yield f"    {name}:{option}) return ;;"
            elif value:
                yield f"    {name}:{option}) COMPREPLY=($(compgen -f -- \"$word\")); return ;;"
    for name, options in found.items():
        yield f"    {name}:*) words='{' '.join(options)}' ;;"
    yield "    esac"
    yield "  fi"
    yield "  COMPREPLY=($(compgen -W \"$words\" -- \"$word\"))"
    yield "  [ \"${#COMPREPLY[@]}\" != 0 ] || COMPREPLY=($(compgen -f -- \"$word\"))"
    yield "}"
    yield "complete -o filenames -F _sqmod sqmod"


def zsh(found):
    yield "#compdef sqmod"
    yield "# Completions of sqmod for zsh."
    yield "_arguments '1:command:(" + " ".join(found) + ")' '*::words:->words'"
    yield "case $line[1] in"
    for name, options in found.items():
        kinds = {option: ":value:_files" if takes_path(value) else ":value:" if value else "" for option, value in options.items()}
        specs = [f"'*{option}{kind}'" for option, kind in kinds.items()]
        yield f"{name}) _arguments {' '.join(specs)} '*:file:_files' ;;"
    yield "esac"


def fish(found):
    yield "# Completions of sqmod for fish."
    yield f"complete -c sqmod -n __fish_use_subcommand -f -a '{' '.join(found)}'"
    for name, options in found.items():
        for option, value in options.items():
            how = " -r -F" if takes_path(value) else " -x" if value else ""
            yield f"complete -c sqmod -n '__fish_seen_subcommand_from {name}' -l {option[2:]}{how}"


def main():
    if len(sys.argv) != 2:
        sys.exit("Usage: make_completions.py FOLDER")
    folder, found = Path(sys.argv[1]), commands()
    folder.mkdir(parents=True, exist_ok=True)
    for name, lines in (("sqmod.bash", bash(found)), ("_sqmod", zsh(found)), ("sqmod.fish", fish(found))):
        (folder / name).write_text("\n".join(lines) + "\n")


if __name__ == "__main__":
    main()
