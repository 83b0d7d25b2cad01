#!/usr/bin/env python3
"""Makes a manifest of a compilation database (compile_commands.json).

    python3 tools/manifest.py compile_commands.json [--root FOLDER] > units.json

Run it for the folder of the project (FOLDER; the current one if left out): the manifest's names are those of files and
folders at or below it, and `demacro` is then run there. The manifest goes to the standard output. On the standard error
stands a line for each thing that a manifest can't say, with the file that it belongs to. The status is 0, or 1 where a unit
had to be left out or there are too many, or 2 where the database can't be read.
"""

import argparse
import json
import posixpath
import re
import shlex
import sys

MOST_UNITS = 256
MOST_NAME_BYTES = 255
NAME_PART = re.compile(r"[A-Za-z0-9_+.-]+")
DEFINE_NAME = re.compile(r"[A-Za-z_][A-Za-z0-9_]*")
NOT_IN_A_BODY = re.compile(r"##|%:%:|\?\?[=/'()!<>-]|\b__VA_ARGS__\b|\\$|[^ -~]")
FIXED_NAMES = {"defined", "__DATE__", "__FILE__", "__LINE__", "__STDC__", "__STDC_HOSTED__", "__STDC_VERSION__", "__TIME__"}

# Options whose value is the next word, and which say nothing of what a unit reads.
PASSED_OVER = {"-o", "-MF", "-MT", "-MQ", "-x", "-arch", "-target", "--param", "-Xlinker", "-Xclang", "-Xpreprocessor", "-Xassembler", "-L", "-l", "-u", "-T", "-z"}
# Options that change what a unit reads, and that a manifest can't say; those of the second kind have a value in the next word.
UNSAID = ("-include", "-imacros", "-iprefix", "-iwithprefix", "-nostdinc")
UNSAID_WITH_VALUE = {"-include", "-imacros", "-iprefix", "-iwithprefix", "-iwithprefixbefore"}
FOLDER_OPTIONS = ("-isystem", "-idirafter", "-iquote", "-I")


class Notes:
    """What couldn't be said, in the order in which it was found, each once."""

    def __init__(self):
        self.lines = {}

    def add(self, file, text):
        self.lines[f"{file}: {text}"] = None


def is_normal_name(name):
    """Whether a name is one of a manifest: 1 to 255 bytes, parts joined by `/`, none of them `.` or `..`."""
    parts = name.split("/")
    return len(name) <= MOST_NAME_BYTES and all(NAME_PART.fullmatch(part) and part not in (".", "..") for part in parts)


def name_below(root, directory, path):
    """The name of a path from the root, or None where it isn't below it or has no normal name. The root itself is `.`."""
    whole = posixpath.normpath(posixpath.join(root, directory, path))
    name = posixpath.relpath(whole, root)
    return name if name == "." or is_normal_name(name) else None


def is_define(define):
    """Whether a manifest can have this define."""
    name, equals, body = define.partition("=")
    if not DEFINE_NAME.fullmatch(name) or name in FIXED_NAMES:
        return False
    return not equals or (not NOT_IN_A_BODY.search(body) and closes_all(body))


def closes_all(body):
    """Whether each quote and comment of a define's body is closed."""
    rest = re.sub(r"\"(?:\\.|[^\"\\])*\"|'(?:\\.|[^'\\])+'|/\*.*?\*/|//.*", " ", body)
    return not re.search(r"[\"']|/\*", rest)


def words_of(entry):
    """The words of a compilation without the compiler's name."""
    words = entry["arguments"] if "arguments" in entry else shlex.split(entry["command"])
    return words[1:]


def value_of(option, word, words):
    """The value of an option that is joined to its name, or else is the next word."""
    return word[len(option):] or next(words, "")


def read_words(entry):
    """The include folders and the defines by their names, in order, and what a manifest can't say, of a compilation."""
    folders, defines, unsaid = [], {}, []
    words = iter(words_of(entry))
    for word in words:
        folder = next((option for option in FOLDER_OPTIONS if word.startswith(option)), None)
        if folder is not None:
            folders.append((folder, value_of(folder, word, words)))
        elif word.startswith("-D"):
            define = value_of("-D", word, words)
            defines[re.split(r"[=(]", define)[0]] = define
        elif word.startswith("-U"):
            defines.pop(value_of("-U", word, words), None)
        elif word.startswith(UNSAID):
            unsaid.append(" ".join([word, next(words, "")]) if word in UNSAID_WITH_VALUE else word)
        elif word in PASSED_OVER:
            next(words, None)
    return in_order_of_search(folders), defines, unsaid


def in_order_of_search(folders):
    """The folders in the order in which a compiler searches them; those of `-iquote` come first, `-idirafter` last."""
    order = {"-iquote": 0, "-I": 1, "-isystem": 2, "-idirafter": 3}
    return [folder for _, folder in sorted(folders, key=lambda given: order[given[0]])]


def unit_of(root, entry, notes):
    """The unit of a compilation, or None where it has no name in a manifest."""
    path, directory = entry["file"], entry.get("directory", ".")
    file = name_below(root, directory, path)
    if file in (None, "."):
        notes.add(path, "left out, it has no normal name below the root")
        return None
    if not file.endswith(".c"):
        notes.add(file, "left out, it is no .c file")
        return None
    folders, defines, unsaid = read_words(entry)
    unit = {"file": file}
    include = [name for name in named_folders(root, directory, file, folders, notes)]
    define = [text for text in said_defines(file, defines, notes)]
    for words in unsaid:
        notes.add(file, f"`{words}` can't be said in a manifest")
    if include:
        unit["include"] = include
    if define:
        unit["define"] = define
    return unit


def named_folders(root, directory, file, folders, notes):
    """The names of the include folders, each once."""
    named = {}
    for folder in folders:
        name = name_below(root, directory, folder)
        if name is None:
            notes.add(file, f"the include folder {folder} has no normal name below the root")
        else:
            named[name] = None
    return named


def said_defines(file, defines, notes):
    """The defines that a manifest can have."""
    for define in defines.values():
        if is_define(define):
            yield define
        else:
            notes.add(file, f"the define {define} can't be said in a manifest")


def manifest_of(root, entries, notes):
    """The manifest of a compilation database: each different unit once, in order."""
    units = []
    for entry in entries:
        unit = unit_of(root, entry, notes)
        if unit is not None and unit not in units:
            units.append(unit)
    return {"units": units}


def main(words):
    parser = argparse.ArgumentParser(description="Makes a manifest of a compilation database.")
    parser.add_argument("database", help="compile_commands.json")
    parser.add_argument("--root", default=".", help="the folder of the project, the current one if left out")
    given = parser.parse_args(words)
    root = posixpath.abspath(given.root)
    try:
        with open(given.database, encoding="utf-8") as text:
            entries = json.load(text)
        notes = Notes()
        manifest = manifest_of(root, entries, notes)
    except (OSError, ValueError, KeyError, TypeError) as error:
        print(f"{given.database}: {error!r}", file=sys.stderr)
        return 2
    if len(manifest["units"]) > MOST_UNITS:
        notes.add(given.database, f"has {len(manifest['units'])} units, a manifest has at most {MOST_UNITS}: left out from the next one on")
        manifest["units"] = manifest["units"][:MOST_UNITS]
    json.dump(manifest, sys.stdout, indent=1)
    print()
    for line in notes.lines:
        print(line, file=sys.stderr)
    return 1 if any("left out" in line for line in notes.lines) else 0


if __name__ == "__main__":
    sys.exit(main(sys.argv[1:]))
