#!/usr/bin/env python3
"""Writes the C files of a build and the preprocessor's flags of each, as `analyse --compile-commands` asks for them.

    tools/compile_commands.py DATABASE [FILE..]

DATABASE is a compile_commands.json: a list of objects with `directory`, `file`, and `arguments` or `command`. The units
are all its files in .c, or those among them that are named as FILE, in this order. Of a unit's words -D, -U, -I,
-iquote, -isystem, -idirafter and -include count, with their values behind them or in the next word; words that stand in
a file @FILE stand here too. For each unit its name is written, the number of its flags and these, each with a byte 0
behind it. Names are those of the present folder, where they stand below it, and else whole.

The status is 3 where a FILE is no unit of the database, and 4 where the database cannot be read; a line on standard
error says what is wrong."""
import json
import os
import shlex
import sys

FOLDERS = ("-I", "-iquote", "-isystem", "-idirafter")
FLAGS = FOLDERS + ("-D", "-U", "-include")
# Words whose next word is no flag.
OTHERS = ("-o", "-x", "-MF", "-MT", "-MQ", "-Xlinker", "-Xassembler")


def fail(status, message):
    sys.stderr.write(message + "\n")
    sys.exit(status)


def read(path):
    """What the database lists."""
    try:
        with open(path, encoding="utf-8") as source:
            entries = json.load(source)
    except OSError as error:
        fail(4, f"'{path}' cannot be read: {error.strerror}")
    except (ValueError, RecursionError) as error:
        fail(4, f"'{path}' is no JSON: {error}")
    if not isinstance(entries, list):
        fail(4, f"'{path}' is no list of commands")
    return entries


def words_of(path, number, entry):
    """The words of an entry's command."""
    words = entry.get("arguments")
    if words is None and isinstance(entry.get("command"), str):
        try:
            words = shlex.split(entry["command"])
        except ValueError:
            fail(4, f"'{path}': the command of entry {number} cannot be read")
    if not isinstance(words, list) or not all(isinstance(it, str) for it in words):
        fail(4, f"'{path}': entry {number} has no command, and no list of words")
    return words


def expanded(path, directory, words):
    """The words, with those of a file in the place of @FILE."""
    for word in words:
        if not word.startswith("@"):
            yield word
            continue
        try:
            with open(os.path.join(directory, word[1:]), encoding="utf-8") as source:
                yield from shlex.split(source.read())
        except (OSError, ValueError):
            fail(4, f"'{path}': the words in '{word[1:]}' cannot be read")


def flags_of(words):
    """The flags among the words, each as two."""
    flags = []
    rest = iter(words)
    for word in rest:
        if word in OTHERS:
            next(rest, None)
        elif word in FLAGS:
            flags.append((word, next(rest, "")))
        else:
            flag = next((it for it in FLAGS if word.startswith(it) and not word.startswith("-include-")), None)
            if flag is not None:
                flags.append((flag, word[len(flag):]))
    return flags


def shown(path):
    """A path as the present folder names it."""
    near = os.path.relpath(path)
    return os.path.abspath(path) if near.split(os.sep)[0] == os.pardir else near


def placed(directory, flags):
    """The flags, with names that hold in the present folder: a header is looked for in the build's, and then in those
    of the flags."""
    made = [(flag, shown(os.path.join(directory, value)) if flag in FOLDERS else value) for flag, value in flags]
    folders = [directory] + [value for flag, value in made if flag in FOLDERS]
    for flag, value in made:
        if flag == "-include":
            found = (os.path.join(it, value) for it in folders)
            value = next((shown(it) for it in found if os.path.isfile(it)), value)
        yield flag
        yield value


def units_of(path):
    """The units of the database: of each its real path, its name, and its flags."""
    units = {}
    for number, entry in enumerate(read(path), 1):
        if not isinstance(entry, dict) or not all(isinstance(entry.get(it), str) for it in ("directory", "file")):
            fail(4, f"'{path}': entry {number} has no directory or no file")
        if not entry["file"].endswith(".c"):
            continue
        directory = os.path.join(os.path.dirname(os.path.abspath(path)), entry["directory"])
        words = expanded(path, directory, words_of(path, number, entry))
        file = os.path.join(directory, entry["file"])
        unit = shown(file), list(placed(directory, flags_of(words)))
        units.setdefault(os.path.realpath(file), []).append(unit)
    return units


def main(path, *files):
    units = units_of(path)
    wanted = [(it, os.path.realpath(it)) for it in files] or [(found[0][0], it) for it, found in units.items()]
    if not wanted:
        fail(4, f"'{path}' has no file in .c")
    for name, file in wanted:
        found = units.get(file)
        if found is None:
            fail(3, f"'{name}' is no C file of '{path}'")
        if any(flags != found[0][1] for _, flags in found):
            fail(4, f"'{path}' has '{name}' more than once, with other flags, as for two programs")
        flags = found[0][1]
        for it in (name, str(len(flags)), *flags):
            sys.stdout.buffer.write(os.fsencode(it) + b"\0")


if __name__ == "__main__":
    try:
        main(*sys.argv[1:])
    except ValueError:
        fail(4, f"'{sys.argv[1]}' has a name that no file can have")
