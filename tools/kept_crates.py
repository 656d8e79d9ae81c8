"""The crates of the repository and the store in which tools/prove.py keeps what is proved of them.

The store is the folder $CEDRATCLEAT_KEPT, or else ~/.cache/cedratcleat. In it NAME/SUM/ has the library or the program
of a crate, and a mark for each of its parts that passed: its proof, its tests, its must-fail edits. SUM is of the text
of the crate and of all below it and of the kit, so several checkouts share what has one text.

Some kits keep what `rt ci` proves on a machine, in a store of their own (class Kept of their `rt`). What stands there
of the same text, over the same libraries byte for byte, is taken from there (KitStore).

It calls functions of the kit's own `rt`, so a newer kit may ask for changes here."""
import contextlib
import functools
import hashlib
import importlib.machinery
import importlib.util
import json
import os
import shutil
import subprocess
import sys
import tempfile
import types


def kit():
    """The kit's `rt`, as a module."""
    page = subprocess.run(["rt", "doc"], capture_output=True, text=True, check=True).stdout.strip()
    loader = importlib.machinery.SourceFileLoader("rt", f"{os.path.dirname(page)}/bin/rt")
    made = importlib.util.module_from_spec(importlib.util.spec_from_loader("rt", loader))
    sys.modules["rt"] = made
    loader.exec_module(made)
    return made


rt = kit()
rtlib = rt.rtlib
CACHE = os.environ.get("XDG_CACHE_HOME") or os.path.expanduser("~/.cache")
STORE = os.environ.get("CEDRATCLEAT_KEPT") or f"{CACHE}/cedratcleat"


@functools.lru_cache(maxsize=None)
def kit_sum():
    made = hashlib.sha256()
    for file in ("KIT-ID", "WHAT"):
        made.update((rtlib.text_of(f"{rt.KIT}/{file}") or "").encode())
    return made.hexdigest()


def sum_of(folder, parts):
    """A sum of the files of these parts of a crate."""
    made = hashlib.sha256()
    for part in parts:
        for at, folders, files in os.walk(f"{folder}/{part}"):
            folders.sort()
            for name in sorted(files):
                with open(f"{at}/{name}", "rb") as it:
                    made.update(repr((f"{at}/{name}".removeprefix(folder), it.read())).encode())
    return made.hexdigest()


class Crate(rt.Crate):
    """A crate whose library stands in the store."""

    def below(self):
        """As the kit's, but each crate is asked once."""
        if "found" not in self.__dict__:
            found = {}
            for dep in self.deps:
                found.update({it.name: it for it in [*dep.below(), dep]})
            self.found = [*found.values()]
        return self.found

    def stamp(self):
        """A sum of the text of the crate, of those below it and of the kit."""
        if "sum" not in self.__dict__:
            own = [kit_sum(), self.name, sorted(self.of_kit), sum_of(self.folder, ("src", "specs", "proofs"))]
            made = repr([*own, sorted((it.name, it.stamp()) for it in self.below())])
            self.sum = hashlib.sha256(made.encode()).hexdigest()
        return self.sum

    @property
    def kept(self):
        """Where its library and its marks are kept."""
        return f"{STORE}/{self.name}/{self.stamp()[:24]}"

    @property
    def rlib(self):
        """Where its library stands, or is being made (`made_at`)."""
        return self.__dict__.get("made_at") or f"{self.kept}/{self.name}.rlib"

    @rlib.setter
    def rlib(self, _):
        pass

    @property
    def made(self):
        """What is kept of its proof: the program, or the library."""
        return f"{self.kept}/{self.name}" if self.is_program else f"{self.kept}/{self.name}.rlib"

    def mark(self, part):
        """The file that says that a part passed. It has its processor seconds, its seconds by the clock, and the most
        memory that one of its processes had, in bytes."""
        if part == "proof":
            return f"{self.kept}/proof"
        of = {"tests": ("src",), "edits": ("must-fail",)}[part]
        return f"{self.kept}/{part}-{sum_of(self.folder, of)[:16]}"

    def is_kept(self, part):
        return os.path.isfile(self.mark(part)) and (part != "proof" or os.path.exists(self.made))

    def keep_library(self, made):
        """Puts a library that was made in the store into its place."""
        shutil.rmtree(self.rlib, ignore_errors=True)
        with contextlib.suppress(FileNotFoundError):
            os.remove(f"{self.kept}/sum")
        os.rename(made, self.rlib)

    def built_sum(self):
        """The sum of the library that is kept, as the kit makes it for the keys of the crates above; a program has none
        above."""
        if self.is_program:
            return "program"
        known = rtlib.text_of(f"{self.kept}/sum")
        if not known:
            files = [f"{at}/{name}" for at, _, names in os.walk(self.made) for name in names]
            named = {f"rlib/{self.name}.rlib/{os.path.relpath(it, self.made)}": it for it in files}
            known = hashlib.sha256(repr([(it, rtlib.sum_of(named[it])) for it in sorted(named)]).encode()).hexdigest()
            write_anew(f"{self.kept}/sum", known)
        return known


def write_anew(file, text):
    """Writes a file in one step."""
    with open(f"{file}.{os.getpid()}", "w", encoding="utf-8") as it:
        it.write(text)
    os.replace(f"{file}.{os.getpid()}", file)


class KitStore:
    """What runs of `rt ci` kept on this machine, where the kit keeps anything."""

    def __init__(self):
        self.kept = rt.Kept([]) if hasattr(rt, "Kept") else None

    def give(self, crates, wanted=None):
        """Has the store of tools/prove.py keep each of these crates, lowest first, that the kit keeps, or, where names
        are given, each of these names. All that is below one of the crates has to be among them."""
        for it in crates if self.kept else ():
            if it.name not in self.kept.rlibs and all(low.name in self.kept.rlibs for low in it.below()):
                found = it.built_sum() if it.is_kept("proof") else self.told_sum(it)
                if found and not it.is_kept("proof") and (wanted is None or it.name in wanted):
                    with contextlib.suppress(OSError):
                        self.give_one(it, found)
                if found:
                    self.kept.rlibs[it.name] = found

    def told_sum(self, crate):
        """The sum of what the kit keeps of a crate, as its list of files tells it; none where it keeps nothing."""
        try:
            key = self.kept.key(crate)
            made = json.loads(rtlib.text_of(f"{self.kept.place(crate, False, key)}/made.json") or "{}")
            rows = [(path, sum) for path, sum in made["files"]] if made.get("key") == key else []
            return hashlib.sha256(repr(rows).encode()).hexdigest() if rows else None
        except (OSError, ValueError, KeyError, TypeError):
            return None

    def give_one(self, crate, found):
        os.makedirs(crate.kept, exist_ok=True)
        with tempfile.TemporaryDirectory(prefix="making-", dir=crate.kept) as room:
            # (the kit gives a crate its files in the folder out/ of the crate's own, and holds each to its sum)
            to = types.SimpleNamespace(name=crate.name, folder=room, is_program=crate.is_program, is_static=False)
            os.mkdir(f"{room}/out")
            if not self.kept.give(to, False, self.kept.key(crate)):
                return
            if crate.is_program:
                for ending in rt.BACKENDS.values():
                    os.replace(f"{room}/out/{crate.name}{ending}", f"{crate.kept}/{crate.name}{ending}")
            else:
                crate.keep_library(f"{room}/out/rlib/{crate.name}.rlib")
                write_anew(f"{crate.kept}/sum", found)
            # (it has no numbers: nothing was measured)
            write_anew(crate.mark("proof"), "of the kit's store")


def read_crates(root):
    """The crates of the repository at this folder, each behind those below it."""
    Crate.cuts_libraries = True
    rtlib.stop, rtlib.Crate = rt.stop, Crate
    rt.Crate.allowed = rt.handles_of(root)
    rtlib.guarded()
    crates = rtlib.crates_below(f"{root}/crates")
    return sorted(crates, key=lambda it: len(it.below()))


def crate_named(root, name):
    found = [it for it in read_crates(root) if it.name == name]
    if not found:
        sys.exit(f"no crate is named {name}")
    return found[0]


def numbers_of(mark):
    """The numbers of a mark: processor seconds, seconds by the clock, bytes of memory; none where it is no mark."""
    row = (rtlib.text_of(mark) or "").split()
    return [int(it) for it in row] if len(row) == 3 and all(it.isdigit() for it in row) else None


def marks_of_any_text(name, part):
    """The numbers of all marks of a part of a crate, over whatever text, the newest first."""
    folder, found = f"{STORE}/{name}", []
    for text in os.listdir(folder) if os.path.isdir(folder) else []:
        for file in os.listdir(f"{folder}/{text}"):
            numbers = numbers_of(f"{folder}/{text}/{file}") if file.partition("-")[0] == part else None
            if numbers:
                found.append((os.path.getmtime(f"{folder}/{text}/{file}"), numbers))
    return [numbers for _, numbers in sorted(found, reverse=True)]
