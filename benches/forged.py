#!/usr/bin/env python3
"""Certificates in which something is changed, and what `check` answers to them.

    benches/forged.py PROGRAM [CHECKER] [--jobs N] [--only rows|trips|changes|large]

PROGRAM is the built analyser (./analyse --program), and CHECKER the built program check_main, by default PROGRAM with
the word `check`. It tries

    rows      certificates with one thing changed, whose answers were worked out by hand
    trips     what `certify` writes of a source: `check` has to answer what `analyse` does, and `certified`
    changes   three certificates with each byte changed in turn, and each line left out, doubled, and swapped with the
              next. An answer is the refusal that `analyse` has of the source in the text, `refused certificate`, the
              uncovered edge or store, or `certified` with a report that lists all that `analyse` lists of that source
    large     64 MiB of text of several kinds, of which none is a certificate, with the seconds and MB that each takes

and writes a line for each answer that is another one, and at last how many there were. The status is 1 where there were
any. GNU time has to be installed."""
import argparse
import concurrent.futures
import os
import re
import subprocess
import sys
import tempfile

LIMIT = 67108864
# seconds that an answer to 64 MiB may take
LONGEST = 60
NONE = (2, b"refused certificate\n")
TOO_LONG = (2, b"refused Limit certificate 67108864\n")
HEAD = re.compile(rb"tmcert 1\nsource (0|[1-9][0-9]{0,19})\n")

DIVISION = b"""tmcert 1
source 37
int x;
__task(1) void t(void){x=1/x;}
task 0
node 0
c 0 i 0 0 0
node 1
t 0 p 0 0 0 0 0 0
c 0 i 0 0 0
node 2
t 0 p 0 0 0 0 0 0
t 1 i 1 1 0
c 0 i 0 0 0
node 3
t 0 p 0 0 0 0 0 0
t 1 i 1 1 0
t 2 p 0 0 0 0 0 0
c 0 i 0 0 0
node 4
t 0 p 0 0 0 0 0 0
t 1 i 1 1 0
t 3 i 0 0 0
c 0 i 0 0 0
k 3 0
store
end
"""
STORED = b"""tmcert 1
source 35
int x;
__task(1) void t(void){x=1;}
task 0
node 0
c 0 i 0 0 0
node 1
t 0 p 0 0 0 0 0 0
c 0 i 0 0 0
node 2
t 0 p 0 0 0 0 0 0
t 1 i 1 1 0
c 0 i 0 0 0
node 3
c 0 i 1 1 0
f 0
store
w 0 0 0 i 1 1 0
end
"""
# how `check` answers to those two
DIVIDES = (1, b"2:27 DIV\nalarms 1\ncertified\n")
CLEAN = (0, b"alarms 0\ncertified\n")


def uncovered(edge):
    return 1, b"uncovered " + edge + b"\n"


# Whole texts.
TEXTS = [
    (b"tmcert 1\nsource 0\n\nstore\nend\n", CLEAN),
    (DIVISION, DIVIDES),
    (STORED, CLEAN),
    # no state at the entry of a task, or of the initial section, which has the number of tasks
    (b"tmcert 1\nsource 24\n__task(1) void t(void){}\ntask 0\nstore\nend\n", uncovered(b"0 0")),
    (b"tmcert 1\nsource 25\nint main(void){return 0;}\ntask 0\nstore\nend\n", uncovered(b"0 0")),
    (b"tmcert 1\nsource 25\nint main(void){return 0;}\nstore\nend\n", NONE),
    # no head
    (b"", NONE),
    (b"tmcert 2\n", NONE),
    (b"tmcert 1\n", NONE),
    (b"tmcert 1\nsource 0\n", NONE),
    (b"tmcert 1\nsource 0", NONE),
    (b"tmcert 1\nsource 00\n\nstore\nend\n", NONE),
    (b"tmcert 1\nsource -0\n\nstore\nend\n", NONE),
    (b"tmcert 1\nsource 1\n\nstore\nend\n", NONE),
    (b"tmcert 1\nsource 18446744073709551615\n\nstore\nend\n", NONE),
    (b"tmcert 1\nsource 18446744073709551616\n\nstore\nend\n", NONE),
    (b" tmcert 1\nsource 0\n\nstore\nend\n", NONE),
    # a source that is refused, before what is told of its program is read
    (b"tmcert 1\nsource 5\nint x\nstore\nend\n", (2, b"1:5 refused Syntax\n")),
    (b"tmcert 1\nsource 10\nint x;/* x\n", (2, b"1:7 refused Lexical\n")),
    (b"tmcert 1\nsource 16\nchar a[65536],b;\nend\n", (2, b"refused Limit cells 65536\n")),
    # a source that is accepted, and nothing told of its program
    (b"tmcert 1\nsource 0\n\n", NONE),
    # too long by a byte, and not too long
    (b" " * (LIMIT + 1), TOO_LONG),
    (b" " * LIMIT, NONE),
]

# What stands in the certificate of the division for the first time, and what stands there in its place.
CHANGES = [
    # numbers in another spelling
    (b"source 37", b"source 037", NONE),
    (b"source 37", b"source 36", NONE),
    (b"source 37", b"source 38", NONE),
    (b"c 0 i 0 0 0", b"c 0 i 00 0 0", NONE),
    (b"c 0 i 0 0 0", b"c 0 i -0 0 0", NONE),
    (b"c 0 i 0 0 0", b"c 0 i +0 0 0", NONE),
    (b"c 0 i 0 0 0", b"c 00 i 0 0 0", NONE),
    (b"node 1", b"node 01", NONE),
    # sets of numbers in another spelling, or that are none, or that no int has
    (b"c 0 i 0 0 0", b"c 0 i 3 5 0", NONE),
    (b"c 0 i 0 0 0", b"c 0 i 3 3 1", NONE),
    (b"c 0 i 0 0 0", b"c 0 i 5 3 2", NONE),
    (b"c 0 i 0 0 0", b"c 0 i 0 9 4", NONE),
    (b"c 0 i 0 0 0", b"c 0 i 0 9 -3", NONE),
    (b"c 0 i 0 0 0", b"c 0 i 0 2147483648 1", NONE),
    (b"c 0 i 0 0 0", b"c 0 i -2147483649 0 1", NONE),
    (b"c 0 i 0 0 0", b"c 0 i 0 0", NONE),
    (b"c 0 i 0 0 0", b"c 0 i 0 0 0 0", NONE),
    (b"c 0 i 0 0 0", b"c 0 p 1 0", NONE),
    (b"c 0 i 0 0 0", b"c 0 q 0 0 0", NONE),
    # a constant is what it is
    (b"t 1 i 1 1 0", b"t 1 i 1 2 1", NONE),
    # spaces and the ends of lines
    (b"c 0 i 0 0 0", b"c  0 i 0 0 0", NONE),
    (b"c 0 i 0 0 0", b"c 0 i 0 0 0 ", NONE),
    (b"c 0 i 0 0 0", b" c 0 i 0 0 0", NONE),
    (b"c 0 i 0 0 0", b"c\t0 i 0 0 0", NONE),
    (b"node 1\n", b"node 1\n\n", NONE),
    (b"node 1\n", b"node 1\r\n", NONE),
    (b"end\n", b"end", NONE),
    (b"end\n", b"end\n\n", NONE),
    (b"end\n", b"end\nx", NONE),
    (b"end\n", b"end\nend\n", NONE),
    # lines out of order, twice, unknown or left out
    (b"t 0 p 0 0 0 0 0 0\nt 1 i 1 1 0\n", b"t 1 i 1 1 0\nt 0 p 0 0 0 0 0 0\n", NONE),
    (b"node 4", b"node 3", NONE),
    (b"node 4", b"node 7", NONE),
    (b"node 1\nt 0", b"node 1\nnode 1\nt 0", NONE),
    (b"task 0", b"task 1", NONE),
    (b"task 0\n", b"task 0\ntask 0\n", NONE),
    (b"task 0\n", b"task 0\ntask 1\n", NONE),
    (b"task 0\n", b"", NONE),
    (b"store\n", b"", NONE),
    (b"t 1 i 1 1 0\n", b"", NONE),
    (b"t 1 i 1 1 0\n", b"t 1 i 1 1 0\nt 2 i 1 1 0\n", NONE),
    (b"c 0 i 0 0 0\n", b"", NONE),
    (b"c 0 i 0 0 0\n", b"c 0 i 0 0 0\nc 1 i 0 0 0\n", NONE),
    (b"c 0 i 0 0 0\n", b"c 0 i 0 0 0\nc 0 i 0 0 0\n", NONE),
    (b"c 0 i 0 0 0\n", b"c 0 i 0 0 0\nz 0\n", NONE),
    (b"k 3 0\n", b"k 3 0\nk 3 0\n", NONE),
    (b"k 3 0\n", b"k 2 0\n", NONE),
    (b"k 3 0\n", b"k 3 1\n", NONE),
    # pointers: an object twice, one that is not there, offsets beyond its size, none, and no such mark
    (b"t 0 p 0 0 0 0 0 0", b"t 0 p 0 0 0 0 0 0 0 0 0 0", NONE),
    (b"t 0 p 0 0 0 0 0 0", b"t 0 p 0 0 5 0 0 0", NONE),
    (b"t 0 p 0 0 0 0 0 0", b"t 0 p 0 0 0 2 2 0", NONE),
    (b"t 0 p 0 0 0 0 0 0", b"t 0 p 0 0 0 -1 -1 0", NONE),
    (b"t 0 p 0 0 0 0 0 0", b"t 0 p 0 0", NONE),
    (b"t 0 p 0 0 0 0 0 0", b"t 0 p 2 0 0 0 0 0", NONE),
    # mutexes that are not there, and a store into a local cell where there is none
    (b"c 0 i 0 0 0\nnode 2", b"c 0 i 0 0 0\np 0 1\nnode 2", NONE),
    (b"c 0 i 0 0 0\nnode 2", b"c 0 i 0 0 0\np 0 0\nnode 2", NONE),
    (b"c 0 i 0 0 0\nnode 2", b"c 0 i 0 0 0\ns 0\nnode 2", NONE),
    # the store
    (b"store\n", b"store\nw 0 0 0 e\n", NONE),
    (b"store\n", b"store\nw 1 0 0 i 0 0 0\n", NONE),
    (b"store\n", b"store\nw 0 1 0 i 0 0 0\n", NONE),
    (b"store\n", b"store\nw 0 0 1 i 0 0 0\n", NONE),
    (b"store\n", b"store\ny 0 0 0 i 0 0 0\n", NONE),
    # what is larger than it has to be, or tells less, is a solution too
    (b"store\n", b"store\nw 0 0 0 i 0 0 0\n", DIVIDES),
    (b"k 3 0\n", b"", DIVIDES),
    # what does not cover what comes to it: the entry, and edges by their numbers
    (b"c 0 i 0 0 0", b"c 0 i 1 1 0", uncovered(b"0 0")),
    (b"c 0 i 0 0 0", b"c 0 i 0 9 1", uncovered(b"0 1")),
    (b"node 4\nt 0 p 0 0 0 0 0 0\nt 1 i 1 1 0\nt 3 i 0 0 0\nc 0 i 0 0 0\nk 3 0\n", b"", uncovered(b"0 4")),
    (b"t 3 i 0 0 0", b"t 3 i 1 1 0", uncovered(b"0 4")),
    (b"t 3 i 0 0 0", b"t 3 i 0 9 1", uncovered(b"0 5")),
]

# Sources, one for each kind of line: mutexes, an initial section, pointers, locals, and what is handed over.
SOURCES = [
    b"",
    b"int x;\n__task(1) void t(void){x=1/x;}",
    b"__mutex m;int buf[10];int n;\n"
    b"__task(1) void a(void){__lock(m);if(n<10){buf[n]=1;n=n+1;}__unlock(m);}\n"
    b"__task(1) void b(void){__lock(m);if(n<10){buf[n]=1;n=n+1;}__unlock(m);}",
    b"__mutex m;int buf[10];int n;\n"
    b"__task(1) void a(void){if(n<10){buf[n]=1;n=n+1;}}\n"
    b"__task(1) void b(void){if(n<10){buf[n]=1;n=n+1;}}",
    b"int x;int r;int main(void){x=5;return 0;}\n__task(1) void t(void){r=10/x;}",
    b"int a[4];\n__task(1) void t(void){int i;for(i=0;i<=4;i++)a[i]=i;}",
    b"int x;__task(1) void t(void){int *p;p=&x;p=p+2;*p=1;}",
    b"__mutex m;int x=1;int r;\n"
    b"__task(2) void hi(void){if(!__islocked(m))r=10/x;}\n"
    b"__task(1) void lo(void){__lock(m);x=0;x=1;__unlock(m);}",
    b"__mutex m;\n__task(1) void t(void){__lock(m);__lock(m);}",
]

# Those that are changed byte by byte: locals, pending mutexes and entries of both kinds; an initial section, pointers.
CHANGED = [
    b"__mutex m;int x;\n__task(1) void a(void){int v=x;__lock(m);x=v;__unlock(m);}\n__task(2) void b(void){x=2;}",
    b"int x;int r;int *p;int main(void){p=&x;return 0;}\n__task(1) void t(void){if(x)r=10/x;*p=1;}",
]


class Tried:
    """The programs, and what was found wrong."""

    def __init__(self, program, checker, jobs):
        self.analyser = [program]
        self.checker = [checker] if checker else [program, "check"]
        self.pool = concurrent.futures.ThreadPoolExecutor(jobs)
        self.answers, self.count, self.wrong = {}, 0, 0

    def run(self, words, text):
        how = {"stdout": subprocess.PIPE, "stderr": subprocess.DEVNULL, "timeout": 600, "check": False}
        done = subprocess.run(words, input=text, **how)
        return done.returncode, done.stdout

    def check(self, text):
        return self.run(self.checker, text)

    def analyse(self, source):
        if source not in self.answers:
            self.answers[source] = self.run(self.analyser + ["analyse"], source)
        return self.answers[source]

    def tell(self, what, wanted, got):
        self.count += 1
        if wanted != got:
            self.wrong += 1
            print(f"{what}: wanted {shown(wanted)} and not {shown(got)}", flush=True)

    def certificate(self, source):
        status, text = self.run(self.analyser + ["certify"], source)
        self.tell(f"certify of {shown(source)}", 0, status)
        return text


def shown(what):
    text = repr(what)
    return text if len(text) <= 200 else text[:200] + ".."


def try_rows(tried):
    texts = [*TEXTS, *((DIVISION.replace(old, new, 1), wanted) for old, new, wanted in CHANGES)]
    for old, _, _ in CHANGES:
        assert old in DIVISION, old
    texts.append((DIVISION.replace(b"c 0 i 0 0 0", b"c 0 i 0 1 1"), uncovered(b"0 4")))
    texts.append((STORED.replace(b"w 0 0 0 i 1 1 0\n", b""), uncovered(b"store")))
    texts.append((STORED.replace(b"w 0 0 0 i 1 1 0\n", b"w 0 0 0 i 0 1 1\n"), CLEAN))
    for (text, wanted), got in zip(texts, tried.pool.map(tried.check, [it for it, _ in texts])):
        tried.tell(f"check of {shown(text)}", wanted, got)


def try_trips(tried):
    top = os.path.dirname(os.path.dirname(os.path.abspath(__file__)))
    sources = [*SOURCES, *CHANGED]
    for name in sorted(os.listdir(f"{top}/examples")):
        if name.endswith(".c"):
            with open(f"{top}/examples/{name}", "rb") as it:
                sources.append(it.read())
    for number in (1, 5, 20):
        sources.append(tried.run(tried.analyser + ["generate", str(number)], b"")[1])
    for source in sources:
        status, report = tried.analyse(source)
        wanted = (status, report + b"certified\n")
        tried.tell(f"certified {shown(source)}", wanted, tried.check(tried.certificate(source)))


def source_of(text):
    """The source in a text, or None."""
    head = HEAD.match(text)
    if not head:
        return None
    end = head.end() + int(head.group(1))
    return text[head.end():end] if text[end:end + 1] == b"\n" else None


def is_sound(tried, text, answer):
    """Whether an answer is one that the text may have."""
    source = source_of(text)
    if source is None:
        return answer == NONE
    status, report = tried.analyse(source)
    if status == 2:
        return answer == (status, report)
    if answer == NONE or answer[0] == 1 and re.fullmatch(rb"uncovered (store|\d+ \d+)\n", answer[1]):
        return True
    found = answer[1].split(b"\n")
    alarms = found[:-3]
    return (found[-2:] == [b"certified", b""] and found[-3] == b"alarms %d" % len(alarms)
            and answer[0] == (1 if alarms else 0) and set(report.split(b"\n")[:-2]) <= set(alarms))


def changed(text):
    """The text with one byte or line changed."""
    for at, byte in enumerate(text):
        for other in {byte ^ 1, (byte + 1) & 255, 32, 57} - {byte}:
            yield text[:at] + bytes([other]) + text[at + 1:]
        yield text[:at] + text[at + 1:]
    lines = text.splitlines(keepends=True)
    for at, line in enumerate(lines):
        front, behind = b"".join(lines[:at]), b"".join(lines[at + 1:])
        yield front + behind
        yield front + line + line + behind
        if at + 1 < len(lines):
            yield front + lines[at + 1] + line + b"".join(lines[at + 2:])


def kind_of(answer):
    """What an answer says, in a word or two."""
    if answer[0] == 2:
        return "no certificate" if answer == NONE else "of a source that is refused"
    return "certified" if answer[1].endswith(b"certified\n") else "uncovered"


def try_changes(tried):
    for text in [DIVISION, *(tried.certificate(it) for it in CHANGED)]:
        texts = [it for it in changed(text) if it != text]
        kinds = {}
        for it, answer in zip(texts, tried.pool.map(tried.check, texts)):
            kind = kind_of(answer)
            kinds[kind] = kinds.get(kind, 0) + 1
            got = "a sound answer" if is_sound(tried, it, answer) else answer
            tried.tell(f"check of {shown(it)}", "a sound answer", got)
        told = ", ".join(f"{count} {kind}" for kind, count in sorted(kinds.items()))
        print(f"a certificate of {len(text)} bytes, changed: {told}", flush=True)


def filled(front, piece):
    return (front + piece * ((LIMIT - len(front)) // len(piece) + 1))[:LIMIT]


def large_texts():
    begun = DIVISION[:DIVISION.index(b"node 1")]
    source = b"int x;__task(1) void t(void){}"
    head = b"tmcert 1\nsource %d\n" % len(source) + source + b"\n"
    pointers = b"int *p;__task(1) void t(void){p=0;}"
    pointed = b"tmcert 1\nsource %d\n" % len(pointers) + pointers + b"\ntask 0\nnode 0\nc 0 p 1 0 "
    yield "blanks", filled(b"", b" ")
    yield "line ends", filled(b"", b"\n")
    yield "bytes 0", filled(b"", b"\0")
    yield "digits of the length", filled(b"tmcert 1\nsource ", b"1")
    yield "a source of blanks", filled(b"tmcert 1\nsource %d\n" % (LIMIT - 40), b" ")[:LIMIT - 21] + b"\n" + b" " * 20
    yield "blanks behind the source", filled(head, b" ")
    yield "one word", filled(head, b"a")
    yield "words", filled(head, b"a ")
    yield "digits of a number", filled(begun + b"c 0 i ", b"1")
    yield "numbers", filled(begun + b"c 0 i ", b"0 ")
    yield "lines of one cell", filled(begun, b"c 0 i 0 0 0\n")
    yield "marks", filled(begun, b"f 0\n")
    yield "nodes", filled(begun, b"node 1\n")
    yield "tasks", filled(head, b"task 0\n")
    yield "objects", filled(pointed, b"0 0 0 0 ")
    yield "rising objects", filled(pointed, b" ".join(b"%d 0 0 0" % it for it in range(4_000_000)))
    yield "weak entries", filled(head + b"task 0\nstore\n", b"w 0 0 0 i 0 0 0\n")
    yield "bytes behind the end", filled(STORED, b"x")
    yield "a certificate again and again", filled(b"", STORED)


def try_large(tried):
    print(f"{'text':30} {'seconds':>8} {'MB':>6}  answer", flush=True)
    with tempfile.TemporaryDirectory() as folder:
        for name, text in large_texts():
            with open(f"{folder}/text", "wb") as it:
                it.write(text)
            words = ["env", "time", "-o", f"{folder}/told", "-f", "%U %S %M", *tried.checker]
            with open(f"{folder}/text", "rb") as text:
                done = subprocess.run(words, stdin=text, stdout=subprocess.PIPE, stderr=subprocess.DEVNULL, check=False)
            with open(f"{folder}/told", encoding="ascii") as it:
                told = it.read().split("\n")[-2].split()
            seconds, status, answer = float(told[0]) + float(told[1]), done.returncode, done.stdout
            print(f"{name:30} {seconds:8.2f} {int(told[2]) / 1024:6.0f}  {answer.decode()}", end="", flush=True)
            is_refusal = status == 2 and answer in (NONE[1], b"refused Limit source 1048576\n")
            got = "a refusal in time" if is_refusal and seconds <= LONGEST else (status, answer, seconds)
            tried.tell(name, "a refusal in time", got)


def main():
    words = argparse.ArgumentParser(usage=__doc__.split("\n")[2].strip())
    words.add_argument("program")
    words.add_argument("checker", nargs="?")
    words.add_argument("--jobs", type=int, default=os.cpu_count())
    words.add_argument("--only", choices=("rows", "trips", "changes", "large"))
    asked = words.parse_args()
    tried = Tried(os.path.realpath(asked.program), asked.checker and os.path.realpath(asked.checker), asked.jobs)
    for name, part in (("rows", try_rows), ("trips", try_trips), ("changes", try_changes), ("large", try_large)):
        if asked.only in (None, name):
            part(tried)
    print(f"{tried.count} answers, {tried.wrong} wrong")
    return 1 if tried.wrong else 0


if __name__ == "__main__":
    sys.exit(main())
