#!/usr/bin/env python3
"""Tries the list of assumptions against what compilers make of random programs.

    benches/assumptions.py ANALYSER [PROGRAMS [SEED]]

ANALYSER is the built analyse_main. Each program (1,000, where PROGRAMS does not say another number) has one task
over shared numbers, arrays, structures, enumerations and functions, and aims at what C99 leaves open: operands with
effects, pointers that walk through objects, blocks that end, objects that are never set, enumerations beside negative
numbers, names of the library. gcc and clang compile it at -O0, -O1 and -O2; what the objects of static storage hold at its end
is compared between these, and with the ranges that the analyser tells. A program whose report is empty and whose list
has nothing but IMPLEMENTATION has to end everywhere, with the same numbers, each in its range. The status is 1 where
one does not. Told are also how many of the others deviate, by the kinds in their lists.

A hundred programs are compiled as one text, in which each has names of its own and runs in a process of its own: so ten
thousand of them take minutes. One that defines a name of the library is compiled alone."""
import collections
import concurrent.futures
import os
import random
import re
import subprocess
import sys
import tempfile

BUILDS = [(compiler, level) for compiler in ("gcc", "clang") for level in ("-O0", "-O1", "-O2")]
QUIET = ["-w", "-std=gnu99", "-fno-stack-protector", "-D__task(n)="]
ENUMERATED = [
    "e = x & 3;", "e = (x & 3) - 1;", "d.k = y & 1;", "d.k = z - 4;", "x = e - 1 < 0;", "y = e > (z & 7) - 3;", "w = e;",
    "w = e - 2;", "w = d.k + 1;", "z = (d.k | 8) / 2 & 7;", "x = lit(y & 1) >= -1;", "y = lit(e) + 5 & 15;", "e--;", "d.k++;",
    "e = (enum level)(y & 1);", "x = (int)e - 1 < 0;", "{ enum level *q = &d.k; *q = x & 1; }", "w = (x & 1 ? e : 7) + 1;",
    "{ struct lamp f = { y & 1, 2 }; z = f.k + f.v & 7; }",
]
TOGETHER = 100
OWN = re.compile(r"\b(x|y|z|i|a|b|s|c|e|d|w|f|g|h|t|lit|pair|level|lamp|LOW|HIGH|TOP)\b")
HOLES = ["order", "member", "lifetime", "unset", "const", "enumeration"]


class Program:
    """A random program: its text, and the names of its numbers with the expressions that read them."""

    def __init__(self, draw):
        self.draw, self.holes = draw, draw.sample(HOLES, 2)
        if draw.random() < 0.1:
            self.holes[0] = "reserved"
        head = ["int x, y, z = 3, i;", "int a[4], b[4];", "struct pair { int k[2]; int l[2]; } s;"]
        if "const" in self.holes:
            head.append("const int c = 4;")
        if "enumeration" in self.holes:
            head += ["enum level { LOW, HIGH, TOP } e = HIGH;", "struct lamp { enum level k; int v; } d;", "long long w;"]
            head.append("enum level lit(enum level k) { return k; }")
        head.append("int f(void) { x = x + 1 & 255; return 1; }")
        head.append("int g(int v) { y = v & 63; return x & 7; }")
        head.append("int h(int v, int w) { return v + 2 * w & 255; }")
        self.named = draw.choice(["int abs", "int ffs", "static int abs"]) if "reserved" in self.holes else "int g"
        if "reserved" in self.holes:
            head.append(f"{self.named}(int v) {{ return 5; }}")
        body = [self.statement(0) for _ in range(draw.randint(2, 6))]
        self.text = "\n".join(head) + "\n__task(1) void t(void)\n{\n    int n = 1, m, *p = 0;\n    m = 2;\n" + "".join(body) + "}\n"
        self.cells = ["x", "y", "z", "i", *(["e", "d.k", "d.v", "w"] if "enumeration" in self.holes else []), *(f"{name}[{at}]" for name in ("a", "b", "s.k", "s.l") for at in range(4 if name in "ab" else 2))]

    def value(self, depth):
        draw = self.draw
        plain = ["1", "5", "n", "m", "x", "y", "z", "i", "a[1]", "b[i & 3]", "s.k[n & 1]", "s.l[0]"]
        if depth > 2 or draw.random() < 0.4:
            return draw.choice(plain)
        one, other = self.value(depth + 1), self.value(depth + 1)
        forms = [f"({one} + {other} & 127)", f"({one} - {other} & 31)", f"({one} < {other})", f"h({one} & 15, {other} & 15)"]
        if "order" in self.holes:
            forms += [f"(f() + {one} & 127)", f"(g({one} & 15) + f() & 63)", f"h(f(), {one} & 15)", f"h(g({one} & 7), f())",
                      f"((i = {one} & 3) + {other} & 63)", f"(i++ + {other} & 63)"]
        return draw.choice(forms)

    def target(self):
        names = ["x", "y", "z", "n", "m", "a[n & 3]", "b[1]", "s.k[1]", "s.l[x & 1]"]
        if "order" in self.holes:
            names += ["a[i & 3]", "b[i++ & 3]", "a[f() & 3]"]
        return self.draw.choice(names)

    def statement(self, depth):
        draw, pad = self.draw, "    " * (depth + 1)
        forms = ["set", "set", "change", "if", "for"] + self.holes * 2
        kind = draw.choice(forms if depth < 2 else ["set", "change"])
        if kind == "set":
            return f"{pad}{self.target()} = {self.value(0)} & 255;\n"
        if kind == "change":
            return f"{pad}{draw.choice(['x', 'y', 'z', 'a[2]', 's.k[0]'])} {draw.choice(['&=', '^=', '|='])} {self.value(0)} & 255;\n"
        if kind == "if":
            return f"{pad}if ({self.value(1)}) {{\n{self.statement(depth + 1)}{pad}}}\n"
        if kind == "for":
            return f"{pad}for (i = 0; i < {draw.randint(1, 4)}; i++) {{\n{self.plain(pad)}{pad}}}\n"
        return self.hole(kind, pad)

    def plain(self, pad):
        return f"{pad}    {self.draw.choice(['a[i] = x & 63;', 'b[i] = i;', 'y = y + i & 255;', 's.k[i & 1] = y & 31;'])}\n"

    def hole(self, kind, pad):
        draw = self.draw
        if kind == "order":
            return f"{pad}{draw.choice(['x = x + f() & 255;', 'x += f();', 'i = i++ & 3;', 'a[i & 3] = i = 1;', 'y = (x = 2) + x & 63;', 'z = h(f(), g(3));', 'n = f(); x = x + n & 255;'])}\n"
        if kind == "member":
            return "".join(f"{pad}{line}\n" for line in draw.choice([
                ["p = s.k;", f"p = p + {draw.randint(0, 3)};", "if (x & 1) *p = 7;"],
                ["p = a;", f"p += {draw.randint(0, 3)};", "*p = 6;"],
                ["x = a + 4 == b;"],
                ["p = s.l;", "p--;", "*p = 3;"],
                ["p = &s.k[1];", "x = *p & 15;"],
            ]))
        if kind == "lifetime":
            return "".join(f"{pad}{line}\n" for line in draw.choice([
                ["{ int v = 5; p = &v; x = *p; }", "y = p != 0;"],
                ["{ int v = 5; p = &v; }", "x = *p & 15;"],
                ["{ int v = 6; p = &v; y = *p; p = &x; }", "*p = 9;"],
                ["for (i = 0; i < 2; i++) { int v = 7; if (i) y = *p & 15; p = &v; }", "p = 0;"],
            ]))
        if kind == "unset":
            return "".join(f"{pad}{line}\n" for line in draw.choice([
                ["{ int v; if (x & 1) v = 3; y = v & 15; }"],
                ["{ int v; v = 3; y = v & 15; }"],
                ["{ int w[2]; w[0] = 1; z = w[1] & 7; }"],
            ]))
        if kind == "enumeration":
            return f"{pad}{draw.choice(ENUMERATED)}\n"
        if kind == "const":
            return f"{pad}{draw.choice(['*(int *)&c = 5; x = c;', 'p = (int *)&c; x = *p & 15;', 'x = c & 15;'])}\n"
        return f"{pad}x = {self.named.split()[-1]}(z & 3) & 15;\n"


def answers(analyser, text):
    """The status of the report, and each text of `parts` by its name; or a refusal."""
    words = [analyser, "notes", "parts"]
    done = subprocess.run(words, input=text.encode(), stdout=subprocess.PIPE, stderr=subprocess.DEVNULL, check=False)
    rest, texts = done.stdout, {}
    while done.returncode < 2 and rest:
        head, _, rest = rest.partition(b"\n")
        name, _, count = head.decode().split()
        texts[name], rest = rest[: int(count)].decode(), rest[int(count) :]
    return done.returncode, texts, done.stdout.decode()


def driver(programs):
    """The texts of some programs, each with a number, and a main that runs each in a process of its own."""
    shown, calls = [], []
    for number, program in programs:
        own = (lambda text, number=number: OWN.sub(rf"\1_{number}", text)) if len(programs) > 1 else str
        shown.append(own(program.text))
        told = "".join(f' printf(" %lld", (long long){own(cell)});' for cell in program.cells)
        calls.append(f'static void show_{number}(void) {{ {own("t")}(); printf("{number}");{told} printf("\\n"); }}\n')
    tasks = ", ".join(f"show_{number}" for number, _ in programs)
    numbers = ", ".join(str(number) for number, _ in programs)
    return "\n".join(shown) + "\n#include <stdio.h>\n#include <unistd.h>\n#include <sys/wait.h>\n" + "".join(calls) + f"""
static void (*shows[])(void) = {{ {tasks} }};
static int numbers[] = {{ {numbers} }};
int main(void)
{{
    for (unsigned k = 0; k < sizeof shows / sizeof *shows; k++) {{
        printf("program %d\\n", numbers[k]);
        fflush(stdout);
        int child = fork();
        if (child == 0) {{
            alarm(5);
            shows[k]();
            fflush(stdout);
            _exit(0);
        }}
        waitpid(child, 0, 0);
    }}
    return 0;
}}
"""


def natively(folder, build, source):
    """What the objects of each program hold at its end, by its number; nothing of one that crashes or does not end."""
    program = os.path.join(folder, "-".join(build))
    compiled = subprocess.run([build[0], build[1], *QUIET, "-o", program, source], stderr=subprocess.PIPE, check=False)
    if compiled.returncode:
        sys.exit(f"{build[0]} refuses {source}:\n{compiled.stderr.decode()}")
    told = subprocess.run([program], stdout=subprocess.PIPE, check=False).stdout.decode(errors="replace")
    ends, present = {}, None
    for line in told.splitlines():
        words = line.split()
        if words[:1] == ["program"]:
            present = words[1]
        elif words[:1] == [present]:
            ends[int(present)] = words[1:]
    return ends


def ends_of(programs):
    """For each build what the programs end with."""
    with tempfile.TemporaryDirectory() as folder:
        source = os.path.join(folder, "programs.c")
        with open(source, "w", encoding="utf-8") as it:
            it.write(driver(programs))
        return [natively(folder, build, source) for build in BUILDS]


def is_outside(texts, program, numbers):
    """Whether one of the numbers is out of the range that the analyser tells."""
    ranges = {}
    for line in texts["ranges"].splitlines():
        words = line.split()
        if len(words) == 4:
            ranges[words[1]] = int(words[2]), int(words[3])
    for cell, number in zip(program.cells, numbers):
        low, high = ranges.get(cell.split("[")[0].split(".")[0], (-2**63, 2**63 - 1))
        if not low <= int(number) <= high:
            return True
    return False


def tried(analyser, seeds):
    """Of each program: the seed; its report; the kinds in the list; the builds deviate; a number is out of its range."""
    programs = [(seed, Program(random.Random(seed))) for seed in seeds]
    found, together, rows = {}, [], []
    for seed, program in programs:
        found[seed] = answers(analyser, program.text)
        if found[seed][0] < 2 and "reserved" not in program.holes:
            together.append((seed, program))
    groups = [together] if together else []
    groups += [[one] for one in programs if found[one[0]][0] < 2 and "reserved" in one[1].holes]
    for group in groups:
        ends = ends_of(group)
        for seed, program in group:
            status, texts, _ = found[seed]
            numbers = [end.get(seed) for end in ends]
            differ = any(end is None or end != numbers[0] for end in numbers)
            kinds = {line.split()[1] for line in texts["assumptions"].splitlines() if ":" in line}
            outside = status == 0 and not differ and is_outside(texts, program, numbers[0])
            rows.append((seed, "empty" if status == 0 else "alarms", kinds, differ, outside))
    for seed, _ in programs:
        status, _, whole = found[seed]
        if status >= 2:
            rows.append((seed, f"refused {status} {whole.strip()}", set(), False, False))
    return rows


def main():
    analyser = sys.argv[1]
    count = int(sys.argv[2]) if len(sys.argv) > 2 else 1000
    first = int(sys.argv[3]) if len(sys.argv) > 3 else 0
    sums, wrong, refusals = collections.Counter(), [], collections.Counter()
    by_kind = collections.Counter()
    with concurrent.futures.ThreadPoolExecutor(os.cpu_count()) as pool:
        batches = [range(at, min(at + TOGETHER, first + count)) for at in range(first, first + count, TOGETHER)]
        rows = (row for batch in pool.map(lambda it: tried(analyser, it), batches) for row in batch)
        for seed, report, kinds, differ, outside in rows:
            if report.startswith("refused"):
                refusals[report.split(" ", 2)[-1]] += 1
                continue
            listed = bool(kinds - {"IMPLEMENTATION"})
            sums[report, listed, differ] += 1
            if report == "empty":
                by_kind.update((kind, differ) for kind in kinds)
                if not listed and (differ or outside):
                    wrong.append(seed)
    for report, listed, differ in sorted(sums):
        print(f"report {report}, list {'not ' if listed else ''}empty, {'deviating' if differ else 'alike'}: {sums[report, listed, differ]}")
    for kind in sorted({kind for kind, _ in by_kind}):
        print(f"{kind}: in {by_kind[kind, True] + by_kind[kind, False]} sources with an empty report, {by_kind[kind, True]} deviate")
    for refusal, times in refusals.most_common(5):
        print(f"refused {refusal}: {times}")
    for seed in wrong:
        print(f"WRONG: the program with the seed {seed} deviates, and nothing tells it:\n{Program(random.Random(seed)).text}")
    sys.exit(bool(wrong))


if __name__ == "__main__":
    main()
