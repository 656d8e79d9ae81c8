#!/usr/bin/env python3
"""Joins made projects, and compares them with what a compiler and a linker make of their units.

    benches/units.py JOIN_UNITS [COUNT [SEED [ANALYSER]]]

JOIN_UNITS is the built program, and ANALYSER that of the analyser, which has to accept each joined text that gcc does.
A project has two to five units with a shared header, and names of a small pool, so that units have one name for many
things. Each is compiled apart and linked by gcc -m32, and joined and compiled as one: both print the same numbers. A
fifth of the projects have a fault: two definitions of one name, or a name that is static behind a declaration that is
not. These are refused by gcc, by its compiler or its linker, and by the program; and whatever the program refuses gcc
refuses too.
"""
import os
import random
import subprocess
import sys
import tempfile

POOL = ["rate", "count", "total", "limit", "state", "next", "node", "mode"]
START = r"""
static void put(unsigned v) {
    char text[9]; int k;
    for (k = 0; k < 8; k++) { unsigned d = (v >> (28 - 4 * k)) & 15; text[k] = d < 10 ? '0' + d : 'a' + d - 10; }
    text[8] = '\n';
    { int out; __asm__ volatile("int $0x80" : "=a"(out) : "a"(4), "b"(1), "c"(text), "d"(9) : "memory"); }
}
int project_run(void);
extern unsigned project_sum;
void _start(void) {
    int out; project_run(); put(project_sum);
    __asm__ volatile("int $0x80" : "=a"(out) : "a"(1), "b"(0)); for (;;) ;
}
"""
FLAGS = ["gcc", "-m32", "-std=c99", "-O1", "-w", "-fno-common", "-ffreestanding", "-fno-pie", "-fno-stack-protector"]


class Maker:
    def __init__(self, rnd, units):
        self.rnd = rnd
        self.units = units

    def header(self):
        """A header that all units include."""
        rnd = self.rnd
        self.shared_type = rnd.choice(["word", "number"])
        self.shared_tag = rnd.choice(["node", "pair"])
        self.shared_constant = rnd.choice(["LIMIT", "SIZE"])
        lines = ["#ifndef SHARED_H", "#define SHARED_H", f"typedef int {self.shared_type};",
                 f"struct {self.shared_tag};",
                 f"struct {self.shared_tag} {{ {self.shared_type} rate; int count; }};",
                 f"enum {{ {self.shared_constant} = {rnd.randint(2, 9)}, OTHER }};",
                 "extern unsigned project_sum;", "extern int shared_table[4];",
                 f"extern struct {self.shared_tag} shared_pair;",
                 f"static const int scale[2] = {{ {rnd.randint(1, 9)}, {rnd.randint(1, 9)} }};",
                 f"static inline int twice({self.shared_type} v) {{ static int calls; calls += 1; "
                 "return 2 * v + calls; }",
                 "void add(unsigned v);"]
        if rnd.random() < 0.5:
            lines.append("struct opaque;\nint opaque_value(struct opaque *p);\nextern struct opaque *the_opaque;")
            self.opaque = True
        else:
            self.opaque = False
        for k in range(1, self.units + 1):
            lines.append(f"int unit_{k}_run(int turn);")
        return "\n".join(lines + ["#endif", ""])

    def unit(self, k):
        """The text of a unit: declarations of its own, and a function that uses them."""
        rnd = self.rnd
        names = rnd.sample(POOL, len(POOL))
        before, lines, uses = [], ['#include "shared.h"'], []
        kinds = ["static", "static", "typedef", "enum", "tag", "function", "local", "extern_block", "parameter"]
        for name in names[: rnd.randint(3, 7)]:
            kind = rnd.choice(kinds)
            n = rnd.randint(1, 99)
            if kind == "static":
                lines.append(f"static int {name} = {n};" if rnd.random() < 0.6 else f"static int {name};")
                uses.append(f"{name} += turn + {n}; add({name});")
                if rnd.random() < 0.3:
                    uses.append(f"{{ extern int {name}; add({name} + 1); }}")
            elif kind == "typedef":
                lines.append(f"typedef {rnd.choice(['short', 'unsigned char', 'long'])} {name};")
                uses.append(f"{{ {name} v = ({name})(turn * {n}); add(v + sizeof({name})); }}")
            elif kind == "enum":
                lines.append(f"enum {{ {name} = {n}, {name}_more }};")
                uses.append(f"add({name} + {name}_more);")
            elif kind == "tag":
                if name == self.shared_tag:
                    uses.append(f"{{ struct {name} s = {{ {n}, turn }}; add(s.rate + s.count); }}")
                elif rnd.random() < 0.5:
                    member = rnd.choice(POOL)
                    lines.append(f"struct {name} {{ {rnd.choice(['int', 'short'])} {member}; int last; }};")
                    uses.append(f"{{ struct {name} s = {{ {n}, turn }}; struct {name} *p = &s; "
                                f"p->{member} += 1; add(s.{member} + p->last); add(sizeof(struct {name})); }}")
                else:
                    uses.append(f"{{ struct {name} *p; struct {name} {{ char c[{n}]; }} s; p = &s; s.c[0] = turn; "
                                "add(sizeof *p); }")
            elif kind == "function":
                lines.append(f"static int {name}(int {rnd.choice(['v', name])});" if rnd.random() < 0.3 else "")
                parameter = "v"
                lines.append(f"static int {name}(int {parameter}) {{ static int calls = {n}; calls += {parameter}; "
                             "return calls; }")
                uses.append(f"add({name}(turn));")
            elif kind == "local":
                uses.append(f"{{ int {name} = {n}; add({name} * turn); }}")
            elif kind == "parameter":
                before.append(f"static int unit_{k}_{name}(int {name}) {{ return {name} * {n}; }}")
                uses.append(f"add(unit_{k}_{name}(turn));")
            else:
                uses.append("{ extern int shared_table[4]; add(shared_table[turn & 3]); }")
        lines += before
        lines.append(f"static int own_{rnd.choice('ab')}[2] = {{ {k}, {k + 1} }};")
        if k == 1:
            lines += ["unsigned project_sum;", "void add(unsigned v) { project_sum = project_sum * 31u + v; }",
                      "int shared_table[4] = { 3, 1, 4, 1 };", f"struct {self.shared_tag} shared_pair;",
                      "int project_run(void) { int t; for (t = 0; t < 4; t++) {"
                      + " ".join(f"add(unit_{j}_run(t));" for j in range(1, self.units + 1)) + "} return 0; }"]
        if self.opaque and k == self.units:
            lines += ["struct opaque { int hidden; };", "static struct opaque it = { 5 };",
                      "struct opaque *the_opaque = &it;",
                      "int opaque_value(struct opaque *p) { return p->hidden++; }"]
        if self.opaque:
            uses.append("add(opaque_value(the_opaque));")
        uses.append(f"add(twice(turn) + scale[turn & 1] + {self.shared_constant});")
        uses.append(f"shared_pair.rate += turn; shared_pair.count += {k}; shared_table[turn & 3] += {k};")
        uses.append("add(shared_pair.rate + shared_pair.count);")
        rnd.shuffle(uses)
        body = "\n    ".join(uses)
        lines.append(f"int unit_{k}_run(int turn)\n{{\n    {body}\n    return {k};\n}}")
        return lines

    def fault(self, texts):
        """Puts a fault into some units."""
        rnd = self.rnd
        first, second = rnd.sample(range(self.units), 2)
        kind = rnd.choice(["object", "function", "tentative", "linkage", "mixed"])
        if kind == "object":
            texts[first].append("int faulty = 1;")
            texts[second].append("int faulty = 2;")
        elif kind == "function":
            texts[first].append("int faulty(void) { return 1; }")
            texts[second].append("int faulty(void) { return 2; }")
        elif kind == "tentative":
            texts[first].append("int faulty;")
            texts[second].append("int faulty;")
        elif kind == "mixed":
            texts[first].append("extern int faulty = 1;")
            texts[second].append("int faulty;")
        else:
            texts[first].append("extern int faulty;")
            texts[first].append("static int faulty = 2;")


def run(words, **more):
    return subprocess.run(words, stdout=subprocess.PIPE, stderr=subprocess.PIPE, check=False, **more)


def linked(folder, sources, name):
    """What the program of these sources prints, or None where gcc refuses them."""
    objects = []
    for source in sources:
        made = os.path.join(folder, f"{name}_{os.path.basename(source)}.o")
        if run(FLAGS + ["-c", source, "-o", made]).returncode != 0:
            return None
        objects.append(made)
    program = os.path.join(folder, name)
    start = os.path.join(folder, "start.c")
    if run(FLAGS + ["-nostdlib", "-static", "-no-pie", start, *objects, "-o", program]).returncode != 0:
        return None
    ran = run([program])
    return ran.stdout if ran.returncode == 0 else b"crashed"


def units_text(folder, sources):
    """The preprocessed units in the form in which `join_units` reads them."""
    text = b"#pragma units %d\n" % len(sources)
    for source in sources:
        made = run(["gcc", "-m32", "-std=c99", "-undef", "-nostdinc", "-E", source], cwd=folder).stdout
        text += b"#pragma unit\n" + made + (b"" if made.endswith(b"\n") else b"\n")
    return text


def main():
    program = os.path.abspath(sys.argv[1])
    count = int(sys.argv[2]) if len(sys.argv) > 2 else 200
    rnd = random.Random(int(sys.argv[3]) if len(sys.argv) > 3 else 41)
    analyser = os.path.abspath(sys.argv[4]) if len(sys.argv) > 4 else None
    agreed = refused = 0
    causes = {}
    with tempfile.TemporaryDirectory() as folder:
        with open(os.path.join(folder, "start.c"), "w") as out:
            out.write(START)
        for number in range(count):
            units = rnd.randint(2, 5)
            maker = Maker(rnd, units)
            with open(os.path.join(folder, "shared.h"), "w") as out:
                out.write(maker.header())
            texts = [maker.unit(k) for k in range(1, units + 1)]
            if rnd.random() < 0.2:
                maker.fault(texts)
            sources = []
            for k, lines in enumerate(texts):
                sources.append(os.path.join(folder, f"unit{k + 1}.c"))
                with open(sources[-1], "w") as out:
                    out.write("\n".join(lines) + "\n")
            apart = linked(folder, sources, "apart")
            given = units_text(folder, sources)
            joined = run([program], input=given)
            one = None
            if joined.returncode == 0:
                with open(os.path.join(folder, "one.c"), "wb") as out:
                    out.write(joined.stdout)
                one = linked(folder, [os.path.join(folder, "one.c")], "one")
            elif joined.returncode == 2:
                kind = joined.stdout.split(b"refused ")[1].split()[0].decode()
                causes[kind] = causes.get(kind, 0) + 1
            if one is not None and analyser is not None:
                answer = run([analyser, "analyse"], input=joined.stdout)
                if answer.returncode not in (0, 1):
                    print(f"project {number}: the analyser says {answer.stdout[:80]}")
                    one = b"refused"
            if one != apart or joined.returncode not in (0, 2):
                print(f"project {number}: apart {apart}, joined {one}, status {joined.returncode} {joined.stdout[:60]}")
                kept = os.path.join(tempfile.gettempdir(), "units_failed")
                run(["rm", "-rf", kept])
                run(["cp", "-r", folder, kept])
                with open(os.path.join(kept, "given.i"), "wb") as out:
                    out.write(given)
                print(f"its files are in {kept}")
                sys.exit(1)
            if apart is None:
                refused += 1
            else:
                agreed += 1
    told = ", ".join(f"{kind} {number}" for kind, number in sorted(causes.items()))
    print(f"{agreed} projects have the same values, {refused} are refused by both ({told})")


main()
