#!/usr/bin/env python3
"""Tries the notes of random programs against random runs of them.

    benches/operands.py ANALYSER [PROGRAMS [RUNS [SEED]]]

ANALYSER is the built analyse_main. Each program (100, where PROGRAMS does not say another number) has two to four tasks
over shared numbers, arrays and mutexes. An interpreter here, which knows nothing of the analysis, runs it by random
choices (20 times, or RUNS), and `replay` is asked whether these choices lead to this end: so many steps, or an error of
this class at this place. Of each operation that a run comes to, whether or not it fails, the values have to lie in the
operands of the alarms at its place; of an alarm of always no run may go on; and where a run stops, an alarm of the
class has to name the task. In these programs each place has one edge, and one set of mutexes is held there, so that
nothing is left out of operands. The status is 1 where something is not so."""
import json
import random
import subprocess
import sys

LEAST, MOST = -(2**31), 2**31 - 1


class Stop(Exception):
    """An error of a class at a place."""


# ----- Programs -----


class Text:
    """A source that is being written, with the place of what comes next."""

    def __init__(self):
        self.parts, self.line, self.col = [], 1, 1

    def put(self, piece):
        place = self.line, self.col
        self.parts.append(piece)
        lines = piece.split("\n")
        self.line += len(lines) - 1
        self.col = len(lines[-1]) + (1 if len(lines) > 1 else self.col)
        return place


class Program:
    def __init__(self, draw):
        self.draw, self.text = draw, Text()
        self.numbers = {f"x{it}": draw.choice([0, 1, 5, -3, 0, 1, 5, MOST]) for it in range(draw.randint(1, 3))}
        self.arrays = {f"w{it}": draw.randint(1, 5) for it in range(draw.randint(0, 2))}
        self.mutexes = [f"m{it}" for it in range(draw.randint(0, 2))]
        for name in self.mutexes:
            self.text.put(f"__mutex {name};")
        for name, value in self.numbers.items():
            self.text.put(f"int {name}={value};")
        for name, length in self.arrays.items():
            self.text.put(f"int {name}[{length}];")
        self.tasks = []
        for number in range(draw.randint(2, 4)):
            priority = draw.randint(0, 3)
            self.text.put(f"\n__task({priority}) void t{number}(void){{")
            self.tasks.append((priority, self.body()))
            self.text.put("}")
        self.text.put("\n")
        self.source = "".join(self.text.parts)

    def body(self):
        """The statements of a task, some of them between a lock and its unlock."""
        made = []
        for _ in range(self.draw.randint(1, 4)):
            inner = self.draw.choice(self.mutexes) if self.mutexes and self.draw.random() < 0.4 else None
            if inner:
                made.append(("lock", inner, self.text.put("__lock")))
                self.text.put(f"({inner});")
            made += [self.statement(2) for _ in range(self.draw.randint(1, 3))]
            if inner:
                made.append(("unlock", inner, self.text.put("__unlock")))
                self.text.put(f"({inner});")
            if self.draw.random() < 0.2:
                self.text.put("__yield();")
                made.append(("yield",))
        return made

    def statement(self, depth):
        if depth and self.draw.random() < 0.3:
            self.text.put("if(")
            test = self.value(1)
            self.text.put("){")
            yes = [self.statement(depth - 1) for _ in range(self.draw.randint(1, 2))]
            self.text.put("}else{")
            no = [self.statement(depth - 1)]
            self.text.put("}")
            return "if", test, yes, no
        target = self.cell()
        self.text.put("=")
        value = self.value(2)
        self.text.put(";")
        return "store", target, value

    def cell(self):
        if self.arrays and self.draw.random() < 0.4:
            name = self.draw.choice([*self.arrays])
            self.text.put(name)
            place = self.text.put("[")
            index = self.value(1)
            self.text.put("]")
            return "element", name, place, index
        name = self.draw.choice([*self.numbers])
        self.text.put(name)
        return "number", name

    def value(self, depth):
        kind = self.draw.random()
        if depth and kind < 0.5:
            self.text.put("(")
            left = self.value(depth - 1)
            sign = self.draw.choice(["+", "+", "-", "-", "*", "/", "%", "<<", "<", "<", "==", "=="])
            place = self.text.put(sign)
            right = self.value(depth - 1)
            self.text.put(")")
            return "of", sign, place, left, right
        if kind < 0.65:
            low = self.draw.choice([-3, 0, 0, 0, 1, 1, 1, 2, MOST - 2])
            high = min(MOST, low + self.draw.randint(0, 4))
            self.text.put(f"__input({low},{high})")
            return "input", low, high
        if kind < 0.85:
            return "load", self.cell()
        number = self.draw.choice([0, 1, 1, 2, 2, 3, 7, 31])
        self.text.put(str(number))
        return "constant", number


# ----- Runs -----


class Run:
    """One run, with what was seen: the class and place of each operation, its values, and whether it went on."""

    def __init__(self, program, draw):
        self.program, self.draw = program, draw
        self.cells = {**program.numbers}
        for name, length in program.arrays.items():
            self.cells.update({(name, at): 0 for at in range(length)})
        self.choices, self.seen, self.end = [], [], None
        self.threads = [self.acts(body) for _, body in program.tasks]
        self.held = [set() for _ in program.tasks]
        self.status = ["waiting"] * len(program.tasks)
        self.next = [None] * len(program.tasks)
        for task in range(len(program.tasks)):
            self.advance(task, None)

    # What a task does: each action is given out, and its answer comes back.

    def acts(self, body):
        for it in body:
            if it[0] in ("lock", "unlock", "yield"):
                yield it
            elif it[0] == "if":
                test = yield from self.value(it[1])
                yield from self.acts(it[2] if test else it[3])
            else:
                target = yield from self.place_of(it[1])
                value = yield from self.value(it[2])
                yield "store", target, value

    def place_of(self, cell):
        if cell[0] == "number":
            return cell[1]
        index = yield from self.value(cell[3])
        length = self.program.arrays[cell[1]]
        self.see(cell[2], {"subscript": index}, {"INDEX"}, None if 0 <= index < length else "INDEX")
        return cell[1], index

    def value(self, of):
        if of[0] == "constant":
            return of[1]
        if of[0] == "input":
            return (yield of)
        if of[0] == "load":
            target = yield from self.place_of(of[1])
            return (yield ("load", target))
        left = yield from self.value(of[3])
        right = yield from self.value(of[4])
        return self.result(of[1], of[2], left, right)

    def result(self, sign, place, left, right):
        """What an operator gives on int (C99 6.5.5 to 6.5.9), or its error."""
        wrong = None
        if sign in "/%" and not right:
            wrong = "DIV"
        elif sign == "<<" and not (0 <= right < 32 and left >= 0 and left << right <= MOST):
            wrong = "SHIFT"
        quotient = 0 if not right else abs(left) // abs(right) * (1 if (left < 0) == (right < 0) else -1)
        of = {"+": left + right, "-": left - right, "*": left * right, "/": quotient, "%": left - quotient * right}
        value = of[sign] if sign in of else None
        if not wrong and (value is not None and not LEAST <= value <= MOST or sign == "%" and quotient > MOST):
            wrong = "OVERFLOW"
        self.see(place, {"left": left, "right": right}, {"DIV", "OVERFLOW", "SHIFT"}, wrong)
        if value is None:
            value = left << right if sign == "<<" else int(left < right if sign == "<" else left == right)
        return value

    def see(self, place, values, classes, wrong):
        self.seen.append((place, values, classes, wrong))
        if wrong:
            raise Stop(wrong, place)

    # Worlds and steps.

    def advance(self, task, answer):
        """Goes on to the next action, where the task stands then."""
        try:
            self.next[task] = self.threads[task].send(answer)
        except StopIteration:
            self.next[task], self.status[task] = None, "done"
        except Stop as stop:
            self.next[task] = "fault", *stop.args

    def allowed(self):
        ready = [it for it, status in enumerate(self.status) if status == "ready"]
        top = max((self.program.tasks[it][0] for it in ready), default=None)
        run = [("run", it) for it in ready if self.program.tasks[it][0] == top]
        return run + [("wake", it) for it, status in enumerate(self.status) if status == "waiting"]

    def step(self):
        """One choice, if there is one; whether the run can go on."""
        allowed = self.allowed()
        if not allowed:
            return False
        verb, task = self.draw.choice(allowed)
        if verb == "wake":
            self.choices.append(f"wake {task}")
            self.status[task] = "ready"
            return True
        action, number = self.next[task], 0
        if action[0] == "input":
            number = self.draw.randint(action[1], action[2])
        self.choices.append(f"run {task} {number}")
        return self.do(task, action, number)

    def do(self, task, action, number):
        kind = action[0]
        if kind == "fault":
            self.end = action[2], action[1], task
            return False
        if kind == "lock" and action[1] in self.held[task] or kind == "unlock" and action[1] not in self.held[task]:
            self.end = action[2], "LOCK", task
            return False
        if kind == "lock" and any(action[1] in it for it in self.held):
            self.status[task] = f"blocked {action[1]}"
            return True
        if kind == "lock":
            self.held[task].add(action[1])
        elif kind == "unlock":
            self.held[task].discard(action[1])
            self.status = ["ready" if it == f"blocked {action[1]}" else it for it in self.status]
        elif kind == "store":
            self.cells[action[1]] = action[2]
        elif kind == "yield":
            self.status[task] = "waiting"
        self.advance(task, self.cells[action[1]] if kind == "load" else number if kind == "input" else None)
        return True


# ----- Comparisons -----


def asked(program, words, text):
    return subprocess.run([program, *words], input=text, capture_output=True, text=True, timeout=120)


def lies_in(value, operand):
    """Whether a number is one of an operand, as its ends and its step tell."""
    if "lo" not in operand or not operand["lo"] <= value <= operand["hi"]:
        return False
    step = operand.get("step", 0)
    return value == operand["lo"] if step == 0 else (value - operand["lo"]) % step == 0


def wrong_of(run, alarms):
    """What of a run the alarms do not tell."""
    found = []
    for place, values, classes, wrong in run.seen:
        for alarm in (it for it in alarms if (it["line"], it["col"]) == place and it["class"] in classes):
            operands = {it["role"]: it for it in alarm["operands"]}
            found += [f"{place} {role} {value}" for role, value in values.items() if not lies_in(value, operands[role])]
            if alarm["always"] and not wrong:
                found.append(f"{place} goes on from an alarm of always")
    if run.end:
        place, kind, task = run.end
        told = [it for it in alarms if ((it["line"], it["col"]), it["class"]) == (place, kind)]
        if not any(task in it["tasks"] for it in told):
            found.append(f"{place} stops with {kind} in {task}, which no alarm tells")
    return found


def differs(run, source, analyser):
    """Whether `replay` comes to another end."""
    text = source + "#replay\n" + "".join(f"{it}\n" for it in run.choices)
    last = asked(analyser, ["replay"], text).stdout.splitlines()[-1]
    steps = len(run.choices)
    wanted = f"ran {steps}"
    if run.end:
        (line, col), kind, _ = run.end
        wanted = f"stopped {steps} {line}:{col} {kind}"
    return None if last == wanted else f"replay: {last}, wanted {wanted}"


def main(analyser, programs=100, runs=20, seed=1):
    draw = random.Random(int(seed))
    count = {"programs": 0, "runs": 0, "steps": 0, "values": 0, "stops": 0, "alarms": 0}
    bad = 0
    for _ in range(int(programs)):
        program = Program(draw)
        answer = asked(analyser, ["notes", "notes"], program.source)
        if answer.returncode not in (0, 1):
            print(program.source, answer.stdout, answer.stderr)
            return 1
        alarms = [it for it in json.loads(answer.stdout)["alarms"] if it["class"] != "RACE"]
        count["programs"], count["alarms"] = count["programs"] + 1, count["alarms"] + len(alarms)
        for _ in range(int(runs)):
            run = Run(program, draw)
            while len(run.choices) < 400 and run.step():
                pass
            found = wrong_of(run, alarms)
            other = differs(run, program.source, analyser)
            found += [other] if other else []
            for it in found:
                print(it, program.source, *run.choices, sep="\n")
            bad += bool(found)
            count["runs"], count["steps"] = count["runs"] + 1, count["steps"] + len(run.choices)
            count["values"] += sum(len(it[1]) for it in run.seen)
            count["stops"] += bool(run.end)
    print(", ".join(f"{number} {what}" for what, number in count.items()), f"wrong: {bad}", sep="; ")
    return bool(bad)


if __name__ == "__main__":
    if len(sys.argv) < 2:
        sys.exit(__doc__)
    sys.exit(main(*sys.argv[1:]))
