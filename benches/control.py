#!/usr/bin/env python3
"""Writes a control program of about LINES lines with TASKS tasks, for measurements of speed.

    benches/control.py LINES TASKS [SEED]

What such programs are made of comes in turn: low-pass filters, characteristics that are searched, machines of states,
queues between tasks, controllers that are reached by pointers, debounced switches and slopes. Each task keeps its units
in objects of its own, runs them in a loop that yields, and hands results on through signals, of which half stand under a
mutex. Numbers come from the seed, so that one seed gives one text."""
import random
import sys

HEAD = """\
enum phase { IDLE, RUNNING, DRAINING, BLOCKED };
typedef struct { int level, gain, low, high; } filter_t;
typedef struct { int proportional, integral, sum, limit; } control_t;
typedef struct { int value; unsigned char fresh; } signal_t;
typedef struct { short samples[8]; unsigned char head, count; } queue_t;
static int limited(int value, int low, int high)
{
    if (value < low)
        return low;
    if (value > high)
        return high;
    return value;
}
static int controlled(control_t *control, int error)
{
    control->sum = limited(control->sum + error, -control->limit, control->limit);
    return control->proportional * limited(error, -500, 500) / 16 + control->sum / control->integral;
}
static int filtered(filter_t *filter, int sample)
{
    filter->level += (limited(sample, filter->low, filter->high) - filter->level) / filter->gain;
    return filter->level;
}
"""

UNITS = {
    "filter": (
        "static filter_t {n} = {{ 0, {a}, -{b}, {c} }};",
        """\
static int run_{n}(int given)
{{
    int result = filtered(&{n}, given);

    if (result > {c} / 2)
        {n}.gain = {a} + 1;
    else if (result < -{b} / 2)
        {n}.gain = {a} + 2;
    return result;
}}""",
    ),
    "characteristic": (
        "static const short {n}[6] = {{ {a}, {b}, {c}, {d}, {e}, {f} }};",
        """\
static int run_{n}(int given)
{{
    int place;

    for (place = 0; place < 5; place++)
        if ({n}[place] > given)
            break;
    return {n}[place] + given / {a};
}}""",
    ),
    "machine": (
        "static enum phase {n};\nstatic int {n}_ticks;",
        """\
static int run_{n}(int given)
{{
    switch ({n}) {{
    case IDLE:
        if (given > {a})
            {n} = RUNNING;
        {n}_ticks = 0;
        break;
    case RUNNING:
        {n}_ticks++;
        if ({n}_ticks > {b})
            {n} = DRAINING;
        else if (given < -{c})
            {n} = BLOCKED;
        break;
    case DRAINING:
        if (--{n}_ticks <= 0)
            {n} = IDLE;
        break;
    default:
        {n}_ticks = {a};
        if (given > 0)
            {n} = IDLE;
    }}
    return {n} == RUNNING ? given : {n}_ticks;
}}""",
    ),
    "queue": (
        "static queue_t {n};",
        """\
static int run_{n}(int given)
{{
    int sum = 0, place;

    {n}.samples[{n}.head] = (short)limited(given, -{b}, {c});
    {n}.head = (unsigned char)(({n}.head + 1) % 8);
    if ({n}.count < 8)
        {n}.count++;
    for (place = 0; place < 8; place++)
        if (place < {n}.count)
            sum += {n}.samples[place];
    return sum / 8;
}}""",
    ),
    "controller": (
        "static control_t {n} = {{ {a}, {b}, 0, {c} }};\nstatic int {n}_last;",
        """\
static int run_{n}(int given)
{{
    int wanted = {d} - given;

    if (wanted - {n}_last > {e})
        wanted = {n}_last + {e};
    {n}_last = wanted;
    return limited(controlled(&{n}, wanted), -{b}, {c});
}}""",
    ),
    "switch": (
        "static unsigned char {n}, {n}_seen;",
        """\
static int run_{n}(int given)
{{
    if (given > {a}) {{
        if ({n}_seen < {e})
            {n}_seen++;
    }} else if ({n}_seen > 0)
        {n}_seen--;
    if ({n}_seen >= {e})
        {n} = 1;
    if ({n}_seen == 0)
        {n} = 0;
    return {n} ? given : 0;
}}""",
    ),
    "slope": (
        "static int {n};",
        """\
static int run_{n}(int given)
{{
    int step = given - {n};

    step = limited(step, -{e}, {e});
    {n} += step;
    return limited({n}, -{b}, {c});
}}""",
    ),
}


def unit(kind, name, numbers):
    """The declarations and the function of a unit."""
    rising = sorted(numbers.sample(range(3, 900), 4))
    given = dict(n=name, a=numbers.randint(2, 9), b=rising[0], c=rising[1], d=rising[2], e=numbers.randint(3, 40),
                 f=rising[3])
    if kind == "characteristic":
        given["e"] = given["d"] + 1
    return "\n".join(part.format(**given) for part in UNITS[kind])


def task(number, tasks, units, numbers):
    """A task that runs its units, reads a signal of another task and hands on its own."""
    other = (number + 1 + numbers.randrange(max(1, tasks - 1))) % tasks
    rows = [f"__task({number % 250 + 1}) void task_{number}(void)", "{", "    int value = 0, taken = 0;", "",
            "    while (1) {", f"        value = __input(-{numbers.randint(100, 900)}, {numbers.randint(100, 900)});"]
    for place, name in enumerate(units):
        rows.append(f"        value = run_{name}(value + taken);")
        if place % 3 == 2:
            rows += [f"        __lock(mutex_{number % 8});", f"        signal_{number}.value = value;",
                     f"        signal_{number}.fresh = 1;", f"        __unlock(mutex_{number % 8});",
                     f"        __lock(mutex_{other % 8});", f"        if (signal_{other}.fresh)",
                     f"            taken = limited(signal_{other}.value, -100, 100);",
                     f"        __unlock(mutex_{other % 8});"]
        elif place % 3 == 1:
            rows += [f"        word_{number} = value;", f"        taken = word_{other} / 2;"]
    return "\n".join(rows + ["        __yield();", "    }", "}"])


def program(lines, tasks, numbers):
    rows = [HEAD] + [f"__mutex mutex_{number};" for number in range(min(8, tasks))]
    for number in range(tasks):
        rows += [f"static signal_t signal_{number};", f"static volatile int word_{number};"]
    kinds, count, units = list(UNITS), "\n".join(rows).count("\n"), [[] for _ in range(tasks)]
    place = 0
    # Behind the units each task has some four lines for each of them.
    while count + 4 * place + 8 * tasks < lines or place < tasks:
        name = f"unit_{place}"
        rows.append(unit(kinds[numbers.randrange(len(kinds))], name, numbers))
        count += rows[-1].count("\n") + 1
        units[place % tasks].append(name)
        place += 1
    return "\n".join(rows + [task(number, tasks, names, numbers) for number, names in enumerate(units)])


def main():
    if len(sys.argv) not in (3, 4):
        sys.exit("usage: benches/control.py LINES TASKS [SEED]")
    seed = int(sys.argv[3]) if len(sys.argv) > 3 else 1
    print(program(int(sys.argv[1]), int(sys.argv[2]), random.Random(seed)))


main()
