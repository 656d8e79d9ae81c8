#!/usr/bin/env bash
# What laying out a program and lowering it to graphs takes beside typing it, on about 1 MiB of control code within the
# limits: 32 tasks of 8 functions each, 4,096 abstract cells, at most 200,000 tokens. A C compiler has to take the text,
# with definitions for the words of the language that C lacks.
# The program lexes, parses, types, lays out and lowers its input, as far as its word says. It is made, proved and built
# in a temporary folder, and run to the end of parsing, of typing and of lowering, 11 times each; of the processor times
# the least counts. So the time of a step is the difference of two runs, with what it frees, and the ratio is that of two
# steps. Where valgrind is installed, the last line is the same in instructions, which do not depend on what else runs.
# The crates from the text to the graphs are proved on the way: an hour, where no other clone has checked them.
set -eu
top=$(readlink -f "$(dirname "${BASH_SOURCE[0]}")/..")
. "$top/benches/copies.sh"
work=$(mktemp -d)
trap 'rm -rf "$work"' EXIT

python3 - > "$work/text.c" <<'TEXT'
import re
import sys

TASKS = 32
FUNCTIONS = 8

BLOCK = """
    error = wanted - measured;
    if (error > {limit})
        error = {limit};
    else if (error < -{limit})
        error = -{limit};
    {filtered} = ({filtered} * {weight} + error) / {parts};
    {window}[{place} & 3] = {filtered};
    {place} = ({place} + 1) % 4;
    for (index = 0; index < 4; index++) {{
        if ({window}[index] > {limit} && {gains}[index] != 0)
            {total} += {window}[index] / {gains}[index];
        else
            {total} -= {window}[index] * {gains}[3 - index] >> {shift};
    }}
    switch ({mode} & 3) {{
    case 0:
        {mode} = {total} > {limit} ? 1 : 2;
        break;
    case 1:
        {gains}[{mode}] = {gains}[0] + {shift};
        {mode} = 2;
        break;
    case 2:
        if (error != 0 || {filtered} == {shift})
            {mode} = 3;
        break;
    default:
        {mode} = 0;
    }}
    while ({total} > {limit}) {{
        {total} -= {limit} + {shift};
        if ({total} < {filtered})
            break;
    }}
"""

FUNCTION = """static int {filtered}, {total}, {place}, {mode};
static int {window}[4], {gains}[4] = {{1, 2, 3, 4}};

static int step_of_unit_{unit}(int measured, int wanted)
{{
    int error, index;
{blocks}
    return {total} + error;
}}

"""

TASK = """__task({urgency}) void control_{task}(void)
{{
    while (1) {{
{steps}        __yield();
    }}
}}

"""

def function(unit):
    """A function with limits, a filter, a loop over a window, a switch and a while, each three times."""
    words = ("filtered", "total", "place", "mode", "window", "gains")
    names = {word: "%s_of_unit_%d" % (word, unit) for word in words}
    blocks = "".join(
        BLOCK.format(shift=turn, limit=100 + 7 * turn, weight=turn + 2, parts=turn + 3, **names)
        for turn in (1, 2, 3))
    return FUNCTION.format(unit=unit, blocks=blocks, **names)

def task(number):
    """A task with its functions, which it calls in turn."""
    units = range(FUNCTIONS * number, FUNCTIONS * (number + 1))
    steps = "".join("        step_of_unit_%d(__input(-200, 200), %d);\n" % (unit, unit) for unit in units)
    return "".join(map(function, units)) + TASK.format(task=number, urgency=number + 1, steps=steps)

text = "".join(map(task, range(TASKS)))
sys.stdout.write(text)
tokens = re.findall(r"\w+|\+\+|--|&&|\|\||[-+*/%&|<>=!]=|>>|<<|[^\s\w]", text)
sys.stderr.write("%d bytes, %d tokens\n" % (len(text), len(tokens)))
TEXT
gcc -std=c11 -fsyntax-only -w '-D__task(p)=' '-D__yield()=' '-D__input(a,b)=(a)' "$work/text.c"

copy_crates "$top" "$work" tm_terms tm_trees tm_typed tm_laid c_lexer c_parser call_graph c_typing typed_file_laws \
    cell_layout flow_graph graph_builder
cat > "$work/crates/speed/src/main.rt" <<'PROGRAM'
#![tactic(auto)]

use anyhow::{Result, anyhow};
use c_lexer::lex;
use c_parser::parse;
use c_typing::typed;
use cell_layout::lay;
use flow_graph::Graphs;
use graph_builder::lower;
use std::alloc::Global;
use std::env;
use std::io::Read;
use tm_terms::{Fail as Refused, Name};
use tm_trees::File;
use typed_file_laws::typed_files_can_be_laid_out;

/// How far a run goes.
#[derive(Clone, Copy)]
enum Step {
    Parsing,
    Typing,
    Lowering,
}

fn edges_of(graphs: &Graphs) -> usize {
    let mut edges = 0usize;
    for graph in &graphs.graphs {
        edges = edges.wrapping_add(graph.edges.len());
    }
    edges
}

/// Whether a file can be typed, as a number of edges.
fn edges_of_typed(alloc: Global, file: &File) -> Result<usize, Refused> {
    match typed(alloc, file, None) {
        Ok(_) => Ok(0),
        Err(fail) => Err(fail),
    }
}

/// How many edges the graphs of a file have: that it can be laid out follows from its typing.
fn lowered_in(alloc: Global, file: &File, main: Option<Name>) -> Result<usize, Refused> {
    typed_files_can_be_laid_out();
    match typed(alloc, file, main) {
        Ok(typed) => match lay(alloc, typed) {
            Ok(laid) => match lower(alloc, &laid) {
                Ok(graphs) => Ok(edges_of(&graphs)),
                Err(fail) => Err(fail),
            },
            Err(fail) => Err(fail),
        },
        Err(fail) => Err(fail),
    }
}

fn edges(alloc: Global, source: &[u8], last: Step) -> Result<usize, Refused> {
    if source.len() > 1_048_576 {
        return Err(Refused::NoMemory);
    }
    match lex(alloc, source, 200_000) {
        Ok(tokens) => match parse(alloc, &tokens) {
            Ok(file) => match last {
                Step::Parsing => Ok(0),
                Step::Typing => edges_of_typed(alloc, &file),
                Step::Lowering => lowered_in(alloc, &file, None),
            },
            Err(fail) => Err(fail),
        },
        Err(fail) => Err(fail),
    }
}

/// The step that the word of a run names.
fn step_of(word: Option<String>) -> Step {
    match word {
        Some(word) => match word.as_str() {
            "parsing" => Step::Parsing,
            "typing" => Step::Typing,
            _ => Step::Lowering,
        },
        None => Step::Lowering,
    }
}

fn main(rt: HostRuntime) -> Result<()> {
    let mut words = env::args(&rt)?;
    let _program = words.next();
    let last = step_of(words.next());
    let mut source = Vec::new(rt.alloc());
    let _bytes = rt.stdin().read_to_end(&mut source)?;
    match edges(rt.alloc(), &source, last) {
        Ok(edges) => println!(rt; "{edges}")?,
        Err(_) => return Err(anyhow!("the source is refused")),
    }
    Ok(())
}
PROGRAM
# what `lay` asks for follows from the typing
mkdir -p "$work/crates/speed/specs" "$work/crates/speed/proofs/lowered_in"
: > "$work/crates/speed/specs/Lib.antt"
echo 'pub mod Chain' > "$work/crates/speed/proofs/Lib.antt"
cat > "$work/crates/speed/proofs/Chain.antt" <<'PROOF'
-- A typed file can be laid out in the order that typing gives.
use Rattle.std.proofs.Common.{ap, sym, subst, ◌∙◌, ℕ, ◌<◌, List, length, Option, Ok}
use Rattle.std.specs.Prelude.{All}
use Rattle.tm_terms.specs.declared.tokens.Name.{Name}
use Rattle.tm_trees.specs.FileTrees.{ItemTree}
use Rattle.tm_typed.specs.declared.files.TypedFile.{TypedFile}
use Rattle.tm_typed.specs.Files.{TypedFileTree, IsTyped}
use Rattle.tm_typed.specs.TypedFiles.{typed_file_tree}
use Rattle.tm_laid.specs.Layable.{IsLayable}
use Rattle.c_typing.specs.call_graph.Graphs.{lists}
use Rattle.c_typing.specs.call_graph.Orders.{IsWholeOrder}
use Rattle.typed_file_laws.specs.Layouts.{AreLayable}
use Rattle.typed_file_laws.proofs.Layable.{comes}

pub layable : AreLayable → (main : Option Name) (items : List ItemTree) (t : TypedFile) → IsTyped main items (Ok (typed_file_tree t)) → IsWholeOrder (lists t.calls.items) t.order.items → IsLayable (typed_file_tree t) t.order.items
layable laws main items t e o =
    let c = comes main items (typed_file_tree t) e in
    let same =
    ap (λ (f : TypedFileTree). length f.functions) c.is ∙ sym c.lawful.graph
    ∙ sym (ap (λ (f : TypedFileTree). length f.calls) c.is) in
    laws main items (typed_file_tree t) t.order.items e o.callees_first
    (subst (λ (n : ℕ). All (λ f. f < n) t.order.items) (sym same) o.within)
    (λ f h. o.whole f (subst (λ (n : ℕ). f < n) same h))
PROOF
cat > "$work/crates/speed/proofs/lowered_in/Answers.antt" <<'PROOF'
use Rattle.tm_trees.specs.FileTrees.{file_tree}
use Rattle.speed.proofs.Chain.{layable}
use Rattle.speed.proofs.lowered_in.Goals as goal

pub lay-requires : goal.lay-requires
lay-requires c = record {
  layable =
      layable c.typed_files_can_be_laid_out.ensures c.args.main (file_tree c.args.file.now) c.in-Ok.typed c.in-Ok.ensures.told
      c.in-Ok.ensures.order;
}
PROOF
(cd "$work/crates/speed" && rt run < "$work/text.c" > /dev/null)
python3 - "$work/crates/speed/out/speed" "$work/text.c" <<'RATIOS'
import re
import resource
import shutil
import subprocess
import sys

program, text = sys.argv[1:]
STEPS = ("parsing", "typing", "lowering")

def of_children():
    """The processor seconds of the runs so far."""
    usage = resource.getrusage(resource.RUSAGE_CHILDREN)
    return usage.ru_utime + usage.ru_stime

def run(step):
    """The processor seconds of a run up to the end of a step, and what it tells."""
    before = of_children()
    with open(text) as source:
        told = subprocess.run([program, step], stdin=source, stdout=subprocess.PIPE, check=True).stdout
    return of_children() - before, told.decode().strip()

def instructions(step):
    """The instructions of a run up to the end of a step."""
    command = ["valgrind", "--tool=callgrind", "--callgrind-out-file=/dev/null", program, step]
    with open(text) as source:
        told = subprocess.run(command, stdin=source, stdout=subprocess.PIPE, stderr=subprocess.PIPE, check=True).stderr
    return int(re.search(rb"Collected : (\d+)", told).group(1))

def tell(name, unit, spent):
    parsing, typing, lowering = spent
    print("%s: parsing %.3f, typing %.3f, laying out and lowering %.3f %s: %.2f of typing" % (
        name, parsing, typing - parsing, lowering - typing, unit, (lowering - typing) / (typing - parsing)))

runs = [[run(step) for step in STEPS] for _ in range(11)]
print("edges: " + runs[0][2][1])
tell("processor time", "s", [min(turn[at][0] for turn in runs) for at in range(3)])
if shutil.which("valgrind"):
    tell("instructions", "million", [instructions(step) / 1e6 for step in STEPS])
RATIOS
