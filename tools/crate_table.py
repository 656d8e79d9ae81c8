#!/usr/bin/env python3
"""Makes the tables of docs/CRATES.md, from crates.txt and the heads of the crates.

    tools/crate_table.py            writes the tables into the document, between its two marks
    tools/crate_table.py --check    changes nothing; the status is 1 where the document is not what would be written
    tools/crate_table.py --named NAME..     lists what other crates name of these crates: which definitions of specs/,
                                    which of specs/reading/, which lemmas of proofs/, and how many crates do

A row has what the first sentence of the crate's head says, the definitions of it that most other crates name, and how
many crates stand above it. Each crate is at one station of STATIONS; one that is at none yet has a table at the end,
and the status is 1."""
import collections
import os
import re
import sys

sys.dont_write_bytecode = True

DOCUMENT = "docs/CRATES.md"
BEGIN, END = "<!-- tables of crates: tools/crate_table.py writes them -->", "<!-- end of the tables of crates -->"
# How many definitions a row names.
MOST_SHOWN = 5

STATIONS = {
    "Streams, texts and the outside": "tm_io program_streams cmd_words tm_terms source_marks unit_tokens unit_plans"
    " unit_joins join_units",
    "Front end": "tm_trees c_lexer c_expr_parser c_decl_parser c_parser",
    "Typing": "tm_cint tm_typed call_graph typing_laws c_scope c_type_names c_expr_uses c_folds c_expr_rules"
    " c_expr_typing c_typing_state c_specifiers c_initialisers c_declarations c_statements c_typing typed_file_laws",
    "Layout and runs": "tm_laid cell_layout layout_laws cell_types concrete_values concrete_steps task_interpreter"
    " concrete_worlds next_action_laws progress_laws program_worlds",
    "Lowering": "flow_graph graph_facts graph_positions region_cells lowering body_builder statement_builder"
    " graph_builder lowering_laws operation_laws temporary_types mutex_configs configured_laws program_graphs thresholds"
    " source_programs",
    "Values": "tm_numbers strided_dom interval_dom congruence_dom transfer_int pointer_dom filters operator_values"
    " typed_values temporary_extents value_heights",
    "States and transfers": "tm_lattice shared_tables state_tree cell_env interfere_set transfer_rows calculations edge_actions"
    " edge_effects edge_filters memory_effects transfer_mem state_fits",
    "Equations and passes": "table_covers edge_contributions least_tables task_equations program_equations store_limits"
    " body_systems entry_states program_systems program_equality program_laws thread_pass post_recheck"
    " program_solutions sparse_tables cell_placings sparse_rows sparse_bodies row_checks cell_touches"
    " least_assignments front_constraints slot_numbers body_fronts body_slots",
    "Workers": "store_core thread_workers shared_programs shared_analyses worker_solutions history_lines",
    "Reports": "place_lists access_races request_circles program_reports value_ranges lock_waits access_groups"
    " access_partners alarm_contexts value_origins alarm_causes source_names note_details notes_json program_notes note_lines report_json solution_lines"
    " source_findings part_extents path_origins edge_origins text_choices operand_orders open_choices source_assumptions"
    " source_notes",
    "Soundness": "tm_soundness program_shape sound_foundations sound_runs sound_tables sound_addresses sound_core sound_notes sound_choices",
    "Certificates": "certificate_words certificate_parts certificate_texts certificate_reading certificate_check"
    " check_main",
    "Replays": "replay_lines replay_runs source_replays",
    "Commands": "big_source analyser analyse_main",
    "Views of reports": "place_details report_reading report_views report_logs report_view page_pieces report_pages"
    " report_page log_baselines report_baseline refusal_hints refusal_hint",
    "Tests": "held_passes engine_tests words_tests source_tests program_tests",
}


def read_lines(root):
    """The crates of crates.txt in their order, each with all names on its line."""
    found = {}
    with open(f"{root}/crates.txt", encoding="utf-8") as it:
        for line in it:
            head, _, rest = line.partition("#")[0].partition(":")
            if head.strip():
                found[head.split()[0]] = rest.split()
    return found


def counted_above(lines):
    """How many crates stand above each one."""
    below = {}
    for name, used in lines.items():
        below[name] = {it for dep in used if dep in below for it in {dep} | below[dep]}
    return collections.Counter(it for found in below.values() for it in found)


def first_sentence(root, name):
    """What the head of a crate says first, as a row of a table has it."""
    for file in ("lib.rt", "main.rt"):
        if os.path.exists(f"{root}/crates/{name}/src/{file}"):
            with open(f"{root}/crates/{name}/src/{file}", encoding="utf-8") as it:
                head = re.match(r"(//!.*\n)*", it.read()).group()
            text = " ".join(row[3:].strip() for row in head.splitlines())
            return re.match(r"(.+?)(\.(?=\s+[A-Z`])|\.?$)", text).group(1).strip().replace("|", "\\|")
    sys.exit(f"{name} has no head")


def imports(root, names):
    """For each crate the names of specs/ and proofs/ that other crates import, with the crates that do."""
    found = collections.defaultdict(lambda: collections.defaultdict(set))
    for crate in names:
        for at, _, files in os.walk(f"{root}/crates/{crate}"):
            if f"/{crate}/out" in at:
                continue
            for file in files:
                if file.endswith((".antt", ".rt")):
                    with open(f"{at}/{file}", encoding="utf-8") as it:
                        text = it.read()
                    for path, listed in re.findall(r"\buse Rattle\.([\w.+-]+?)\.\{([^}]*)\}", text):
                        parts = path.split(".")
                        owner = max((i for i, part in enumerate(parts) if part in names), default=None)
                        if owner is None or parts[owner] == crate or "declared" in parts:
                            continue
                        if parts[-1] in ("specs", "proofs"):
                            continue  # (modules)
                        for word in filter(None, (it.split(" as ")[0].strip() for it in listed.split(","))):
                            room = next((it for it in ("proofs", "reading") if it in parts), "specs")
                            found[parts[owner]][(room, word)].add(crate)
    return found


def named_row(uses):
    """The definitions that most crates name, and how many more are named."""
    most = sorted((-len(crates), word) for (room, word), crates in uses.items() if room == "specs")
    shown = ", ".join(f"`{word}`" for _, word in most[:MOST_SHOWN])
    rest = len(most) - MOST_SHOWN
    return shown + (f" and {rest} more" if rest > 0 else "")


def tables(root):
    lines = read_lines(root)
    stations = {title: names.split() for title, names in STATIONS.items()}
    placed = [name for names in stations.values() for name in names]
    wrong = sorted(set(placed) - set(lines)) + [it for it, n in collections.Counter(placed).items() if n > 1]
    if wrong:
        sys.exit(f"tools/crate_table.py: at two stations, or not in crates.txt: {' '.join(wrong)}")
    if set(lines) - set(placed):
        stations["At no station yet"] = sorted(set(lines) - set(placed))
    above, named = counted_above(lines), imports(root, set(lines))
    rows = []
    for title, names in stations.items():
        rows += [f"## {title}", "", "| Crate | Does | Others name | Above |", "|---|---|---|---|"]
        for name in (it for it in lines if it in names):
            rows.append(f"| `{name}` | {first_sentence(root, name)} | {named_row(named[name])} | {above[name]} |")
        rows.append("")
    return "\n".join(rows)


def main(words):
    root = os.path.dirname(os.path.dirname(os.path.abspath(__file__)))
    if words[:1] == ["--named"]:
        named = imports(root, set(read_lines(root)))
        for name in words[1:]:
            for (room, word), crates in sorted(named[name].items(), key=lambda it: (it[0][0], -len(it[1]), it[0][1])):
                print(f"{name} {room} {word}: {len(crates)}")
        return 0
    with open(f"{root}/{DOCUMENT}", encoding="utf-8") as it:
        text = it.read()
    if text.count(BEGIN) != 1 or text.count(END) != 1:
        sys.exit(f"tools/crate_table.py: {DOCUMENT} lacks the marks")
    head, _, rest = text.partition(BEGIN)
    made = f"{head}{BEGIN}\n\n{tables(root)}\n{END}{rest.partition(END)[2]}"
    is_whole = "At no station yet" not in made
    if not is_whole:
        print(f"{DOCUMENT}: some crates are at no station of tools/crate_table.py")
    if words == ["--check"]:
        if made != text:
            print(f"{DOCUMENT}: its tables of crates are not what tools/crate_table.py writes")
        return int(made != text or not is_whole)
    with open(f"{root}/{DOCUMENT}", "w", encoding="utf-8") as it:
        it.write(made)
    return int(not is_whole)


if __name__ == "__main__":
    sys.exit(main(sys.argv[1:]))
