#!/usr/bin/env bash
# What the gate costs: for each crate the processor seconds of its proof from nothing, of the same with its tests, and
# of its must-fail edits, as a table for docs/GATE.md, with what is over the budget; and whether the whole is.
#
#     benches/gate.sh [NAME..]          proves what tools/prove.py has not measured yet, and tells what each part took
#     benches/gate.sh --kept [NAME..]   proves nothing, and tells what is kept
#     benches/gate.sh --anew            proves all from nothing, one crate after another, for a quiet machine
#     benches/gate.sh --of ROWS..       tells what a run of `rt ci` took that benches/gate_parts.py watched; of several
#                                       files the last one that has a part counts. What no file has keeps its figure of
#                                       docs/GATE.md, and is marked with °
#
# The status is 1 where a crate or the whole is over its budget, where a row is not filled, or where something is not
# proved. It judges no proof: `rt ci` does.
#
# A crate has 5 processor minutes for each 1,000 lines of code and 8 in all, its tests and edits included; beside them
# the 20 seconds that the kit takes before the first line, and 10 for each 1,000 lines of definitions and lemmas. A
# program has the 8 minutes, however few its own lines are: what it costs is the machine code of all that it reaches,
# which two compilers make. The whole has 200 minutes, with the kit's own sums of texts, which no crate's row has
# (benches/ways.py).
set -u

top=$(readlink -f "$(dirname "${BASH_SOURCE[0]}")/..")
each_line=0.3
each_ghost_line=0.01
before_the_first=20
most_of_a_crate=480
most_of_all=12000

way=fill
rows=()
case ${1:-} in
--of)
    way=of
    shift
    [ $# -gt 0 ] || { echo "gate.sh: behind --of stands no file" >&2 && exit 2; }
    for file; do rows+=("$(readlink -f -- "$file")"); done
    shift $#
    ;;
--kept | --anew)
    way=${1#--}
    shift
    ;;
-*)
    sed -n '2,/^set/s/^# \{0,1\}//p' "${BASH_SOURCE[0]}" | sed '$d'
    exit 2
    ;;
esac
cd "$top" || exit 2
room=$(mktemp -d)
trap 'rm -rf "$room"' EXIT
status=0
case $way in
anew)
    export CEDRATCLEAT_KEPT=$room/kept
    python3 tools/prove.py --measure --tests --edits --jobs 1 "$@" >&2 || status=1
    ;;
fill) python3 tools/prove.py --measure --tests --edits "$@" >&2 || status=1 ;;
esac

# The seconds of a part in the files of rows.
row_of() { # CRATE PART
    awk -v crate="$1" -v part="$2" '$1 == crate && $2 == part { found = $3 } END { print found }' "${rows[@]}"
}

# The same of the table of the document: the columns of its parts are the fourth to the sixth.
told_of() { # CRATE COLUMN
    awk -F '|' -v name=" \`$1\` " -v column="$2" '$2 == name {
        sub(/\(.*/, "", $column)
        gsub(/[^0-9]/, "", $column)
        print $column
    }' docs/GATE.md
}

lines_in() { # FOLDER..
    find "$@" -type f \( -name '*.rt' -o -name '*.antt' \) -exec cat {} + 2>/dev/null | wc -l
}

printf 'In processor seconds, with `%s`, on %s of %s:\n\n' "$(rt version)" \
    "$(nproc) processors" "$(sed -n 's/^model name[^:]*: *//p' /proc/cpuinfo | head -1)"
printf '| Crate | Lines | Proof | With tests | Edits | Sum | Over |\n|---|---|---|---|---|---|---|\n'
total=0
# A row of the table is | `crate` | lines | proof | tests | edits | memory |.
while IFS='|' read -r _ name lines proof tests edits _; do
    name=$(tr -d ' `' <<<"$name")
    lines=${lines// /} proof=${proof// /} tests=${tests// /} edits=${edits// /}
    count=$(find "crates/$name/must-fail" -name '*.edit' 2>/dev/null | wc -l)
    ghost=$(lines_in "crates/$name/specs" "crates/$name/proofs")
    program=0
    [ ! -f "crates/$name/src/main.rt" ] || program=1
    tested=no
    ! grep -rqs '#\[test\]' "crates/$name/src" || tested=yes
    old_proof='' old_tests='' old_edits=''
    if [ $way = of ]; then
        proof=$(row_of "$name" proof) tests=$(row_of "$name" tests) edits=$(row_of "$name" edits)
        [ -n "$proof" ] || { proof=$(told_of "$name" 4) && old_proof=${proof:+°}; }
        [ -n "$tests" ] || [ $tested = no ] || { tests=$(told_of "$name" 5) && old_tests=${tests:+°}; }
        [ -n "$edits" ] || [ "$count" = 0 ] || { edits=$(told_of "$name" 6) && old_edits=${edits:+°}; }
    fi
    over=
    [ -n "$proof" ] || over='proof?'
    [ -n "$tests" ] || [ $tested = no ] || over="${over:+$over }tests?"
    [ -n "$edits" ] || [ "$count" = 0 ] || over="${over:+$over }edits?"
    sum=$((${proof:-0} + ${tests:-0} + ${edits:-0}))
    over=$(awk -v said="$over" -v sum="$sum" -v code="$lines" -v ghost="$ghost" -v a=$each_line -v b=$each_ghost_line \
        -v c=$before_the_first -v most=$most_of_a_crate -v program=$program 'BEGIN {
            has = c + a * code + b * ghost
            has = has < most && !program ? has : most
            print said (sum > has ? sprintf("%s%d", said == "" ? "" : " ", sum - has + 0.5) : "") }')
    [ -z "$over" ] || status=1
    total=$((total + sum))
    [ "$count" = 0 ] || edits="${edits:+$edits$old_edits }($count)"
    printf '| `%s` | %d | %s | %s | %s | %d | %s |\n' "$name" "$lines" "$proof$old_proof" "$tests$old_tests" "$edits" \
        "$sum" "$over"
done < <(python3 tools/prove.py --table "$@" | grep '^| `')

ways=$(python3 benches/ways.py | sed -n 1p)
sums=$(sed 's/.*: \([0-9]*\) processor seconds.*/\1/' <<<"$ways")
if [ $way = of ]; then
    sums=$(row_of rt own)
    ways="The kit took $sums seconds itself"
fi
printf '\nThe crates take %d processor minutes.' $(((total + 30) / 60))
if [ $# = 0 ]; then
    printf ' %s. The whole: %d of %d minutes.' "$ways" $(((total + sums + 30) / 60)) $((most_of_all / 60))
    [ $((total + sums)) -le $most_of_all ] || status=1
fi
printf '\n'
exit $status
