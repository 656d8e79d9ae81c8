#!/usr/bin/env bash
# Tries the wrong bodies that stand in crates/NAME/planted/, of the crates that are named or of all: the prover has to
# refuse each. They are edits as those of must-fail/, but stand outside the gate, which has a few of the more than five
# hundred, since the first edit of a crate costs the gate a check of the whole crate.
#
#     benches/planted.sh [NAME..]            tries them, and writes into benches/planted.txt which were refused
#     benches/planted.sh --dry [NAME..]      says only whether each still applies: each of its old texts stands once
#     benches/planted.sh --left [NAME..]     lists those that were not refused over the text as it stands
#
# Each row of benches/planted.txt is a crate, an edit, the day on which it was last refused, the sum of the crate's text
# (src, specs and proofs) and of the edit that day, and `names` where it was refused only because a proof names what the
# edit took away, which says little of a contract. The status is 1 where an edit is let through or does not apply.
#
# The libraries below a crate are taken from what `tools/prove.py` keeps, and proved first where they are lacking.
set -u

top=$(readlink -f "$(dirname "${BASH_SOURCE[0]}")/..")
rows=$top/benches/planted.txt
cd "$top" || exit 2
way=try
case ${1:-} in
--dry | --left)
    way=${1#--}
    shift
    ;;
-*)
    sed -n '/^# Tries/,/^set/s/^# \{0,1\}//p' "${BASH_SOURCE[0]}"
    exit 2
    ;;
esac
[ $# -gt 0 ] || set -- $(cd crates && ls -d */planted | sed 's,/planted$,,')
touch "$rows"

# The sum of a crate's text and of an edit.
sum_of() { # NAME EDIT
    (cd "crates/$1" && find src specs proofs "planted/$2" -type f 2>/dev/null | LC_ALL=C sort | xargs -d '\n' sha256sum) |
        sha256sum | cut -c1-16
}

# Whether each edit of the crates applies, as the kit reads it.
apply() { # NAME..
    python3 - "$@" <<'END'
import glob, sys
sys.path.insert(0, "tools")
import prove
edits = [(it, f"crates/{name}") for name in sys.argv[1:] for it in sorted(glob.glob(f"crates/{name}/planted/*.edit"))]
lost = [(it, why) for it, why in ((it, prove.rt.read_edit(it, folder)[1]) for it, folder in edits) if why]
for edit, why in lost:
    print(f"{edit} DOES NOT APPLY: {why}")
print(f"{len(edits) - len(lost)} of {len(edits)} edits apply")
sys.exit(1 if lost else 0)
END
}

# Writes the row of an edit that was refused.
keep_row() { # NAME EDIT HOW
    local row
    row=$(echo "$1 $2 $(date +%F) $(sum_of "$1" "$2") $3" | sed 's/ $//')
    (grep -v "^$1 $2 " "$rows"; echo "$row") | LC_ALL=C sort >"$rows.new"
    mv "$rows.new" "$rows"
}

for name in "$@"; do
    if [ ! -d "crates/$name/planted" ]; then
        echo "planted.sh: $name has no folder planted/" >&2
        exit 2
    fi
done
status=0
[ $way = left ] || apply "$@" || status=1
[ $way != dry ] || exit $status
for name in "$@"; do
    edits=$(cd "crates/$name/planted" && ls | grep '\.edit$')
    [ -n "$edits" ] || continue
    if [ $way = left ]; then
        for edit in $edits; do
            read -r _ _ day sum _ < <(grep "^$name $edit " "$rows" || echo)
            [ "${sum:-}" = "$(sum_of "$name" "$edit")" ] || echo "$name $edit${day:+, last refused on $day over another text}"
        done
        continue
    fi
    below=$(python3 tools/prove.py --lacks "$name" | tr ' ' '\n' | grep -vx "$name")
    # (no quotes: a word is a crate)
    [ -z "$below" ] || python3 tools/prove.py $below || exit 2
    while read -r line; do
        echo "$line"
        [ "${line#planted.sh: }" = "$line" ] || status=1
        [[ $line =~ must-fail\ $name/([^ ]+\.edit): ]] || continue
        edit=${BASH_REMATCH[1]}
        case $line in
        *": refused, as it must be (only because"*) keep_row "$name" "$edit" names ;;
        *": refused, as it must be"*) keep_row "$name" "$edit" '' ;;
        *) status=1 ;;
        esac
    done < <(python3 tools/prove.py --edit "$name" $(printf "crates/$name/planted/%s " $edits) 2>&1 || echo "planted.sh: $name has edits that were not refused")
done
exit $status
