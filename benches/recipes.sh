#!/usr/bin/env bash
# Whether the recipes of docs/RECIPES.md name every place: each file that has a class, an operator, a command or a view
# that is there already has to stand in the recipe for a new one, and each file that a recipe names has to be there.
#
#     benches/recipes.sh
#     benches/recipes.sh TOP class|operator|command|view NAME
#
# In the second form TOP is a repository in which a recipe was followed for NAME, a pattern of grep, and each file that
# has what is there already and not NAME is listed. What is there already is the class RACE beside OVERFLOW and the
# field of SHIFT; the operator `%`; the command `replay`; the view `summary`. Status 1 where a file is missing or listed.
set -eu
own=$(dirname "$(dirname "$(readlink -f "$0")")")
[ $# -eq 0 ] || [ $# -eq 3 ] || { sed -n 's/^#     /usage: /p' "$0" >&2; exit 2; }
top=$(readlink -f "${1:-$own}")
folder=$(mktemp -d)
trap 'rm -rf "$folder"' EXIT
status=0

# The files that the table of a section names, each with its crate: all crates of its row are tried.
named() { # SECTION
    awk -v section="## $1" '$0 == section { inside = 1; next } /^## / { inside = 0 } inside && /^\| `/' \
        "$own/docs/RECIPES.md" | while IFS='|' read -r _ crates rest; do
        for file in $(grep -o '`[A-Za-z_/+]*/[A-Za-z_/+]*\.[a-z]*`' <<<"$rest" | tr -d '`'); do
            found=
            for crate in $(tr -d '`,' <<<"$crates"); do
                [ ! -f "$top/crates/$crate/$file" ] || { found=1; echo "crates/$crate/$file"; }
            done
            [ "$found" ] || echo "missing $file of$crates"
        done
    done | sort -u
}

compare() { # SECTION, the files that have the names in the file `found`
    sort -u "$folder/found" >"$folder/has"
    named "$1" >"$folder/named"
    if grep '^missing ' "$folder/named"; then status=1; fi
    comm -23 "$folder/has" "$folder/named" >"$folder/left"
    if [ -s "$folder/left" ]; then
        sed "s/^/not named in \"$1\": /" "$folder/left"
        status=1
    fi
    echo "$1: $(wc -l <"$folder/has") files, all but $(wc -l <"$folder/left") named"
}

# The files that have what is there already.
has() { # class|operator|command
    case $1 in
    # all classes stand beside one another, or as fields
    class)
        grep -rlawE --exclude-dir=out 'Overflow' crates | xargs grep -lawE 'Race'
        grep -rlaE --exclude-dir=out '(classes|c)\.shift\b|\bshift: (false|may_|bool)|\bshift = false' crates
        ;;
    operator) grep -rlawE --exclude-dir=out 'Rem|Remainder|Percent' crates ;;
    command) grep -rlawE --exclude-dir=out 'Replay' crates/cmd_words crates/analyser crates/words_tests ;;
    view)
        # (the summary of `big_source` is another)
        (cd crates && grep -rlawE --exclude-dir=out 'Summary|summary_text|summary' report_views report_view words_tests) |
            sed 's|^|crates/|' | xargs grep -LawF big_source
        ;;
    *) echo "there is no recipe for $1" >&2; exit 2 ;;
    esac
}

cd "$top"
if [ $# -eq 3 ]; then
    for file in $(has "$2" | sort -u); do
        grep -qawE "$3" "$file" || { echo "$file has no $3"; status=1; }
    done
    exit "$status"
fi
has class >"$folder/found"
compare 'A new alarm class'
has operator >"$folder/found"
compare 'A new C operator'
has command >"$folder/found"
compare 'A new command'
has view >"$folder/found"
compare 'A new view'
exit "$status"
