#!/usr/bin/env bash
# Whether the words of the classes of alarms are the same wherever they stand: their names, sentences and helps.
#
#     benches/class_words.sh
#
# The table of docs/ALARMS.md is what the others are compared with: the definitions of names, sentences and helps; the
# order of the classes in reports; the list of all classes in a summary; the table of classes in docs/LANGUAGE.md; the
# rules WAIT and DEAD of a log, with a table of their own; the
# headings of docs/ALARMS.md, each with the name and the sentence of its section; and each line of a document or of a
# stored report that has the form `PLACE: warning: SENTENCE [NAME]`, but for those on objects with a race. Nothing is said of
# the code, which is proved equal to the definitions. Status 1 where words differ, with a line for each.
set -eu
cd "$(dirname "$(readlink -f "$0")")/.."
folder=$(mktemp -d)
trap 'rm -rf "$folder"' EXIT
status=0

# the rows of the table of classes in a section
rows() { # FILE SECTION
    awk -v section="## $2" '/^## / { inside = ($0 == section) } inside && /^\| [A-Z]+ \|/' "$1"
}

rows docs/ALARMS.md 'The words of the classes' >"$folder/table"
column() { # NUMBER
    awk -F ' *[|] *' -v at="$(($1 + 1))" '{ print $at }' "$folder/table"
}
paste -d '|' <(column 1) <(column 2) >"$folder/sentences"
paste -d '|' <(column 1) <(column 3) >"$folder/helps"
column 1 >"$folder/names"
[ -s "$folder/names" ] || { echo 'docs/ALARMS.md has no table of words' >&2; exit 1; }

differs() { # WHAT, two files
    if ! diff "$2" "$3" >"$folder/difference"; then
        sed -n "s|^[<>]|$1: &|p" "$folder/difference"
        status=1
    fi
}

# the texts of a function over classes in a file of definitions, each behind the class in capitals
texts() { # FILE FUNCTION
    sed -n "s/^$2 \([A-Za-z]*\) = codes \"\(.*\)\"\$/\1|\2/p" "$1" | awk -F '|' '{ print toupper($1) "|" $2 }'
}

texts crates/tm_terms/specs/Texts.antt class_text >"$folder/found"
paste -d '|' "$folder/names" "$folder/names" >"$folder/wanted"
differs 'class_text of crates/tm_terms/specs/Texts.antt' "$folder/wanted" "$folder/found"
texts crates/report_views/specs/Sentences.antt sentence_text >"$folder/found"
differs 'sentence_text of crates/report_views/specs/Sentences.antt' "$folder/sentences" "$folder/found"
texts crates/report_views/specs/Sentences.antt help_text >"$folder/found"
differs 'help_text of crates/report_views/specs/Sentences.antt' "$folder/helps" "$folder/found"

sed -n 's/^class_number \([A-Za-z]*\) = \([0-9]*\)$/\2 \1/p' crates/tm_terms/specs/Alarms.antt | sort -n |
    awk '{ print toupper($2) }' >"$folder/found"
differs 'class_number of crates/tm_terms/specs/Alarms.antt' "$folder/names" "$folder/found"
sed -n 's/^classes = \(.*\) ∷ \[\]$/\1/p' crates/report_views/specs/Sentences.antt | sed 's/ ∷ /\n/g' |
    tr '[:lower:]' '[:upper:]' >"$folder/found"
differs 'classes of crates/report_views/specs/Sentences.antt' "$folder/names" "$folder/found"

# the rules beside the classes: sentence, help and level, by which tools/findings.awk tells the sentence of the program
rows docs/ALARMS.md 'WAIT and DEAD in a log' | awk -F ' *[|] *' '{ print $2 "|" $3 "|" $4 "|" $5 }' >"$folder/rules"
for function in level_text rule_sentence rule_help; do
    tr -s '\n ' ' ' <crates/report_views/specs/Sentences.antt |
        grep -oE "$function (Wait|Dead) = codes \"[^\"]*\"" |
        sed "s/^$function \([A-Za-z]*\) = codes \"\(.*\)\"\$/\1|\2/" | awk -F '|' '{ print toupper($1) "|" $2 }' >"$folder/$function"
done
join -t '|' <(sort "$folder/level_text") <(sort "$folder/rule_sentence") | join -t '|' - <(sort "$folder/rule_help") |
    sort -r >"$folder/found"
differs 'the rules of crates/report_views/specs/Sentences.antt' "$folder/rules" "$folder/found"
while IFS='|' read -r name level _; do
    grep -Fq ": $level: \" says[\"$name\"] \" [$name]\"" tools/findings.awk ||
        { echo "tools/findings.awk does not tell the sentence of $name as a $level"; status=1; }
done <"$folder/rules"

rows docs/LANGUAGE.md 'Error classes' | awk '{ print $2 }' >"$folder/found"
differs 'the table of docs/LANGUAGE.md' "$folder/names" "$folder/found"
sed -n 's/^## \([A-Z]*\): \(.*\)$/\1|\2/p' docs/ALARMS.md >"$folder/found"
differs 'the headings of docs/ALARMS.md' "$folder/sentences" "$folder/found"

# each line of an alarm, in documents and stored reports
while IFS= read -r line; do
    text=$(sed -E 's/^.*:[0-9]+:[0-9]+: warning: (.*) \[([A-Z]*)\]$/\2|\1/' <<<"$line")
    grep -Fxq "$text" "$folder/sentences" || { echo "no sentence of the table: $line"; status=1; }
done < <(grep -rnoE "[A-Za-z_./]+\.[ch]:[0-9]+:[0-9]+: warning: [^\`\"\\\\]* \[($(paste -sd '|' "$folder/names"))\]" \
    README.md docs examples |
    grep -v -e ', one of them storing; it is accessed so: ' -e ' without a common mutex: [0-9]* of its [0-9]* accesses race ')
exit "$status"
