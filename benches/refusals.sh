#!/usr/bin/env bash
# Whether the program refusal_hint names the construct at which a source is refused, and no other one: the sources and
# what is to be told of them stand in vectors/refusals.txt.
#
#     benches/refusals.sh ANALYSER HINTER [CASES]
#
# And whether tools/refusals.py tells nothing that is not so: an example with one wrong word has no further refusal.
#
# ANALYSER and HINTER are the programs analyse_main and refusal_hint. CASES is a file of refused sources, each a line of
# JSON with `stdin` and `stdout`: the kinds and what is told are counted. Status 1 where something else is told.
set -eu
top=$(dirname "$(dirname "$(readlink -f "$0")")")
[ $# -eq 2 ] || [ $# -eq 3 ] || { sed -n 's/^#     /usage: /p' "$0" >&2; exit 2; }
analyser=$(readlink -f "$1")
hinter=$(readlink -f "$2")
cases=${3-}
folder=$(mktemp -d)
trap 'rm -rf "$folder"' EXIT
status=0

# What is told of the text, which the analyser answers so; nothing where it is not refused at a place.
told() { # ANSWER
    [[ $1 =~ ^([0-9]+):([0-9]+)\ refused\ (Lexical|Unsupported|Syntax|Undeclared|Mismatch|NotConstant)$ ]] || return 0
    "$hinter" "${BASH_REMATCH[@]:1}" <"$folder/text"
}

right=0
while IFS=$'\t' read -r wanted source; do
    [[ $wanted != '#'* ]] || continue
    printf '%s\n' "$source" >"$folder/text"
    answer=$("$analyser" analyse <"$folder/text" || true)
    found=$(told "$answer")
    found=${found%%: *}
    if [ "${found:--}" = "$wanted" ]; then
        right=$((right + 1))
    else
        status=1
        printf '%s\n' "wanted $wanted, told ${found:--}, answered $answer: $source"
    fi
done <"$top/vectors/refusals.txt"
echo "sources: $right told as wanted"

python3 - "$top" "$analyser" "$folder/text" <<'END' || status=1
import glob, random, re, subprocess, sys
top, analyser, path = sys.argv[1:]
random.seed(1)
tried = wrong = 0
for example in sorted(glob.glob(top + '/examples/*.c')):
    text = re.sub(r'/\*.*?\*/', lambda it: re.sub(r'[^\n]', ' ', it[0]), open(example).read(), flags=re.DOTALL)
    places = list(re.finditer(r'[A-Za-z_]\w*|\d+|[-+*/<;=]', text))
    for it in random.sample(places, min(12, len(places))):
        word = random.choice(['1.5', 'no_such_name', '@', 'goto', '"text"', '?: 1', '= ='])
        changed = text[:it.start()] + word + text[it.end():]
        open(path, 'w').write(changed)
        answer = subprocess.run([analyser, 'replay'], input=changed.encode(), stdout=subprocess.PIPE, check=False).stdout
        place = re.fullmatch(r'(\d+):(\d+) refused ([A-Za-z]+)\n', answer.decode())
        if not place:
            continue
        tried += 1
        words = [sys.executable, top + '/tools/refusals.py', analyser, path, *place.groups()]
        told = subprocess.run(words, stdout=subprocess.PIPE, check=True).stdout.decode()
        if not re.fullmatch(r'end \d+\n', told):
            wrong += 1
            print(f'{example}: {it[0]} is {word}: {place[0]}{told}')
print(f'examples with one wrong word: {tried}, {wrong} with a further refusal')
sys.exit(wrong > 0 or tried < 50)
END

if [ -n "$cases" ]; then
    python3 - "$cases" "$hinter" <<'END'
import collections, json, re, subprocess, sys
counts = collections.Counter()
for line in open(sys.argv[1]):
    case = json.loads(line)
    place = re.match(r'(\d+):(\d+) refused (Lexical|Unsupported|Syntax|Undeclared|Mismatch|NotConstant)$', case['stdout'])
    if place:
        words = [sys.argv[2], *place.groups()]
        told = subprocess.run(words, input=case['stdin'].encode(), stdout=subprocess.PIPE, check=True).stdout
        counts[place[3], told.decode().split(': ')[0] or '-'] += 1
for (kind, told), count in sorted(counts.items()):
    print(f'{count:5} {kind}: {told}')
END
fi
exit "$status"
