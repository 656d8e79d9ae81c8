#!/usr/bin/env bash
# Runs the example of a project as builds, editors and build servers do: benches/project.sh [--unproved]. It needs gcc,
# make, python3, and cmake, without which that part is left out.
#
# The Makefile's target, the target of CMake, the units of a compile_commands.json and the job of the build server give
# the report that stands beside the example, and fail, since it has alarms. The regular expression of the editor's task
# takes each of its lines.
set -eu
here=$(cd "$(dirname "$0")" && pwd)
top=${here%/*}
work=$(mktemp -d)
trap 'rm -rf -- "$work"' EXIT
mkdir "$work/bin"
printf '#!/bin/sh\nexec "%s/analyse"%s "$@"\n' "$top" "${*:+ $*}" >"$work/bin/analyse"
chmod +x "$work/bin/analyse"
project=$work/project
cp -R "$top/examples/project" "$project"
cd "$project"
wanted=$(cat project.report)

# What a command writes, and its status behind it.
told() { # COMMAND WORDS..
    local status=0
    "$@" 2>"$work/err" || status=$?
    echo "status $status"
}

same() { # WANTED GOT WHAT
    if [ "$1" != "$2" ]; then
        printf '%s: wanted\n%s\nand not\n%s\n' "$3" "$1" "$2"
        cat "$work/err"
        exit 1
    fi
    echo "$3: as wanted"
}

# The lines of a text that the editor's task takes, as it takes them: their file, line, column, severity and code.
matched() { # TEXT
    python3 -c 'import json, re, sys
pattern = json.load(open("editor/tasks.json"))["tasks"][0]["problemMatcher"]["pattern"]
for line in open(sys.argv[1]):
    found = re.search(pattern["regexp"], line.rstrip("\n"))
    if found:
        print(*(found[pattern[it]] for it in ("file", "line", "column", "severity", "code")), sep=":")' "$1"
}

# What the editor's task has to take of the report: a note has no class.
problems() { # REPORT
    sed -nE 's/^(.*:[0-9]+:[0-9]+): ([a-z]+): .* \[(.*)\]$/\1:\2:\3/p; s/^(.*:[0-9]+:[0-9]+): note: .*$/\1:note:None/p' "$1"
}

# A report in which each alarm has a line of its own, as of a certificate.
each_alarm() { # COMMAND WORDS..
    told "$@" --why pump.c display.c | sed -n '/: warning: /p; /^alarms /p'
}

# The Makefile.
by_make=(make -s "top=$top" "ANALYSE=$work/bin/analyse")
same "$wanted"$'\nstatus 2' "$(told "${by_make[@]}" check)" "make check"
same "$wanted"$'\nstatus 0' "$(told "${by_make[@]}" analyse)" "make analyse"
same "status 0" "$(told "${by_make[@]}" syntax CC='gcc -Werror')" "make syntax"

# The editor's task runs `make check`, and takes each line of it but the last; so it does of a refusal.
mapfile -t words < <(python3 -c 'import json
task = json.load(open("editor/tasks.json"))["tasks"][0]
print(task["command"], *task["args"], sep="\n")')
"${words[@]}" "${by_make[@]:2}" >"$work/report" 2>"$work/err" || true
same "$(problems project.report)" "$(matched "$work/report")" "the editor's task"
[ "$(matched "$work/report" | wc -l)" = "$(($(wc -l <project.report) - 1))" ]
printf 'int\n=;\n' >"$work/refused.c"
told "$work/bin/analyse" "$work/refused.c" >"$work/report"
same "$work/refused.c:2:1:error:Syntax" "$(matched "$work/report")" "the editor's task, of a refusal"

# A database as builds write it, with each form of the flags, and of `command` and `arguments`.
mkdir -p build more
printf '#define PUMP_STARTS 4\n' >more/starts.h
sed -i 's/level = 4/level = PUMP_STARTS/' pump.c
sed -i 's/PERCENT(1, level)/PERCENT(ONE, level)/' display.c
python3 - "$top" "$project" >build/compile_commands.json <<'DATABASE'
import json, sys
top, project = sys.argv[1:]
json.dump([
    {"directory": project + "/build", "file": "../pump.c",
     "arguments": ["gcc", "-I", "../more", "-include", "starts.h", "-iquote", top + "/include", "-c", "../pump.c"]},
    {"directory": project, "file": project + "/display.c",
     "command": f"gcc -D 'ONE=1' -DTWO -U TWO -iquote '{top}/include' -c display.c"},
    {"directory": project, "file": "target.cpp", "command": "gcc target.cpp"}], sys.stdout)
DATABASE
by_database=("$work/bin/analyse" --compile-commands build/compile_commands.json)
same "$wanted"$'\nstatus 1' "$(told "${by_database[@]}")" "the units of a database"
same "$wanted"$'\nstatus 1' "$(told "${by_database[@]}" pump.c display.c --workers 2)" "units that are named"
(cd build && told "$work/bin/analyse" --compile-commands compile_commands.json) >"$work/report"
same "$wanted"$'\nstatus 1' "$(sed "s|^$project/||" "$work/report")" "the same from another folder"
same "status 3" "$(told "${by_database[@]}" target.cpp)" "a file that is no unit"
same "status 4" "$(told "$work/bin/analyse" --compile-commands pump.c)" "what is no database"
same "status 4" "$(told "$work/bin/analyse" --compile-commands none.json)" "a database that is not there"
same "status 3" "$(told "$work/bin/analyse" --check --compile-commands none.json pump.c)" "a database for a certificate"
printf '[]' >"$work/empty.json"
same "status 4" "$(told "$work/bin/analyse" --compile-commands "$work/empty.json")" "a database without a C file"
printf '[{"directory":"%s","file":"pump.c"}]' "$project" >"$work/bare.json"
same "status 4" "$(told "$work/bin/analyse" --compile-commands "$work/bare.json")" "a database without a command"
printf '[{"directory":"%s","file":"pump.c","command":"cc -DA"},{"directory":"%s","file":"pump.c","command":"cc"}]' \
    "$project" "$project" >"$work/twice.json"
same "status 4" "$(told "$work/bin/analyse" --compile-commands "$work/twice.json")" "a file of two programs"
grep -q 'more than once' "$work/err"

# A certificate of a project is one of its joined text, and is shown in its files.
"${by_database[@]}" --certify >"$work/proof" 2>"$work/err"
same "$(each_alarm "$work/bin/analyse" --compile-commands build/compile_commands.json)"$'\ncertified\nstatus 1' \
    "$(told "$work/bin/analyse" --check "$work/proof")" "a certificate of a project"
cd "$top/examples/units"
"$work/bin/analyse" --certify setup.c drive.c share.c >"$work/proof" 2>"$work/err"
units=$(cat units.report)
same "$units"$'\nstatus 1' "$(told "$work/bin/analyse" setup.c drive.c share.c)" "units with a name in common"
same "$units"$'\ncertified\nstatus 1' "$(told "$work/bin/analyse" --check "$work/proof")" "a certificate of these"
cd "$project"
cp "$top/examples/project"/*.c .

# The target of CMake, and the database that CMake exports.
if command -v cmake >/dev/null; then
    cmake -S . -B build -DCEDRATCLEAT_ANALYSE="$work/bin/analyse" -DCEDRATCLEAT_INCLUDE="$top/include" >"$work/err" 2>&1
    told cmake --build build --target cedratcleat >"$work/report"
    same "$(problems project.report)" "$(matched "$work/report")" "the target of CMake"
    if grep -q '^status 0$' "$work/report"; then exit 1; fi
    same "$wanted"$'\nstatus 1' "$(told "${by_database[@]}" pump.c display.c)" "the database of CMake"
    cmake --build build >"$work/err" 2>&1
    same "share 25 level 0 pumping 0" "$(build/target)" "the program of CMake"
else
    echo "cmake is not there: its target and its database are left out"
fi

# The step of the build server's job, as its shell runs it: it fails, and its log has the lines of the report.
sed -n '/^        run: |$/,/^$/p' ci/cedratcleat.yml | sed '1d; s/^          //' >"$work/step.sh"
step=(env GITHUB_OUTPUT="$work/output" PATH="$work/bin:$PATH" bash --noprofile --norc -eo pipefail "$work/step.sh")
same "status 1" "$(told "${step[@]}")" "the job of a build server"
same "status=1" "$(cat "$work/output")" "what it hands on"
python3 "$here/sarif.py" cedratcleat.sarif

# The step of the job with a baseline: it passes where nothing is new, also in a line that moved, and fails where
# something is; its log is the next baseline.
sed -n '/^        run: |$/,/^$/p' ci/baseline.yml | sed '1d; s/^          //' >"$work/compare.sh"
compare=(env GITHUB_OUTPUT="$work/output" PATH="$work/bin:$PATH" bash --noprofile --norc -eo pipefail "$work/compare.sh")
: >"$work/output"
sed -i '1i /* a line more */' display.c
same "status 0" "$(told "${compare[@]}" | tail -n 1)" "the job with a baseline"
same "status=0" "$(cat "$work/output")" "what it hands on"
python3 "$here/sarif.py" new.sarif
printf '__task(9) void more(void) { pressure = 1 / __input(0, 1); }\nint pressure;\n' >>display.c
sed -i 's/^__task(9)/int pressure;\n&/' display.c
same "status 1" "$(told "${compare[@]}" | tail -n 1)" "the job where an alarm is new"
mv new.sarif cedratcleat.sarif
same "status 0" "$(told "${compare[@]}" | tail -n 1)" "the job where it is known"

printf 'int\n=;\n' >display.c
told "${step[@]}" >"$work/report"
same $'display.c:1:4:error:Syntax' "$(matched "$work/err" | sed 's/:[0-9]*:[0-9]*:/:1:4:/')" "a refusal in the job"
same "status 2" "$(tail -n 1 "$work/report")" "its status"
echo "all as wanted"
