# shellcheck shell=bash disable=SC2034,SC2154
# The programs that `analyse` runs: where they stand, whether they are proved, and how they come about. `analyse`,
# `install` and `test` read this file; they set `top`, the folder of the repository or of what was installed, and `me`.
#
# A proved program stands in crates/NAME/out/NAME, and beside it a stamp: the sum of the sources that it was proved
# from, and the sums of the programs' bytes. tools/prove.py keeps it in its store besides, and takes into it what
# `rt ci` keeps in a store of the kit's, where the kit has one. An unproved program stands in the folder `unproved` of
# the first store alone, by the sum of its sources, and has a stamp of its own there: no look-up for a proved program
# goes there, and nothing copies it.

# The programs, by the names of their crates: the analyser, the one that shows a report in its files, the one that joins
# the units of a project, the one that tells of a refusal what stands there, the one that writes pages, and the one that
# compares logs. `program`, `viewer`, `joiner`, `hinter`, `pager` and `comparer` are their paths, once they are found.
programs=(analyse_main report_view join_units refusal_hint report_page report_baseline)

# What `--prove` takes, as README.md has it, by the table of docs/GATE.md: processor minutes in all, and minutes for the
# longest chain of crates, each of which stands on the one before.
proof_processor_minutes=240
proof_chain_minutes=45

say() { # MESSAGE
    printf '%s: %s\n' "$me" "$1" >&2
}

fail() { # STATUS MESSAGE
    say "$2"
    exit "$1"
}

needs() { # PROGRAM..
    local name
    for name; do
        command -v "$name" >/dev/null || fail 8 "the program $name is not on the PATH"
    done
}

# The folder in which tools/prove.py keeps what is proved, and `unproved` what is not.
store() {
    local home=~
    printf '%s' "${CEDRATCLEAT_KEPT:-${XDG_CACHE_HOME:-$home/.cache}/cedratcleat}"
}

is_installed() {
    [ -f "$top/installed" ]
}

# The sources, each with what its file system says of it: where it stands there, its size, and when it or its name was
# last changed, by the machine's clock.
list_sources() { # FIND'S WORDS..
    find crates.txt crates \( -name out -prune \) -o -type f \
        \( -name '*.rt' -o -name '*.antt' -o -name crates.txt \) "$@"
}

# The sum of the names and the contents of all sources. The store keeps the last one of each checkout, and files are read
# again only where one of them has changed since.
sum_of_sources() {
    (
        CDPATH='' cd -- "$top" || exit
        state=$(list_sources -printf '%p %D %i %s %C@\n' | LC_ALL=C sort | sha256sum | cut -d ' ' -f 1)
        kept=$(store)/sums/$(pwd -P | sha256sum | cut -c 1-24)
        if read -r was sum <"$kept" && [ "$was" = "$state" ]; then
            printf '%s\n' "$sum"
            exit
        fi
        sum=$(list_sources -print0 | LC_ALL=C sort -z | xargs -0 sha256sum | sha256sum | cut -d ' ' -f 1)
        printf '%s\n' "$sum"
        # (a file that changed in this second can change once more at what its file system takes for the same time)
        [ -n "$(list_sources -newerct '2 seconds ago' -print -quit)" ] ||
            { mkdir -p -- "${kept%/*}" && printf '%s %s\n' "$state" "$sum" >"$kept.$$" && mv -f -- "$kept.$$" "$kept"; }
    ) 2>/dev/null
}

# What the first lines of a stamp have to be: the sum of the sources, and those of the programs.
stamp_of() { # SUM PROGRAM..
    printf '%s\n' "$1"
    sha256sum -- "${@:2}" | sed 's/^\\\{0,1\}\([0-9a-f]*\) .*/\1/'
}

# A line of a stamp behind these: the first names the kit.
stamp_line() { # STAMP NUMBER
    sed -n "$((${#programs[@]} + 1 + $2))p" -- "$1"
}

# Writes the stamp of the programs, behind which a line names the kit.
write_stamp() { # STAMP SUM PROGRAM..
    { stamp_of "${@:2}" && rt version; } >"$1.$$" 2>/dev/null && mv -f -- "$1.$$" "$1" 2>/dev/null
}

# The kit by which programs were built, as their stamp tells, or else the kit that there is.
kit_of() { # STAMP
    local kit
    kit=$(stamp_line "$1" 1 2>/dev/null)
    [ -n "$kit" ] || kit=$(rt version 2>/dev/null)
    printf '%s\n' "${kit:-not known}"
}

# The commit of the sources, and whether they differ from it.
commit() {
    local name=
    if is_installed; then
        name=$(stamp_line "$top/installed" 2)
    elif [ -e "$top/.git" ] && name=$(git -C "$top" rev-parse HEAD 2>/dev/null); then
        [ -z "$(git -C "$top" status --porcelain 2>/dev/null)" ] || name+=', with changes'
    fi
    printf '%s\n' "${name:-not known}"
}

# Takes the programs where the stamp is theirs and that of these sources.
take() { # KIND STAMP SUM PROGRAM..
    local it
    for it in "${@:4}"; do [ -x "$it" ] || return 1; done
    [ "$(head -n $((${#programs[@]} + 1)) -- "$2" 2>/dev/null)" = "$(stamp_of "${@:3}" 2>/dev/null)" ] || return 1
    use "$1" "$2" "${@:4}"
}

use() { # KIND STAMP PROGRAM..
    kind=$1
    stamp=$2
    program=$3
    viewer=$4
    joiner=$5
    hinter=$6
    pager=$7
    comparer=$8
}

# Sets `sum`, the sum of the sources: where the programs were installed without them, the one of which their stamp
# tells.
find_sum() {
    needs find sort xargs sha256sum cut head
    if is_installed; then sum=$(head -n 1 -- "$top/installed"); else sum=$(sum_of_sources); fi
    [ -n "$sum" ] || fail 8 "the sources of the program cannot be read"
    unproved=$(store)/unproved/${sum:0:24}
}

# The folder in which a kit that keeps what `rt ci` proved on this machine does so.
kit_store() {
    local kit
    kit=$(readlink -f -- "$(command -v rt)" 2>/dev/null)
    kit=${kit%/*}
    printf '%s' "${kit%/*/*}/rattle-kept"
}

# Whether one of the stores can have a proof of these sources of which the checkout does not know. A proof that is older
# than the unproved program is one of other sources, since the stores were asked before that was built.
may_be_proved() {
    local mark
    for mark in "$(store)"/analyse_main/*/proof "$(kit_store)"/proof-analyse_main-*; do
        [ ! -e "$mark" ] || [ "$unproved/stamp" -nt "$mark" ] || return 0
    done
    return 1
}

# Takes the programs that tools/prove.py, or the kit's `rt ci`, keeps for these sources, and copies them beside their
# crates where it can, so that the stores need not be asked again.
take_kept() {
    local number folder
    local -a found
    command -v rt python3 >/dev/null || return 1
    mapfile -t found < <(cd -- "$top" && python3 tools/prove.py --kept "${programs[@]}" 2>/dev/null)
    if [ ${#found[@]} != ${#programs[@]} ]; then
        touch -c -- "$unproved/stamp" 2>/dev/null
        return 1
    fi
    use proved '' "${found[@]}"
    for number in "${!found[@]}"; do
        folder=$top/crates/${programs[number]}/out
        { mkdir -p -- "$folder" && copy "${found[number]}" "$folder"; } 2>/dev/null || return 0
    done
    write_stamp "$top/crates/analyse_main/out/analyse_main.sum" "$sum" "${found[@]}" && take_beside
    return 0
}

# Copies a program into a folder, in one step.
copy() { # PROGRAM FOLDER
    local to=$2/${1##*/}
    cp -- "$1" "$to.$$" && mv -f -- "$to.$$" "$to"
}

take_beside() {
    local name
    local -a beside=()
    for name in "${programs[@]}"; do beside+=("$top/crates/$name/out/$name"); done
    take proved "$top/crates/analyse_main/out/analyse_main.sum" "$sum" "${beside[@]}"
}

# Sets `program`, `viewer` and the others to the proved programs of these sources, and `kind` to `proved`, where there are any.
find_proved() {
    if is_installed; then
        take proved "$top/installed" "$sum" "${programs[@]/#/$top/}" ||
            fail 8 "what is installed in $top is not whole"
    else
        take_beside || { may_be_proved && take_kept; }
    fi
}

find_unproved() {
    take unproved "$unproved/stamp" "$sum" "${programs[@]/#/$unproved/}"
}

# Proves and builds the programs by tools/prove.py, which tells its progress, and takes them.
prove() {
    needs rt python3
    { mkdir -p -- "$(store)" && [ -w "$(store)" ] && [ -w "$top/crates/analyse_main" ]; } 2>/dev/null ||
        fail 8 "a proof writes into $(store) and into the crates below $top, and one of them cannot be written"
    (cd -- "$top" && exec python3 tools/prove.py "${programs[@]}" </dev/null) >&2 || {
        # (the status where it was interrupted, which it has told)
        [ $? != 130 ] || exit 130
        fail 8 "the programs are not proved: a line above names the log of each crate that failed"
    }
    take_kept || fail 8 "the programs are proved, and $(store) does not have them"
}

# Builds the programs without their proofs, once for these sources, and takes them. Whoever comes second waits.
build_unproved() {
    needs rt flock mktemp
    { mkdir -p -- "${unproved%/*}" && exec 9>"${unproved%/*}/lock"; } 2>/dev/null ||
        fail 8 "the program has to be built, and ${unproved%/*} cannot be written"
    flock 9
    if ! find_unproved; then
        rm -rf -- "${unproved%/*}"/making-* "$unproved"
        room=$(mktemp -d "${unproved%/*}/making-XXXXXX") || fail 8 "${unproved%/*} cannot be written"
        say "no proved program is there: building an unproved one, once for these sources, in some three minutes"
        "$top/tools/unproved.sh" "$room" "${programs[@]}" 9>&- || fail 8 "the program cannot be built: the lines above say why"
        { write_stamp "$room/stamp" "$sum" "${programs[@]/#/$room/}" &&
            mv -T -- "$room" "$unproved"; } || fail 8 "$unproved cannot be written"
        # What no run has built in a month goes.
        find "${unproved%/*}" -mindepth 1 -maxdepth 1 -type d -mtime +30 -exec rm -rf {} + 2>/dev/null
    fi
    exec 9>&-
    find_unproved || fail 8 "the unproved program is not in $unproved"
}

# How long a proof takes on this machine, in words.
time_of_proof() {
    local processors minutes
    processors=$(nproc 2>/dev/null || echo 1)
    minutes=$((proof_processor_minutes * 11 / 10 / processors))
    [ "$minutes" -ge "$proof_chain_minutes" ] || minutes=$proof_chain_minutes
    printf 'about %d minutes on %d processors' "$minutes" "$processors"
}

# Sees that there are programs to run: the proved ones, or else unproved ones, which are built where there are none.
find_programs() { # KIND: any or unproved
    find_sum
    if [ "$1" = any ] && find_proved; then return; fi
    ! is_installed || fail 8 "only the proved programs are installed"
    find_unproved || build_unproved
}

# Says where the program is not proved.
tell_proof() {
    [ "$kind" = proved ] ||
        say "UNPROVED: nothing shows that this report is sound; $0 --prove proves the program, in $(time_of_proof)"
}
