# Writes the lines of a report with those of races in groups: for each object a warning where the first of its alarms
# stands, which names the tasks of the worst pair of its accesses, and below it a note at each access that races, those
# of the pair first and eight at most, and one where the object is declared. The worst pair is one that both store, of
# these one with the fewest mutexes, and of these the first. Behind the number of alarms stands how many are of races.
#
# It reads six parts: the places of declarations, `LINE:COL`, in a line each; these places in their files, line by line;
# the alarms, `LINE:COL CLASS`; the whole notes, as `notes notes` writes them, with `{` as what ends a record and `"` as
# what parts its fields, so that a record is an object of JSON up to the next one; the lines of the alarms; and these
# lines as they stand beside comments: one that is another there stays, and begins no group. It is read behind
# notes.awk.

BEGIN {
    begin_notes()
    MOST = 8
    last_mutex = last_object = last_task = group = -1
}

# ----- The notes -----

# How many numbers such a list has.
function count_of(list) {
    return list == "" ? 0 : gsub(/[0-9]+/, "&", list)
}

# Reads the members of an object from a field on, up to the first that is a list of objects: texts and numbers.
function read_members(field) {
    delete value["name"]
    for (; field < NF; field += 2) {
        if ($(field + 1) != ":") {
            value[$field] = number($(field + 1))
            continue
        }
        value[$field] = $(field + 2)
        field += 2
    }
}

# An access is a word for each of its place, its task, its kind and its mutexes, or without the last.

# Reads an access of an alarm. Its partners follow, and behind them its group and its task.
function begin_access() {
    accesses++
    kind = $6
    held = numbers($3)
    held_count = count_of(held)
    found[accesses] = ""
    is_settled = 0
    if ($16 == "race") end_access(16)
}

# Reads a partner, which counts where the report has an alarm at its place too, and no better one was there. Where one
# is as good as any, the further ones are passed over.
function read_partner(    place, rank) {
    if (!($5 in length_of)) length_of[$5] = count_of(numbers($5))
    rank = (kind == "store" && $8 == "store" ? 0 : 1000) + held_count + length_of[$5]
    if (found[accesses] == "" || rank < found_rank[accesses]) {
        place = number($11) ":" number($3)
        if (place in races) {
            found[accesses] = place " " number($13) " " $8 " " numbers($5)
            found_rank[accesses] = rank
            is_settled = rank == (kind == "store" ? 0 : 1000) + held_count
        }
    }
    if ($14 == "race") end_access(14)
}

# Reads the end of an access, and of its alarm where it is the last of it.
function end_access(field,    place, it, of) {
    is_settled = 0
    group_of[accesses] = number($(field + 1))
    own[accesses] = number($(field + 3)) " " kind " " held
    if ($(field + 4) != "class") return
    read_members(field + 4)
    place = value["line"] ":" value["col"]
    for (it = 1; it <= accesses; it++) {
        of = group_of[it]
        if (!(place in races) || found[it] == "" || (of in rank_of && rank_of[of] <= found_rank[it])) continue
        rank_of[of] = found_rank[it]
        one[of] = place " " own[it]
        other[of] = found[it]
    }
    accesses = 0
}

# Reads an access to the object of a group, and behind the last one the mutex that is held at most of them, at how many,
# and the object.
function read_access(    place, access) {
    count[group]++
    place = number($13) ":" number($3)
    if ($19 ~ /true/ && place in races) {
        access = place " " number($21) " " $10 " " numbers($7)
        racing[group, ++racing_count[group]] = access
        member[group, access] = $16
        if (!((place, group) in is_at)) groups_at[place, ++group_count[place]] = group
        is_at[place, group] = 1
    }
    if ($22 != "mutex") return
    guard[group] = $23 ~ /null/ ? -1 : number($23)
    guarded[group] = number($25)
    object[group] = number($27)
}

# Reads an object, or the last of its members, behind which its name stands.
function read_object() {
    if ($2 == "col") {
        last_object++
        read_members(2)
        declared[last_object] = value["line"] ":" value["col"]
    } else if ($0 ~ /\}\],"name":"/) read_members(2)
    else return
    object_name[last_object] = old_name(value["name"])
}

function read_notes() {
    if (section == "" && $2 == "held") begin_access()
    else if (section == "" && $2 == "col" && $4 == "held") read_partner()
    else if (section == "mutexes") mutex[++last_mutex] = old_name($8)
    else if (section == "objects") read_object()
    else if (section == "races" && $2 == "accesses") group++
    else if (section == "races") read_access()
    else if (section == "tasks") task[++last_task] = old_name($10) \
        ($5 ~ /true/ ? " (before the tasks run)" : " (priority " number($13) ")")
    # (the lists of the whole stand in the order of their names, and some other lists have the names of these)
    if (substr($0, length($0)) != "[") return
    if (/"mutexes":\[$/) section = "mutexes"
    if (/\],"objects":\[$/) section = "objects"
    if (/"races":\[$/) section = "races"
    if (/"tasks":\[$/) section = "tasks"
}

# ----- The lines -----

# The mutexes of an access.
function held_there(list,    at, names, text) {
    if (list == "") return "no mutex held"
    split(substr(list, 2), names, ",")
    for (at = 1; names[at] != ""; at++) text = text (at > 1 ? ", " : "") mutex[names[at]]
    return text " held"
}

function tell_access(of, access,    words) {
    split(access, words, " ")
    print at[words[1]] ": note: " words[3] " of " object_name[object[of]] member[of, access] " in " task[words[2]] \
        ", " held_there(words[4])
}

# The task of an access.
function task_of(access,    words) {
    split(access, words, " ")
    return task[words[2]]
}

# Where and how an object is guarded: the tasks are those of racing accesses without its mutex.
function guard_of(of,    it, words, text, names) {
    if (guard[of] < 0 || !guarded[of]) return "no mutex is held at any of the " count[of] " accesses"
    for (it = 1; it <= racing_count[of]; it++) {
        split(racing[of, it], words, " ")
        if (index(words[4], "," guard[of] ",") || words[2] in names) continue
        names[words[2]] = 1
        text = text (text == "" ? "; racing accesses without it are in " : ", ") task[words[2]]
        sub(/ \([^)]*\)$/, "", text)
    }
    return mutex[guard[of]] " is held at " guarded[of] " of the " count[of] " accesses" text
}

# Tells of an object at a place of its file.
function tell_group(of, place,    name, it, told_here, swapped) {
    name = object_name[object[of]]
    if (one[of] ~ / load/) {
        swapped = one[of]
        one[of] = other[of]
        other[of] = swapped
    }
    print place ": warning: " name " is accessed by " \
        (of in one ? task_of(one[of]) ", " task_of(other[of]) : "several tasks") " without a common mutex: " \
        racing_count[of] " of its " count[of] " accesses race [RACE]"
    for (it = 1; it <= 2; it++) {
        access = it == 1 ? one[of] : other[of]
        if ((of, access) in member) {
            tell_access(of, access)
            told_here++
        }
    }
    for (it = 1; it <= racing_count[of] && told_here < MOST; it++)
        if (racing[of, it] != one[of] && racing[of, it] != other[of]) {
            tell_access(of, racing[of, it])
            told_here++
        }
    if (told_here < racing_count[of])
        print place ": note: and " (racing_count[of] - told_here) " more"
    if (declared[object[of]] in shown)
        print shown[declared[object[of]]] ": note: " name " is declared here; " guard_of(of)
    else print place ": note: " guard_of(of)
}

part == 1 { places[FNR] = $0; next }
part == 2 { shown[places[FNR]] = $0; next }
part == 3 {
    alarm[FNR] = $1
    alarms = FNR
    if ($2 == "RACE") races[$1] = is_race[FNR] = 1
    next
}
part == 4 && is_settled && !index($0, "\"race\":") { next }
part == 4 { read_notes(); next }
part == 5 {
    line[FNR] = $0
    if (FNR in alarm && match($0, /: warning: [^:]*$/)) at[alarm[FNR]] = substr($0, 1, RSTART - 1)
    next
}
!(FNR in alarm) {
    if (FNR == alarms + 1 && race_alarms)
        $0 = $0 ": " (alarms - race_alarms) " of values and locks, " race_alarms " of races at " \
            objects (objects == 1 ? " object" : " objects")
    print
    next
}
!(FNR in is_race) { print; next }
{
    race_alarms++
    if ($0 != line[FNR] || !group_count[alarm[FNR]]) print
    for (it = 1; it <= group_count[alarm[FNR]]; it++) {
        of = groups_at[alarm[FNR], it]
        if (!was_counted[of]++) objects++
        if ($0 == line[FNR] && !was_told[of]++) tell_group(of, at[alarm[FNR]])
    }
}
