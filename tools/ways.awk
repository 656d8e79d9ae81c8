# Writes, of the notes that `notes notes` writes, on what ways control comes to alarms and what races with what. Into
# the file that `ways` of the environment names, if it names one, go lines
#
#     LINE:COL CLASS path TASK LINE:COL ..
#     LINE:COL CLASS paths COUNT
#     LINE:COL races TASK stores|loads OBJECT MEMBER holds MUTEX .. with COUNT
#     LINE:COL with LINE:COL TASK stores|loads holds MUTEX ..
#
# a path for each that is shown and has a call, the outermost call first, and then the number of all paths where there
# are more; of a race each of its accesses, and behind it those that are shown of what it races with. MEMBER is a point
# where the whole object is one cell. Into the file that `log_ways` names, if it names one, goes what a log tells of the
# alarms of the report, in their order, in lines
#
#     LINE:COL CLASS with LINE:COL SENTENCE
#     LINE:COL CLASS path LINE:COL SENTENCE
#     LINE:COL CLASS call LINE:COL SENTENCE
#
# The place of a path is that of its alarm, and its calls follow, from the innermost one on. Of what an alarm races
# with, eight accesses at most are told, each once. Several sentences of one alarm that would be equal are numbered: a
# log has no two equal places or paths of an alarm, also where a macro stands at both.
#
# It reads three parts: the alarms of the report, `LINE:COL CLASS`; the end of the notes, from the number of their
# alarms on, behind which stand the names of what their numbers mean; and the alarms of the notes, of which there may be
# more than in the report, from some byte on. Those of them are told of that begin in the first `size` bytes of this
# part. It is read behind notes.awk.

BEGIN {
    begin_notes()
    MOST = 8
    WAYS = ENVIRON["ways"]
    LOG = ENVIRON["log_ways"]
    SIZE = ENVIRON["size"] + 0
    if (WAYS != "") printf "" > WAYS
    if (LOG != "") printf "" > LOG
    last_mutex = last_object = last_task = group = -1
}

# The number of the first member with a name in a text.
function member_of(text, name) {
    return substr(text, index(text, "\"" name "\":") + length(name) + 3) + 0
}

# ----- Names -----

function read_names() {
    if (section == "mutexes") mutex[++last_mutex] = old_name($8)
    else if (section == "tasks") task[++last_task] = old_name($10)
    else if (section == "races") {
        if ($2 == "accesses") group++
        if (index($0, "\"object\":")) object_of[group] = member_of($0, "object")
    } else if (section == "objects") {
        if ($2 == "col") last_object++
        if (match($0, /\}\],"name":"[^"]*/)) object[last_object] = old_name(substr($0, RSTART + 11, RLENGTH - 11))
        else if ($2 == "col" && match($0, /"name":"[^"]*/))
            object[last_object] = old_name(substr($0, RSTART + 8, RLENGTH - 8))
    }
    # (the lists of the whole stand in the order of their names, and some other lists have the names of these)
    if (/\],"count":[0-9]+,"dead":\[/) section = "dead"
    if (/"mutexes":\[$/) section = "mutexes"
    if (/\],"objects":\[$/) section = "objects"
    if (/\],"races":\[$/) section = "races"
    if (/\],"tasks":\[$/) section = "tasks"
}

# The names of the mutexes of a list, with what stands between two.
function names_of(list, between,    at, last, found, text) {
    last = split(substr(list, 2), found, ",") - 1
    for (at = 1; at <= last; at++) text = text (at > 1 ? between : "") mutex[found[at]]
    return text
}

function held_there(list) {
    return " holds" (list == "" ? "" : " " names_of(list, " "))
}

function verb_of(kind) {
    return kind == "store" ? "stores" : "loads"
}

# ----- Alarms -----

# An access of an alarm, behind which those stand with which it races, and then its race and its task.
function begin_access() {
    kind = $6
    member = $10
    held = held_there(numbers($3))
    partner_count = number($13)
    if ($16 == "race") end_access(16)
}

function end_access(field,    name) {
    name = object[object_of[number($(field + 1))]]
    accesses++
    access_text[accesses] = " races " task[number($(field + 3))] " " verb_of(kind) " " name " " \
        (member == "" ? "." : member) held " with " partner_count
    raced[accesses] = name member
    last_partner[accesses] = partners
    if ($(field + 4) == "class") begin_paths()
}

# An access with which it races. What all of one kind, of one task, under the same mutexes have alike is made once.
function read_partner(    manner) {
    manner = $5 $8 $13
    if (!(manner in partner_text)) {
        partner_text[manner] = " " task[number($13)] " " verb_of($8) held_there(numbers($5))
        said_front[manner] = $8 " of "
        said_back[manner] = " in " task[number($13)] ", " \
            (numbers($5) == "" ? "no mutex" : names_of(numbers($5), ", ")) " held"
    }
    partner_place[++partners] = substr($11, 2, length($11) - 2) ":" substr($3, 2, length($3) - 2)
    partner_manner[partners] = manner
    if ($14 == "race") end_access(14)
}

# The accesses of an alarm have been read, or its values follow: then its call paths.
function begin_paths(    text, class) {
    text = substr($0, index($0, "\"class\":"))
    class = substr(text, 10)
    class = substr(class, 1, index(class, "\"") - 1)
    place = member_of(text, "line") ":" member_of(text, "col")
    alarm = place " " class
}

function read_call(    site) {
    site = number($5) ":" number($3)
    calls = calls " " site
    calls_back = alarm " call " site " called here\n" calls_back
    if ($6 == "task") end_path(number($7))
}

function end_path(number_of_task) {
    shown_count++
    if (calls != "") {
        path[++paths] = task[number_of_task] calls
        path_task[paths] = task[number_of_task]
        path_back[paths] = calls_back
    }
    calls = calls_back = ""
}

function read_alarms() {
    if ($4 == "held") {
        read_partner()
        if ($14 != "race") return
    } else if ($2 == "held") begin_access()
    else if ($2 == "accesses") end_alarm()
    else if ($2 == "always") {
        end_alarm()
        begin_paths()
    } else if ($2 == "calls") {
        if ($4 == "task") end_path(number($5))
    } else if ($2 == "col" && $4 == "line") read_call()
    # (behind the values of an alarm, or its accesses)
    if (index($0, "\"path_count\":")) all_count = member_of($0, "path_count")
}

# ----- The lines -----

# An alarm has been read with its paths.
function end_alarm() {
    if (alarm != "" && WAYS != "") write_ways()
    if (alarm != "" && LOG != "" && alarm in is_listed) tell_log()
    accesses = partners = paths = shown_count = all_count = 0
    alarm = ""
}

function write_ways(    it, with) {
    for (it = 1; it <= paths; it++) print alarm " path " path[it] > WAYS
    if (all_count > shown_count) print alarm " paths " all_count > WAYS
    with = 1
    for (it = 1; it <= accesses; it++) {
        print place access_text[it] > WAYS
        for (; with <= last_partner[it]; with++)
            print place " with " partner_place[with] partner_text[partner_manner[with]] > WAYS
    }
}

# A sentence, with its number where the alarm has had it.
function numbered(sentence) {
    return ++said[sentence] > 1 ? sentence " (" said[sentence] ")" : sentence
}

function tell_log(    it, with, text, sentence, count) {
    split("", said)
    split("", is_told)
    for (it = 1; it <= paths; it++)
        text = text alarm " path " place " " numbered("in " path_task[it]) "\n" path_back[it]
    with = 1
    for (it = 1; it <= accesses; it++)
        for (; with <= last_partner[it] && count < MOST; with++) {
            sentence = said_front[partner_manner[with]] raced[it] said_back[partner_manner[with]]
            if ((partner_place[with], sentence) in is_told) continue
            is_told[partner_place[with], sentence] = 1
            count++
            text = text alarm " with " partner_place[with] " " numbered(sentence) "\n"
        }
    told[alarm] = text
}

part == 1 { listed[FNR] = $0; is_listed[$0] = 1; last_listed = FNR; next }
part == 2 { read_names(); next }
# (what writes this part writes all of it)
is_read { next }
{
    # Each alarm begins with one of two members.
    if (substr($0, 1, 11) == "\"accesses\":" || substr($0, 1, 9) == "\"always\":") {
        is_read = bytes >= SIZE
        if (is_read) next
        begun = 1
    }
    bytes += length($0) + 1
    if (begun) read_alarms()
    # (behind the last alarm stands their number)
    is_read = index($0, "],\"count\":")
}
END {
    end_alarm()
    if (LOG != "") for (it = 1; it <= last_listed; it++) printf "%s", told[listed[it]] > LOG
}
