# Writes the lines of a report in its files, and below each why its alarm stands there. It reads eight parts: the places
# of the notes, `LINE:COL`, in a line each; these places in their files, line by line; the notes on races, those on the
# other alarms and the advice on these, as `notes` writes them; the ways to alarms, as `ways.awk` writes them; the
# report as it counts the lines of the text, and as its files do. Where `form` of the environment is `page`, each line
# of the report has one line behind it with all that is told of it, as a page shows it there: with the markup that
# page.awk knows.

BEGIN {
    # Bounds of types (C99 5.2.4.2.1), and those that the types long and unsigned long have instead.
    split("-2147483648 INT_MIN 2147483647 INT_MAX 4294967295 UINT_MAX -9223372036854775808 LLONG_MIN " \
        "9223372036854775807 LLONG_MAX 18446744073709551615 ULLONG_MAX", bounds, " ")
    for (at = 1; at in bounds; at += 2) bound["" bounds[at]] = bounds[at + 1]
    longs["INT_MIN"] = "LONG_MIN"
    longs["INT_MAX"] = "LONG_MAX"
    longs["UINT_MAX"] = "ULONG_MAX"
    MOST = 8
    PAGE = ENVIRON["form"] == "page"
    LINK = "\033"; LINKED = "\034"; LINK_END = "\035"; NOTE = "\036"; NOTE_END = "\037"
}

# The words from one field to another, with commas, or what stands for none.
function listed(first, last, none,    text, at) {
    for (at = first; at <= last; at++) text = text (at > first ? ", " : "") $at
    return text == "" ? none : text
}

# A number, by the name of the bound that it is.
function named(number, type) {
    if (!(("" number) in bound)) return number
    number = bound["" number]
    return type ~ /^(unsigned )?long$/ && number in longs ? longs[number] : number
}

# A set of numbers.
function range(low, high, step, type) {
    return named(low, type) (high == low ? "" : " to " named(high, type) (step > 1 ? " in steps of " step : ""))
}

# What a note at a place begins with, where the alarm stands here.
function begun_at(place, here,    at) {
    at = shown[place]
    if (!PAGE) return at ": note: "
    if (at == shown[here]) return NOTE
    if (!(at in links)) links[at] = NOTE (at in line_of ? LINK line_of[at] LINKED at LINK_END : at) ": "
    return links[at]
}

# What it ends with.
function ended() {
    return PAGE ? NOTE_END : "\n"
}

function note(at, text) {
    printf "%s", begun_at(at, place) text ended()
}

# The values of an operand, or what stands for those that are no numbers.
function values(key, role) {
    return (key, role) in numbers ? numbers[key, role] : "any value"
}

# ----- Alarms of values and locks -----

# Lines differ in little but their places: what is the same behind a place is looked at once, and kept by this text.

# Reads a line on an alarm, on one of its operands, or on a pointer among the values of that.
function read_alarm(    at, rest) {
    at = index($0, " ")
    rest = substr($0, at + 1)
    if (!(rest in sort_of)) sort_of[rest] = sort_of_line()
    if (sort_of[rest] == "alarm") {
        if (!(rest in operator)) read_head(rest)
        key = substr($0, 1, at) class_of[rest]
        head[key] = rest
    } else if (sort_of[rest] == "object") objects[key, role, ++count[key, role]] = $0
    else if (sort_of[rest] == "flaw") bad[key, $1, $4] = 1
    else if (substr($0, 1, at - 1) in shown) read_operand(rest)
}

# What the line is of: one of an object of a pointer, LINE:COL NAME of SIZE at LEAST GREATEST STRIDE, one of what is
# wrong with a pointer to an object, LINE:COL NAME bad FLAW, the first one of an alarm, or one of an operand.
function sort_of_line() {
    if ($3 == "of" && $5 == "at") return "object"
    if (NF == 4 && $3 == "bad") return "flaw"
    return $2 ~ /^[A-Z]+$/ ? "alarm" : "operand"
}

# Reads the first line of an alarm: LINE:COL CLASS OPERATOR .. edges N [always] tasks NAME PRIORITY ..
function read_head(rest,    at, text) {
    class_of[rest] = $2
    operator[rest] = $3
    at = 4
    if ($2 == "LOCK") {
        mutex[rest] = $4
        rule[rest] = $5
        at = 6
    }
    for (; $at != "edges"; at++) {
        if ($at == "in") type[rest] = listed_type(at + 1)
        if ($at == "of") elements[rest] = $(at + 1)
        if ($at == "cells") cells[rest] = $(at + 1)
    }
    at += 2
    if ($at == "always") {
        always[rest] = 1
        at++
    }
    for (at++; at < NF; at += 2) {
        text = text (text == "" ? "in " : ", ") $at \
            ($(at + 1) == "initial" ? " (before the tasks run)" : " (priority " $(at + 1) ")")
    }
    tasks[rest] = text
}

# The words of a type.
function listed_type(at,    text) {
    for (; $at != "edges"; at++) text = text (text == "" ? "" : " ") $at
    return text
}

# Reads the line of an operand: LINE:COL ROLE [LEAST GREATEST STRIDE] [null] [invalid]
function read_operand(rest,    computed, at) {
    computed = type[head[key]]
    if (!((computed, rest) in role_of)) {
        role_of[computed, rest] = $2
        if ($3 ~ /^-?[0-9]+$/) span_of[computed, rest] = range($3, $4, $5, computed)
        for (at = 3; at <= NF; at++) if ($at == "null" || $at == "invalid") is_bad[computed, rest] = 1
    }
    role = role_of[computed, rest]
    if ((computed, rest) in span_of) numbers[key, role] = span_of[computed, rest]
    if (!((computed, rest) in is_bad)) return
    for (at = 3; at <= NF; at++) if ($at == "null" || $at == "invalid") is[key, role, $at] = 1
}

# Tells of an object to which a pointer may lead, in elements where it consists of whole ones and they are known.
function tell_object(key, text,    words, size, unit, low, high, step, sentence, of_element) {
    split(text, words, " ")
    size = words[4]
    low = words[6]
    high = words[7]
    step = words[8]
    unit = 1
    of_element = cells[head[key]]
    if (of_element > 1 && size % of_element + low % of_element + high % of_element + step % of_element == 0)
        unit = of_element
    sentence = "the pointer may lead to " words[2] ", which is declared here"
    if (size > 1 || high > 0) {
        sentence = sentence " and has " counted(size / unit, unit > 1 || of_element == 1 ? "element" : "cell") ": " \
            (high == 0 ? "at" : range(low / unit, high / unit, step / unit) " behind") " its beginning"
        if (high == size) sentence = sentence ", and so behind its last"
    }
    note(words[1], sentence)
    if ((key, words[1], "gone") in bad) note(words[1], words[2] " is not there any more where the pointer is followed")
    if ((key, words[1], "offset") in bad)
        note(words[1], "where the pointer may lead in " words[2] ", nothing of its type may begin")
    if ((key, words[1], "before") in bad) note(words[1], "the sum may lie before " words[2])
    if ((key, words[1], "behind") in bad) note(words[1], "the sum may lie behind the end of " words[2])
}

function counted(number, unit) {
    return number " " unit (number == 1 ? "" : "s")
}

# Tells of a pointer: what it may be, and where it may lead.
function tell_pointer(key, role,    at) {
    if (is[key, role, "null"] && operator[head[key]] != "pointer") note(place, "the pointer may be null")
    if (is[key, role, "invalid"]) note(place, "the pointer may not have been set")
    for (at = 1; at <= count[key, role] && at <= MOST; at++) tell_object(key, objects[key, role, at])
    if (at <= count[key, role])
        note(place, "the pointer may lead to " counted(count[key, role] - MOST, "further object"))
}

# Tells of the array of a subscript.
function tell_array(key,    at, words) {
    for (at = 1; at <= count[key, "array"] && at <= MOST; at++) {
        split(objects[key, "array", at], words, " ")
        note(words[1], "the array stands in " words[2] ", which is declared here")
    }
}

function tell_alarm(key, class,    at_head, computes) {
    at_head = head[key]
    if (class == "DIV")
        note(place, "the divisor is " values(key, "right") " here, and the dividend is " values(key, "left"))
    else if (class == "OVERFLOW" || class == "SHIFT") {
        computes = operator[at_head] " computes in " type[at_head]
        if (class == "SHIFT")
            note(place, computes ", and shifts " values(key, "left") " by " values(key, "right") " here")
        else if ((key, "operand") in numbers)
            note(place, computes ", and its operand is " values(key, "operand") " here")
        if (class == "OVERFLOW" && (key, "left") in numbers)
            note(place, computes ", and its operands are " values(key, "left") " and " values(key, "right") " here")
    } else if (class == "INDEX") {
        note(place, "the subscript is " values(key, "subscript") " here, and the array has " \
            counted(elements[at_head], "element"))
        tell_array(key)
    } else if (class == "POINTER" && operator[at_head] == "pointer") note(place, "a pointer is compared here")
    else if (class == "POINTER")
        note(place, values(key, "offset") (operator[at_head] == "-" ? " is taken from" : " is added to") \
            " the pointer here, in elements of " counted(cells[at_head], "cell"))
    else if (class == "LOCK" && rule[at_head] == "relock")
        note(place, mutex[at_head] " is held already where it is locked here")
    else if (class == "LOCK" && rule[at_head] == "unheld")
        note(place, mutex[at_head] " is not held where it is unlocked here")
    if (class == "POINTER" || class == "DEREF") tell_pointer(key, "pointer")
    note(place, tasks[at_head])
    if (at_head in always)
        note(place, "a run that comes here so always ends here: what stands behind is not analysed for such runs")
}

# ----- Advice -----

# Reads the first line of advice: LINE:COL CLASS CAUSE [ROLE]. Behind it stand the steps of the way back: PLACE KIND
# TASK [LEAST GREATEST] [null] [invalid] [of NAME], where a point stands for a place that is not known.
function read_cause(    advised) {
    advised = $1 " " $2
    cause[advised] = $3
    blamed[advised] = $4
    way[++steps] = ""
    first_step[advised] = steps + 1
}

# What the operand to blame is called.
function operand_named(key) {
    if (blamed[key] == "right" && key ~ / DIV$/) return "divisor"
    return blamed[key] == "pointer" || blamed[key] == "subscript" || blamed[key] == "offset" ? blamed[key] : "value"
}

# What is wrong with the pointers of a step, if something is.
function flaws(step,    text) {
    if (step ~ / null( |$)/) text = "null"
    if (step ~ / invalid( |$)/) text = text (text == "" ? "" : " or ") "never set"
    return text
}

# What is loaded or stored.
function moved(span, bad) {
    return span != "" ? span : "a pointer" (bad != "" ? " that may be " bad : "")
}

# What a step of the way back says, without its place, or nothing. Operators, addresses and constants that are numbers
# are passed over: what they give stands at the step before them.
function said_of(step, what,    words, last, name, span, bad) {
    last = split(step, words, " ")
    name = words[last - 1] == "of" && last > 3 ? words[last] : "the object"
    if (words[3] ~ /^-?[0-9]+$/) span = range(words[3], words[4], 0, "")
    bad = flaws(step)
    if (words[1] == "load") return words[2] " reads " moved(span, bad) " from " name " here"
    if (words[1] == "store") return words[2] " stores " moved(span, bad) " to " name " here"
    if (words[1] == "loop") return "here the way back was before: the " what " changes from turn to turn of a loop"
    if (words[1] == "alarm") return "the " what " comes from here, where another alarm stands: see that first"
    if (words[1] == "input") return "an input, or a function that may end without return, gives " span " here"
    if (words[1] == "volatile") return "a volatile object may be " (span != "" ? span : "any pointer") " here"
    if (words[1] == "open") return name " may not have been set"
    if (words[1] == "initial") return name " may be as it was before the program ran"
    if (words[1] == "unset") return "what a function gives here that may end without return is used"
    if (words[1] == "constant" && bad != "") return "null is meant here"
    return ""
}

# Tells the way back from the operand to blame, as far as it was not told already.
function tell_way(key,    it, at, cut, step, what) {
    at = place
    what = operand_named(key)
    if (key in first_step) for (it = first_step[key]; way[it] != ""; it++) {
        cut = index(way[it], " ")
        step = substr(way[it], 1, cut - 1)
        if (step in shown) at = step
        step = what substr(way[it], cut)
        if (!(step in said)) {
            said[step] = said_of(substr(way[it], cut + 1), what)
            is_moved[step] = substr(way[it], cut) ~ /^ (load|store) /
        }
        if (is_moved[step] && told_steps[way[it]]++) {
            note(at, "further back as above")
            break
        }
        if (said[step] != "") note(at, said[step])
    }
    if (cause[key] == "interference") note(place, "without what other tasks store meanwhile no such value is here")
}

# ----- Call paths -----

# Reads a call path: LINE:COL CLASS path TASK LINE:COL ..
function read_path() {
    paths[$1 " " $2, ++path_count[$1 " " $2]] = $0
}

# Tells by which calls tasks come to an alarm: at the innermost call of each path.
function tell_paths(key,    at, words, last, call, text) {
    if (!(key in path_count) && !(key in all_paths)) return
    for (at = 1; at <= path_count[key]; at++) {
        last = split(paths[key, at], words, " ")
        text = ""
        for (call = 5; call < last; call++) text = text (call > 5 ? ", " : "") shown[words[call]]
        note(words[last], words[4] " comes here by " (text == "" ? "this call" : \
            "the call" (last > 6 ? "s" : "") " at " text " and this one"))
    }
    if (key in all_paths) note(place, "there are " all_paths[key] " call paths to here, of which these are the first")
}

# ----- Races -----

# Reads an access to an object: LINE:COL TASK stores|loads holds MUTEX .. free MUTEX .. [races]
function read_access(    last) {
    last = NF - ($NF == "races")
    accesses[group]++
    if (last == NF) return
    racing[group]++
    if (!(($1, group) in races_at)) {
        races_at[$1, group] = 1
        groups_at[$1] = groups_at[$1] " " group
    }
}

# Reads an access that races: LINE:COL races TASK stores|loads OBJECT MEMBER holds MUTEX .. with COUNT
function read_race() {
    raced = $1 " " ++races[$1]
    race_notes[raced] = begun_at($1, $1) $3 " " $4 " " $5 ($6 == "." ? "" : $6) " here, holds " \
        listed(8, NF - 2, "nothing") ", and races with " counted_accesses($NF) ended()
}

function counted_accesses(number) {
    return number " access" (number == 1 ? "" : "es") (number > MOST ? ", of which these are the first" : "")
}

# Reads what it races with elsewhere, since what it races with here has a line of its own:
# LINE:COL with LINE:COL TASK stores|loads holds MUTEX ..
function read_partner() {
    if ($3 != $1) race_notes[raced] = race_notes[raced] begun_at($3, $1) $4 " " $5 " it here, holds " \
        listed(7, NF, "nothing") ended()
}

# Tells of the objects that are raced for here, of each once, of each access here, and of what it races with elsewhere.
function tell_race(    at, numbers_of, group) {
    split(groups_at[place], numbers_of, " ")
    for (at = 1; at in numbers_of; at++) {
        group = numbers_of[at]
        if (!told[group]++)
            note(of[group], name[group] " is declared here; " racing[group] " of its " accesses[group] " accesses race")
    }
    for (at = 1; at <= races[place]; at++) printf "%s", race_notes[place " " at]
}

# ----- The parts -----

part == 1 { places[FNR] = $0; next }
part == 2 {
    shown[places[FNR]] = $0
    if (PAGE && !($0 in line_of)) line_of[$0] = substr(places[FNR], 1, index(places[FNR], ":") - 1)
    next
}
part == 3 && NF == 4 && $3 == "RACES" {
    of[++group] = $1
    name[group] = $2
    next
}
part == 3 && $4 == "holds" { read_access(); next }
part == 4 { read_alarm(); next }
part == 5 && /^[0-9]+:[0-9]+ [A-Z]+ / { read_cause(); next }
part == 5 && !/^causes / { way[++steps] = $0; next }
part == 6 && $3 == "path" { read_path(); next }
part == 6 && $3 == "paths" { all_paths[$1 " " $2] = $4; next }
part == 6 && $2 == "races" { read_race(); next }
part == 6 && $2 == "with" { read_partner(); next }
part == 7 { alarms[FNR] = $1; classes[FNR] = $2; next }
part == 8 {
    print
    place = alarms[FNR]
    class = classes[FNR]
    if (class == "RACE") tell_race()
    else if ((place " " class) in head) {
        tell_alarm(place " " class, class)
        tell_way(place " " class)
    }
    tell_paths(place " " class)
    if (PAGE) print ""
}
