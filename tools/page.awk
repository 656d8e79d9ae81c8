# Composes the texts that a page shows beside the report: tables, notes, and for each line of the text one that shows it
# and one of remarks. It reads fourteen parts: the places of the text, `LINE:COL`, in a line each; these places in their
# files, line by line; how the results of the report stand, as `report_baseline` writes it, and the reasons for which
# they are suppressed, both empty where nothing is compared; the report, a line `LINE:COL CLASS` for each alarm; the
# notes on races, on other alarms and on rings, as `notes` writes them; the answer of `ranges`; the text; for each of
# its lines the line of the file that it comes from; the list of assumptions; those of it that are marked, in the same
# order; and the report with its notes, as reasons.awk writes it for a page. `name` of the environment is the name of
# the file, `spelled` the same as a line mark spells it; `folder` is where the four texts go; `baseline` is the name of
# the old log, or nothing. It is read behind openings.awk.
#
# In a composed text each byte from 13 to 31 stands for markup (docs/PROGRAM.md, "The program `report_page`").

BEGIN {
    HEADING = "\016"; HEADING_END = "\017"; DEAD = "\020"; GROUP = "\021"; SUMMARY_END = "\022"; GROUP_END = "\023"
    TABLE = "\024"; COLUMN = "\025"; HEAD_END = "\026"; ROW = "\027"; CELL = "\030"; ROW_END = "\031"
    TABLE_END = "\032"
    LINK = "\033"; LINKED = "\034"; LINK_END = "\035"; NOTE = "\036"; NOTE_END = "\037"; OPEN = "\015"
    WAIT = "tasks may come to wait for each other for ever"
    FOLDER = ENVIRON["folder"]
    BASELINE = plain(ENVIRON["baseline"])
    at_name = ENVIRON["spelled"]
    at_line = 1
    shown_name = ENVIRON["spelled"]
    real[ENVIRON["spelled"]] = plain(ENVIRON["name"])
}

# A name without bytes that stand for markup.
function plain(name) {
    gsub(/[[:cntrl:]]/, "?", name)
    return name
}

function line_at(place) {
    sub(/:.*/, "", place)
    return place
}

function column_at(place) {
    sub(/.*:/, "", place)
    return place
}

# A place of the text, by its place in its file, which leads to its line.
function linked(place) {
    return LINK line_at(place) LINKED ((place in shown) ? shown[place] : place) LINK_END
}

# The words from one field to another, with commas, or what stands for none.
function listed(first, last, none,    text, at) {
    for (at = first; at <= last; at++) text = text (at > first ? ", " : "") $at
    return text == "" ? none : text
}

function counted(number, unit) {
    return number " " unit (number == 1 ? "" : "s")
}

# Puts a remark behind a line of the text. (A text that grows by each would take the square of their number.)
function remark(place, text,    line) {
    line = line_at(place)
    remarks[line, ++remark_count[line]] = text
}

# How a result stands: by the old log, where there is one, and by what suppresses it.
function state_of(result) {
    if (!(result in stands) || (stands[result] == "new" && BASELINE == "")) return ""
    return stands[result] (stands[result] == "suppressed" && why[result] != "" ? ", " why[result] : "")
}

# What a remark of a result begins with.
function titled(class, place, result,    state) {
    state = state_of(result)
    return class " at column " column_at(place) (state == "" ? "" : ", " state) ": "
}

# The file of a place that is shown as FILE:LINE:COL.
function file_of(place) {
    sub(/:[0-9]+:[0-9]+$/, "", place)
    return place
}

# Reads an access: LINE:COL TASK stores|loads holds MUTEX .. free MUTEX .. [races]
function read_access(    free, last, at) {
    free = 5
    while ($free != "free") free++
    last = NF - ($NF == "races" && NF > free)
    accesses[groups]++
    racing[groups] += last < NF
    see_task($2, "")
    for (at = 5; at < free; at++) {
        if (!($at in held)) mutexes[++mutex_count] = $at
        held[$at]++
    }
    rows[groups, accesses[groups]] = ROW linked($1) CELL $2 CELL $3 CELL listed(5, free - 1, "nothing") CELL \
        listed(free + 1, last, "") CELL (last < NF ? "races" : "") ROW_END
}

function see_task(task, priority) {
    if (!(task in priorities)) tasks[++task_count] = task
    if (!(task in priorities) || priority != "") priorities[task] = priority
}

# Reads the tasks of an alarm: .. tasks NAME PRIORITY ..
function read_tasks(    at) {
    for (at = NF; at > 3 && $at != "tasks"; at--);
    for (at++; at < NF; at += 2) see_task($at, $(at + 1) == "initial" ? "before the tasks run" : $(at + 1))
}

# Reads a request of a ring: LINE:COL TASK holds MUTEX .. asks MUTEX. With the last one the ring is whole.
function read_request(    at, first, key, text) {
    request[++requests] = $0
    see_task($2, "")
    locks[requests] = $1
    waiting[requests] = $2 CELL listed(4, NF - 2, "nothing") CELL $NF
    asking[requests] = $2 " holds " listed(4, NF - 2, "nothing") " and asks for " $NF
    if (requests < ring_length) return
    text = NOTE titled("WAIT", ring_place, alarms + ++waits) WAIT ", one of them at this lock" NOTE_END
    for (at = 1; at <= requests; at++)
        text = text NOTE (locks[at] == ring_place ? "" : linked(locks[at]) ": ") asking[at] NOTE_END
    remark(ring_place, text)
    # (a ring is told once, whichever of its locks it begins at)
    first = 1
    for (at = 2; at <= requests; at++) if (request[at] < request[first]) first = at
    for (at = 0; at < requests; at++) key = key request[(first + at - 1) % requests + 1] "\n"
    if (key in rings_told) return
    rings_told[key] = 1
    text = ""
    for (at = 1; at <= requests; at++) text = text ROW linked(locks[at]) CELL waiting[at] ROW_END
    rings[++ring_count] = GROUP "a ring of " counted(requests, "task") SUMMARY_END \
        table("", "Waits at|Task|Holds|Asks for", text) GROUP_END
}

# Reads the range of an object: LINE:COL NAME LEAST GREATEST
function read_range(    at, text) {
    at = line_at($1)
    ranges[++range_count] = ROW linked($1) CELL $2 CELL $3 CELL $4 CELL (($1, $2) in is_raced ? "races" : "") ROW_END
    text = $2 " is " ($3 == $4 ? $3 : "from " $3 " to " $4)
    range_at[at] = (range_at[at] == "" ? "in all runs " : range_at[at] ", ") text
}

# Reads the report with its notes: a line with the warning for each alarm, and one with its notes.
function read_reason(    warning) {
    if (FNR % 2 == 0) {
        if (is_told) notes[alarm] = $0
        return
    }
    warning = shown[place_of[alarm + 1]] ": warning: "
    is_told = alarm < alarms && substr($0, 1, length(warning)) == warning
    if (!is_told) return
    sentence[++alarm] = substr($0, length(warning) + 1)
    sub(/ \[[A-Z]+\]$/, "", sentence[alarm])
}

# Reads the priorities of tasks that begin in a line, where they are numbers: notes on races and rings do not tell them.
function read_priorities(    count, at, pieces, name, priority) {
    count = split($0, pieces, /__task/)
    for (at = 2; at <= count; at++) {
        if (!match(pieces[at], /^[ \t]*\([ \t]*[0-9]+[ \t]*\)[ \t]*void[ \t]+[A-Za-z_0-9]+/)) continue
        name = priority = substr(pieces[at], 1, RLENGTH)
        sub(/.*[^A-Za-z_0-9]/, "", name)
        sub(/\).*/, "", priority)
        gsub(/[^0-9]/, "", priority)
        if (name in priorities && priorities[name] == "") priorities[name] = priority
    }
}

# Reads a line of the text, which is shown by the line of its file, unless it is a line mark or a further part of the
# line that was shown before it.
function read_text(    digits, rest, is_mark) {
    texts++
    is_mark = match($0, /^[ \t\v\f\r]*#[ \t\v\f\r]*(line[ \t\v\f\r]*)?[0-9]+/)
    if (!is_mark) {
        if (at_name != shown_name) {
            headings[texts - 1] = GROUP_END GROUP ((at_name in real) ? real[at_name] : at_name) SUMMARY_END
            shown_name = at_name
            shown_line = 0
        }
        if (at_line != shown_line) is_shown[texts] = 1
        shown_line = at_line
        text[texts] = $0
        if (index($0, "__task")) read_priorities()
        at_line++
        return
    }
    digits = substr($0, 1, RLENGTH)
    rest = substr($0, RLENGTH + 1)
    sub(/^.*[^0-9]/, "", digits)
    at_line = digits + 0
    if (match(rest, /^[ \t\v\f\r]+"/)) {
        rest = substr(rest, RLENGTH + 1)
        match(rest, /^([^"\\]|\\.)*/)
        at_name = substr(rest, 1, RLENGTH)
    }
}

part == 1 { places[FNR] = $0; next }
part == 2 { shown[places[FNR]] = $0; next }
part == 3 && NF == 8 { for (it = 1; it < NF; it += 2) standing[$it] = $(it + 1); next }
part == 3 { stands[FNR] = $1; next }
part == 4 { why[FNR] = $0; next }
part == 5 { alarms++; place_of[alarms] = $1; class_of[alarms] = $2; next }
part == 6 && NF == 4 && $3 == "RACES" {
    declared[++groups] = $1
    object[groups] = $2
    is_raced[$1, $2] = 1
    next
}
part == 6 && $4 == "holds" { read_access(); next }
part == 7 && $2 ~ /^[A-Z]+$/ && NF > 3 && $3 !~ /^(of|bad)$/ { read_tasks(); next }
part == 8 && NF == 3 && $2 == "RING" {
    ring_place = wait_of[waits + 1] = $1
    ring_length = $3
    requests = 0
    next
}
part == 8 && $3 == "holds" { read_request(); next }
part == 9 && NF == 2 && $2 == "DEAD" {
    dead++
    dead_row = dead_row (dead_row == "" ? "" : ", ") linked($1)
    at = line_at($1)
    dead_at[at] = (dead_at[at] == "" ? DEAD "no run reaches this line's column " : dead_at[at] ", ") column_at($1)
    next
}
part == 9 && NF == 4 { read_range(); next }
part == 10 { read_text(); next }
part == 11 { line[FNR] = $0; next }
part == 12 && NF == 2 && ($2 in opening) { open_count[$2]++; next }
part == 13 && NF == 2 && ($2 in opening) { open_place[++opened] = $1; open_kind[opened] = $2; next }
part == 14 { read_reason(); next }

# The head of a table under a heading.
function begin_table(heading, columns) {
    gsub(/\|/, COLUMN, columns)
    return (heading == "" ? "" : HEADING heading HEADING_END) TABLE columns HEAD_END
}

# A table with a heading, where it has rows.
function table(heading, columns, body) {
    return body == "" ? "" : begin_table(heading, columns) body TABLE_END
}

# Tells how the alarms and the waits stand, which of them are new, and why others are suppressed.
function tell_states(to,    it, words_of, count) {
    if (!("new" in standing) || (BASELINE == "" && !standing["suppressed"])) return
    if (BASELINE == "") printf "%s", HEADING "Alarms and waits that comments suppress" HEADING_END > to
    else {
        printf "%s", begin_table("Alarms and waits beside the old log " BASELINE, "State|Number") > to
        count = split("new unchanged absent suppressed", words_of, " ")
        for (it = 1; it <= count; it++) printf "%s", ROW words_of[it] CELL standing[words_of[it]] ROW_END > to
        printf "%s", TABLE_END > to
        for (it = alarms + waits + dead; it > alarms + waits && stands[it] != "new"; it--);
        if (standing["absent"] && it > alarms + waits)
            printf "%s", NOTE "places that no run reaches are new, so what is absent may stand behind an alarm that " \
                "ends each run there" NOTE_END > to
    }
    tell_results(to, "new", "Class|Place")
    tell_results(to, "suppressed", "Class|Place|Why")
}

# Lists the alarms and the waits that stand so.
function tell_results(to, state, columns,    it) {
    if (!standing[state] || (state == "new" && BASELINE == "")) return
    printf "%s", GROUP state ": " standing[state] SUMMARY_END begin_table("", columns) > to
    for (it = 1; it <= alarms + waits; it++) if (stands[it] == state)
        printf "%s", ROW (it > alarms ? "WAIT" : class_of[it]) CELL \
            linked(it > alarms ? wait_of[it - alarms] : place_of[it]) \
            (state == "suppressed" ? CELL why[it] : "") ROW_END > to
    printf "%s", TABLE_END GROUP_END > to
}

# Tells each object with a race, and all accesses to it.
function tell_races(to,    it, at) {
    if (groups) printf "%s", HEADING "Races by object" HEADING_END > to
    for (it = 1; it <= groups; it++) {
        printf "%s", GROUP object[it] ": " racing[it] " of its " \
            (accesses[it] == 1 ? "1 access" : accesses[it] " accesses") " race, declared at " \
            shown[declared[it]] SUMMARY_END \
            begin_table("", "Place|Task|Access|Holds|Has found free|Races") > to
        for (at = 1; at <= accesses[it]; at++) printf "%s", rows[it, at] > to
        printf "%s", TABLE_END GROUP_END > to
    }
}

# Tells the rings, each once.
function tell_rings(to,    it) {
    if (ring_count) printf "%s", HEADING "Circular waits" HEADING_END NOTE WAIT \
        ": each waits for a mutex that the next one holds, and the last for one that the first holds" NOTE_END > to
    for (it = 1; it <= ring_count; it++) printf "%s", rings[it] > to
}

function tell_ranges(to,    it) {
    if (!range_count) return
    printf "%s", HEADING "Ranges of objects" HEADING_END GROUP "least and greatest values in all runs" SUMMARY_END \
        begin_table("", "Declared at|Object|Least|Greatest|Races") > to
    for (it = 1; it <= range_count; it++) printf "%s", ranges[it] > to
    printf "%s", TABLE_END GROUP_END > to
}

# Puts the assumptions that are marked behind their lines.
function place_openings(    it) {
    for (it = 1; it <= opened; it++) {
        remark(open_place[it], OPEN open_kind[it] " at column " column_at(open_place[it]) ": " \
            opening[open_kind[it]] NOTE_END)
        open_row[open_kind[it]] = open_row[open_kind[it]] (open_row[open_kind[it]] == "" ? "" : ", ") linked(open_place[it])
    }
}

# Tells how many assumptions each kind has, and the places of those that are marked.
function tell_openings(to,    it, kinds, kind, told) {
    split("CONST ENUM LAYOUT LIFETIME MEMBER ORDER PRAGMA RESERVED RESTRICT UNSET IMPLEMENTATION", kinds, " ")
    for (it = 1; it in kinds; it++) if ((kind = kinds[it]) in open_count)
        told = told GROUP kind ", " counted(open_count[kind], "place") ": " opening[kind] SUMMARY_END OPEN \
            (kind in open_row ? open_row[kind] : "--all-assumptions has these places shown") NOTE_END GROUP_END
    if (told != "") printf "%s", HEADING "Assumptions: what C leaves open" HEADING_END told > to
}

# Counts the alarms of each class in each file, and puts each behind its line.
function place_alarms(    it, file) {
    for (it = 1; it <= alarms; it++) {
        file = file_of(shown[place_of[it]])
        if (!(file in alarms_in)) files[++file_count] = file
        alarms_in[file]++
        alarms_of[file, class_of[it]]++
        remark(place_of[it], NOTE titled(class_of[it], place_of[it], it) sentence[it] NOTE_END notes[it])
    }
}

function write_tables(to,    it, at, classes, by_class, task_rows, mutex_rows) {
    split("OVERFLOW DIV SHIFT INDEX POINTER DEREF LOCK RACE", classes, " ")
    for (at = 1; at <= file_count; at++) for (it = 1; it in classes; it++) if ((files[at], classes[it]) in alarms_of)
        by_class = by_class ROW classes[it] CELL files[at] CELL alarms_of[files[at], classes[it]] ROW_END
    for (it = 1; it <= task_count; it++) task_rows = task_rows ROW tasks[it] CELL priorities[tasks[it]] ROW_END
    for (it = 1; it <= mutex_count; it++) mutex_rows = mutex_rows ROW mutexes[it] CELL held[mutexes[it]] ROW_END
    printf "%s", table("Alarms by file and class", "Class|File|Alarms", by_class) > to
    tell_states(to)
    tell_races(to)
    tell_rings(to)
    printf "%s", table("Tasks with alarms or waits", "Task|Priority", task_rows) > to
    printf "%s", table("Mutexes at accesses to objects with races", "Mutex|Accesses under it", mutex_rows) > to
    if (dead) printf "%s", HEADING "Places that no run reaches" HEADING_END NOTE dead_row NOTE_END > to
    tell_openings(to)
    tell_ranges(to)
    close(to)
}

function write_notes(to,    it, state) {
    for (it = 1; it <= alarms; it++) {
        state = state_of(it)
        print (state == "" ? "" : NOTE state NOTE_END) notes[it] > to
    }
    close(to)
}

function write_lines(to,    it) {
    for (it = 1; it <= texts; it++) print (it in is_shown ? "+" (line[it] == "" ? text[it] : line[it]) : "") > to
    close(to)
}

# Behind a line stands first what marks it: a dead place, or an alarm or a wait, or an assumption. A range marks none,
# so where it stands alone a blank does before it.
function write_remarks(to,    it, at) {
    for (it = 1; it <= texts; it++) {
        if (it in dead_at) printf "%s", dead_at[it] NOTE_END > to
        for (at = 1; at <= remark_count[it]; at++) printf "%s", remarks[it, at] > to
        if (it in range_at) printf "%s", (remark_count[it] || it in dead_at ? "" : " ") NOTE range_at[it] NOTE_END > to
        print headings[it] > to
    }
    close(to)
}

# A text that is to have nothing is there, too.
function begun(name) {
    printf "" > (FOLDER "/page_" name)
    return FOLDER "/page_" name
}

END {
    place_alarms()
    place_openings()
    write_tables(begun("tables"))
    write_notes(begun("notes"))
    write_lines(begun("lines"))
    write_remarks(begun("remarks"))
}
