# Tells what of a source cannot run as it may be meant, where a look at its words is sure of it: of a `main` that does
# not end, so that no task runs, `endless LINE`; or else of each task that runs at most once, in a source in which a
# less urgent task loops, `once LINE NAME`. It reads the words of a preprocessed source: a line `LINE:BYTE:WORD` for
# each name, number and other byte, as `grep -nbo` writes it. What it tells counts only of a source that the analyser
# accepts; of any other it ends too, since it is begun before the analyser has answered.
#
# It follows no types, no values and no macros. A body that may go on, or whose way is not plain, gets no line: a task
# runs at most once where neither its body nor that of a function named in it, and so on, has a loop or a __yield;
# `main` does not end where a loop stands in it, or in a function that it calls, under no condition, whose own
# condition is a number, with no `break` of its own and no `return` before its end.

BEGIN { FS = ":" }

{
    line = $1
    word = NF > 3 ? ":" : $3
    is_first = line != last_line
    is_next = $2 == last_byte + 1
    last_line = line
    last_byte = $2
    if (in_comment) {
        if (is_next && before == "*" && word == "/") in_comment = 0
        before = in_comment ? word : ""
        next
    }
    if (line == skipped) next
    if (quote != "") {
        if (is_escaped) is_escaped = 0
        else if (word == "\\") is_escaped = 1
        else if (word == quote) quote = ""
        next
    }
    if (is_first && word == "#") { skipped = line; next }
    if (is_next && before == "/" && (word == "*" || word == "/")) {
        count--
        if (word == "*") in_comment = 1; else skipped = line
        before = ""
        next
    }
    before = word
    if (word == "\"" || word == "'") { quote = word; next }
    words[++count] = word
    lines[count] = line
}

END {
    if (!find_ends()) exit
    find_functions()
    find_calls()
    if (tasks && ("main" in first) && endless("main")) {
        print "endless", place
        exit
    }
    for (i = 1; i <= tasks; i++) {
        name = task_names[i]
        if (!goes_on(name) && is_above_a_loop(i)) print "once", lines[first[name]], name
    }
}

# The word that closes each bracket; whether each has one.
function find_ends(   i, word, depth, open) {
    for (i = 1; i <= count; i++) {
        word = words[i]
        if (word == "(" || word == "{" || word == "[") open[++depth] = i
        else if (word == ")" || word == "}" || word == "]") {
            if (!depth) return 0
            begins[i] = open[depth--]
            ends[begins[i]] = i
        }
    }
    return !depth
}

# The functions that have bodies: where their names stand and where their bodies do. And the tasks with their
# priorities: one that is no plain number leaves open which tasks are more urgent, and then no task is told of.
function find_functions(   i, priority) {
    priority = ""
    for (i = 1; i <= count; i++) {
        if (words[i] == "__task" && words[i + 1] == "(") {
            priority = words[i + 2]
            if (ends[i + 1] != i + 3 || priority !~ /^(0|[1-9][0-9]*)$/) is_open = 1
            i = ends[i + 1]
        } else if (words[i] == ";") priority = ""
        else if (words[i] == "{" || words[i] == "[") i = ends[i]
        else if (words[i] == "(") {
            if (words[ends[i] + 1] == "{") {
                first[words[i - 1]] = i - 1
                body[words[i - 1]] = ends[i] + 1
                if (priority != "") {
                    task_names[++tasks] = words[i - 1]
                    priorities[tasks] = priority + 0
                }
                priority = ""
                i = ends[ends[i] + 1]
            } else i = ends[i]
        }
    }
}

# What each body names of functions, and whether it has a loop or waits.
function find_calls(   name, i) {
    for (name in body) {
        for (i = body[name]; i < ends[body[name]]; i++) {
            if (words[i] == "while" || words[i] == "for" || words[i] == "do") loops[name] = 1
            else if (words[i] == "__yield") waits[name] = 1
            else if (words[i] in body) calls[name] = calls[name] " " words[i]
        }
    }
}

# Whether the body, or one that it may reach, has a loop; `goes_on` asks for a loop or a __yield.
function has_loop(name) { return reaches(name, 0) }
function goes_on(name) { return reaches(name, 1) }
function reaches(name, with_waits,   key, found, names, i, number) {
    key = name " " with_waits
    if (key in known) return known[key]
    known[key] = 0
    found = (name in loops) || (with_waits && (name in waits))
    number = split(calls[name], names, " ")
    for (i = 1; i <= number && !found; i++) found = reaches(names[i], with_waits)
    return known[key] = found
}

function is_above_a_loop(task,   i) {
    if (is_open) return 0
    for (i = 1; i <= tasks; i++) if (priorities[i] < priorities[task] && has_loop(task_names[i])) return 1
    return 0
}

# Whether the end of a function is surely not reached: then `place` is the line at which it goes on for ever.
function endless(name,   i, end, after) {
    if (name in asked) return 0
    asked[name] = 1
    end = ends[body[name]]
    for (i = body[name]; i < end; i++) if (words[i] == "do" && words[i + 1] != "{") return 0
    for (i = body[name] + 1; i < end; i++) {
        if (words[i] == "return") return 0
        if (begins_statement(i)) {
            after = end_of_endless_loop(i)
            if (after) {
                if (has_word("return", i, after)) return 0
                place = lines[i]
                return 1
            }
            if (is_call(i) && endless(words[i])) return 1
        }
        if (words[i] == "{") {
            if (has_word("return", i, ends[i])) return 0
            i = ends[i]
        } else if (words[i] == "(") i = ends[i]
    }
    return 0
}

# Whether a statement of the body itself, under no condition, begins at this word of it. Behind the bracket that closes
# the body of a `do` stands the condition of that.
function begins_statement(i,   before) {
    before = words[i - 1]
    if (before == ";" || before == "{") return 1
    return before == "}" && words[begins[i - 1] - 1] != "do"
}

# The last word of the loop that begins here, where nothing in it ends it, or else 0.
function end_of_endless_loop(i,   head, begin, begin_of_condition, end_of_condition) {
    if (words[i] == "do") {
        begin = i + 1
        head = ends[begin] + 2
        return words[head - 1] == "while" && is_number(head + 1, ends[head] - 1) && !has_break(begin) ? ends[head] : 0
    }
    if (words[i] != "while" && words[i] != "for") return 0
    head = i + 1
    begin = ends[head] + 1
    if (words[i] == "while" && !is_number(head + 1, begin - 2)) return 0
    if (words[i] == "for") {
        begin_of_condition = next_semicolon(head + 1) + 1
        end_of_condition = next_semicolon(begin_of_condition)
        if (end_of_condition > begin_of_condition && !is_number(begin_of_condition, end_of_condition - 1)) return 0
    }
    if (words[begin] == "{") return has_break(begin) ? 0 : ends[begin]
    return words[begin] ~ /^(if|switch|while|for|do|break|return)$/ ? 0 : next_semicolon(begin)
}

# The first semicolon from here on that stands in no brackets.
function next_semicolon(i) {
    while (i <= count && words[i] != ";") i = (i in ends) ? ends[i] + 1 : i + 1
    return i
}

# Whether these words are one number other than 0.
function is_number(from, to) {
    return from == to && words[from] ~ /^[1-9][0-9]*[uUlL]*$/
}

# Whether a `break` stands between the brackets that may end the loop whose body they are: one that does not stand in
# the brackets of an inner loop or `switch`.
function has_break(open,   i, before) {
    for (i = open + 1; i < ends[open]; i++) {
        if (words[i] == "break") return 1
        if (words[i] == "{") {
            before = words[i - 1]
            if (before == ")") before = words[begins[i - 1] - 1]
            if (before == "while" || before == "for" || before == "switch" || before == "do") i = ends[i]
        }
    }
    return 0
}

# Whether this word is a function that is called as a statement.
function is_call(i) {
    return (words[i] in body) && words[i + 1] == "(" && words[ends[i + 1] + 1] == ";"
}

function has_word(word, from, to,   i) {
    for (i = from; i <= to; i++) if (words[i] == word) return 1
    return 0
}
