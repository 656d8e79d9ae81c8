# Finds the comments that suppress alarms, `/* cedratcleat: CLASS REASON */` or the same behind `//`, in the files from which the
# lines of a preprocessed text come by its line marks (C99 6.10.4), and matches them to findings: each suppresses those
# of its class in its line, and where nothing else stands there in the line below. It reads two parts: the findings,
# `LINE:COL CLASS` in a line each, and the text. Variables of the environment: `files` names a file with two lines for
# each file that is at hand, its name as marks spell it and where it stands; `first` is the name of the file from which
# the first line of the text comes; `folder` is where it writes: to the file remarks the reasons, a JSON array with a
# text for each finding, which is empty where nothing suppresses it; to reasons the same, a line each; to malformed the
# comments without a class or a reason, and to idle those that suppress nothing, as `FILE:LINE:COL: CLASS`.

BEGIN {
    while ((getline name < ENVIRON["files"]) > 0) {
        getline path < ENVIRON["files"]
        paths[name] = path
    }
    name = ENVIRON["first"]
    number = 1
    classes = " OVERFLOW DIV SHIFT INDEX POINTER DEREF LOCK RACE WAIT DEAD "
    mark = "(/[*]|//)[ \t]*cedratcleat:"
    more = "[\200-\277]"
    wide = "[\302-\337]" more "|\340[\240-\277]" more "|[\341-\354\356\357]" more more "|\355[\200-\237]" more \
        "|\360[\220-\277]" more more "|[\361-\363]" more more more "|\364[\200-\217]" more more
}

part == 1 { split($1, at, ":"); lines[++findings] = at[1] + 0; class_of[findings] = $2; next }

{
    names[FNR] = name
    numbers[FNR] = number
    if (name in paths) read_file(name)
    if (match($0, /^[ \t\v\f\r]*#[ \t\v\f\r]*(line[ \t\v\f\r]*)?[0-9]+/)) {
        digits = substr($0, 1, RLENGTH)
        rest = substr($0, RLENGTH + 1)
        sub(/^.*[^0-9]/, "", digits)
        number = digits + 0
        if (match(rest, /^[ \t\v\f\r]+"/)) {
            rest = substr(rest, RLENGTH + 1)
            match(rest, /^([^"\\]|\\.)*/)
            name = substr(rest, 1, RLENGTH)
        }
    } else number++
}

# The comments of a file, each once, also where several names lead to it.
function read_file(name,   path, line, count) {
    if (name in was_read) return
    was_read[name] = 1
    path = paths[name]
    if (path in begun) return
    begun[path] = 1
    while ((getline line < path) > 0) read_line(path, line, ++count)
    close(path)
}

function read_line(path, line, count,   rest, col, text, alone, class, reason) {
    if (line !~ mark) return
    rest = line
    alone = line
    gsub(/[/][*]([^*]|[*]+[^*\/])*[*]+[/]/, "", alone)
    sub(/(\/[*]|\/\/).*$/, "", alone)
    alone = (alone ~ /^[ \t\r]*$/)
    while (match(rest, mark)) {
        col = length(line) - length(rest) + RSTART
        text = substr(rest, RSTART + RLENGTH)
        if (substr(rest, RSTART, 2) == "/*" && index(text, "*/")) {
            rest = substr(text, index(text, "*/") + 2)
            text = substr(text, 1, index(text, "*/") - 1)
        } else rest = ""
        gsub(/[[:cntrl:]]/, " ", text)
        gsub(/^ +| +$/, "", text)
        class = text
        sub(/ .*/, "", class)
        reason = substr(text, length(class) + 1)
        sub(/^ +/, "", reason)
        place[++marks] = shown(path) ":" count ":" col ": " class
        if (class == "" || reason == "" || !index(classes, " " class " ")) print place[marks] >malformed_file()
        else {
            reasons[marks] = reason
            add(path, count, class)
            if (alone) below(path, count + 1, class)
        }
    }
}

function malformed_file() {
    return ENVIRON["folder"] "/malformed"
}

# What stands in the line itself goes before what stands above it.
function add(path, count, class) {
    suppresses[path, count, class] = marks
}

function below(path, count, class) {
    if (!((path, count, class) in suppresses)) suppresses[path, count, class] = marks
}

function shown(path) {
    sub(/^\.\//, "", path)
    gsub(/[[:cntrl:]]/, "?", path)
    return path
}

function quoted(text,   rest) {
    rest = text
    gsub(wide, "", rest)
    if (rest ~ /[\200-\377]/) gsub(/[\200-\377]/, "?", text)
    gsub(/\\/, "&&", text)
    gsub(/"/, "\\\"", text)
    return "\"" text "\""
}

END {
    printf "[" >(ENVIRON["folder"] "/remarks")
    for (k = 1; k <= findings; k++) {
        reason = ""
        path = paths[names[lines[k]]]
        if ((path, numbers[lines[k]], class_of[k]) in suppresses) {
            it = suppresses[path, numbers[lines[k]], class_of[k]]
            met[it] = 1
            reason = reasons[it]
        }
        printf "%s%s", (k > 1 ? "," : ""), quoted(reason) >(ENVIRON["folder"] "/remarks")
        print reason >(ENVIRON["folder"] "/reasons")
    }
    print "]" >(ENVIRON["folder"] "/remarks")
    for (k = 1; k <= marks; k++) if (k in reasons && !(k in met)) print place[k] >(ENVIRON["folder"] "/idle")
}
