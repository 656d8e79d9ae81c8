# Functions by which other scripts follow the line marks of a preprocessed text (C99 6.10.4) and read the files that these
# name. The variable `files` of the environment names a file with two lines for each file that is at hand: its name as
# marks spell it, and where it stands; `first` is the name of the file from which the first line of the text comes. Here
# `name` and `number` are the file and the line from which the next line of the text comes.

function begin_origins(    spelled) {
    while ((getline spelled < ENVIRON["files"]) > 0) {
        getline paths[spelled] < ENVIRON["files"]
    }
    name = ENVIRON["first"]
    number = 1
}

# Whether the line is a mark, or goes to the next line: what comes behind it has the place that it tells.
function is_mark(line,    digits, rest) {
    if (!match(line, /^[ \t\v\f\r]*#[ \t\v\f\r]*(line[ \t\v\f\r]*)?[0-9]+/)) {
        number++
        return 0
    }
    digits = substr(line, 1, RLENGTH)
    rest = substr(line, RLENGTH + 1)
    sub(/^.*[^0-9]/, "", digits)
    number = digits + 0
    if (match(rest, /^[ \t\v\f\r]+"/)) {
        rest = substr(rest, RLENGTH + 1)
        match(rest, /^([^"\\]|\\.)*/)
        name = substr(rest, 1, RLENGTH)
    }
    return 1
}

# Whether the line of a file is at hand: it is `lines[file, at]` then.
function is_at_hand(file, at,    count, line) {
    if (file in paths && !(file in was_read)) {
        was_read[file] = 1
        while ((getline line < paths[file]) > 0) lines[file, ++count] = line
        close(paths[file])
    }
    return (file, at) in lines
}
