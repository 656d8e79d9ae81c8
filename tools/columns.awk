# Writes the lines of a view, each with its place's column in the line of its file. A token that stands there at its
# column keeps it. One behind the same tokens as there, before the same as there, or in a run of three or more that stands
# once between these, has the column of that token; and each other one, as of a macro, that of the token that stands there
# behind the last of these. A column whose file is not at hand stays. It is read behind origins.awk, which says what the
# environment has to tell; `mark` is the number of `_` before the number of a unit in a new name of a project's text. It
# reads three parts: the report as JSON, the text, and the view.

BEGIN {
    begin_origins()
    for (it = 0; it < ENVIRON["mark"]; it++) new_name = new_name "_"
    if (new_name != "") new_name = new_name "[0-9]+$"
}

# Cuts a line into tokens: `words[which, at]` begins at the column `begins[which, at]`. A comment is none, nor is what
# stands before the end of one that another line began.
function cut(which, line, last,    at, rest, column, word) {
    at = last
    rest = line
    column = 1
    while (rest != "") {
        if (match(rest, /^[ \t\v\f\r]+/) || match(rest, /^\/\*([^*]|\*+[^*\/])*(\*+\/|\**$)/) || \
            match(rest, /^\/\/.*/)) {
            column += RLENGTH
            rest = substr(rest, RLENGTH + 1)
            continue
        }
        if (substr(rest, 1, 2) == "*/") {
            at = last
            column += 2
            rest = substr(rest, 3)
            continue
        }
        if (!match(rest, /^[A-Za-z_0-9]+/) && !match(rest, /^"([^"\\]|\\.)*"/) && \
            !match(rest, /^'([^'\\]|\\.)*'/)) RLENGTH = 1
        word = substr(rest, 1, RLENGTH)
        begins[which, ++at] = column
        ends[which, at] = column + RLENGTH
        column += RLENGTH
        rest = substr(rest, RLENGTH + 1)
        if (which == "text" && new_name != "") sub(new_name, "", word)
        words[which, at] = word
    }
    return at
}

# Finds the columns of the places in lines of the text that all come from one line of a file.
function end_group(    file_line, it, at, from, is_known, key) {
    if (group_size && group_is_asked && is_at_hand(group_name, group_number)) {
        file_line = lines[group_name, group_number]
        of_file = cut("file", file_line, 0)
        of_text = before = behind = 0
        for (it = 1; it <= group_size; it++) {
            from = of_text
            of_text = cut("text", group[it], from)
            is_known = 1
            for (at = from + 1; at <= of_text; at++) {
                is_known = is_known && is_there(file_line, at)
                key = group_line[it] ":" begins["text", at]
                if (!is_known && key in asked) open_at[key] = at
            }
        }
        while (before < of_text && before < of_file && words["text", before + 1] == words["file", before + 1]) before++
        while (before + behind < of_text && before + behind < of_file && \
            words["text", of_text - behind] == words["file", of_file - behind]) behind++
        for (key in open_at) {
            it = token_of(open_at[key])
            if (it <= of_file) column_of[key] = begins["file", it]
            else if (of_file > 0) column_of[key] = ends["file", of_file]
            delete open_at[key]
        }
    }
    group_size = group_is_asked = 0
}

# The token of the file's line for one of the text that is not at its column.
function token_of(at,    it, found) {
    if (at <= before) return at
    if (at > of_text - behind) return at - of_text + of_file
    found = find_run(at)
    if (found) return found
    for (it = at - 1; it > before && it > at - 300; it--) {
        found = find_run(it)
        if (found) return found + 1
    }
    return before + 1
}

# The token of the file's line for one of the text, between those that are the same in both, where the longest run round
# it that stands in the line has three tokens or more, and stands there once; else 0.
function find_run(at,    it, front, back, found, most, times) {
    for (it = before + 1; it <= of_file - behind; it++) {
        if (words["file", it] != words["text", at]) continue
        for (front = 1; at - front > before && it - front > before && \
            words["file", it - front] == words["text", at - front];) front++
        for (back = 1; at + back <= of_text - behind && it + back <= of_file - behind && \
            words["file", it + back] == words["text", at + back];) back++
        if (front + back - 1 == most) times++
        if (front + back - 1 > most) {
            most = front + back - 1
            times = 1
            found = it
        }
    }
    return most >= 3 && times == 1 ? found : 0
}

# Whether a token of the text stands at its column in the line of the file, too.
function is_there(file_line, at,    word, column) {
    word = words["text", at]
    column = begins["text", at]
    return substr(file_line, column, length(word)) == word && \
        (word !~ /^[A-Za-z_0-9]/ || substr(file_line, column + length(word), 1) !~ /[A-Za-z_0-9]/)
}

part == 1 {
    count = split($0, alarms, /\{"class":"/) - 1
    for (it = 1; it <= count; it++) {
        match(alarms[it + 1], /"col":[0-9]+/)
        column = substr(alarms[it + 1], RSTART + 6, RLENGTH - 6)
        match(alarms[it + 1], /"line":[0-9]+/)
        line = substr(alarms[it + 1], RSTART + 7, RLENGTH - 7)
        place[it] = line ":" column
        asked[line ":" column] = is_asked[line] = 1
    }
    next
}
part == 2 {
    at_name = name
    at_number = number
    if (is_mark($0)) next
    if (group_size && (group_name != at_name || group_number != at_number)) end_group()
    group_name = at_name
    group_number = at_number
    group[++group_size] = $0
    group_line[group_size] = FNR
    if (FNR in is_asked) group_is_asked = 1
    next
}
part == 3 {
    if (FNR == 1) end_group()
    if (place[FNR] in column_of && match($0, /:[0-9]+: warning: [^:]*$/))
        $0 = substr($0, 1, RSTART) column_of[place[FNR]] substr($0, RSTART + index(substr($0, RSTART + 1), ":"))
    print
}
