# Writes for each result of a log, in its order, why it is suppressed, or an empty line. It reads two parts: the reasons
# of the comments that suppress results, a line each; and, with `"` as what ends a record, the log, a value of JSON, in
# which the first suppression of a result that no comment suppresses says why.
#
# What stands between two quotes is a text, or what stands between texts: only there do brackets count.

part == 1 { why[FNR] = $0; next }

# A text goes on where an odd number of backslashes stands before the quote. Of a long one its front is enough.
is_text {
    if (length(text) < 4096) text = text $0
    for (at = length($0); substr($0, at, 1) == "\\"; at--);
    if ((length($0) - at) % 2) {
        if (length(text) < 4096) text = text "\""
        next
    }
    is_text = 0
    if (is_value && depth == 7 && key[1] == "runs" && key[3] == "results" && key[5] == "suppressions" && \
        key[7] == "justification" && why[results] == "") why[results] = said(text)
    next
}

{
    is_value = 0
    gsub(/[^][{}:,]/, "")
    for (at = 1; at <= length($0); at++) read_sign(substr($0, at, 1))
    text = ""
    is_text = 1
}

function read_sign(sign) {
    is_value = sign == ":"
    if (sign == ":") key[depth] = text
    else if (sign == "]" || sign == "}") depth--
    else if (sign != ",") {
        key[++depth] = ""
        if (sign == "{" && depth == 5 && key[1] == "runs" && key[3] == "results") results++
    }
}

# What a text of JSON says, in a line: bytes that a line does not have are blanks.
function said(text,    at, line, letter) {
    while (at = index(text, "\\")) {
        letter = substr(text, at + 1, 1)
        line = line substr(text, 1, at - 1) (letter ~ /["\\\/]/ ? letter : letter == "u" ? "?" : " ")
        text = substr(text, at + (letter == "u" ? 6 : 2))
    }
    line = line text
    gsub(/[[:cntrl:]]/, " ", line)
    return line
}

END { for (it = 1; it <= results; it++) print why[it] }
