# The place LINE:COLUMN in a preprocessed text at which a name is declared first at file scope: `-v name=NAME`. A look
# at the words: what stands in brackets, and values, is passed over.
/^[ \t]*#/ { next }
{
    gsub(/'(\\.|[^'\\])'/, "000")
    rest = $0
    column = 1
    while (match(rest, /[A-Za-z_0-9]+|[^A-Za-z_0-9 \t\r\f\v]/)) {
        word = substr(rest, RSTART, RLENGTH)
        column += RSTART - 1
        if (depth == 0 && found && word ~ /^[[(,;=]$/) { print found; exit }
        found = ""
        if (word ~ /^[[({]$/) depth++
        else if (word ~ /^[])}]$/) depth--
        else if (depth == 0 && word == name && before !~ /^(struct|enum)$/) found = NR ":" column
        before = word
        column += RLENGTH
        rest = substr(rest, RSTART + RLENGTH)
    }
}
