# Names that are `static` at file scope in two files of one preprocessed text, of which neither is a header: a line
# LINE NAME FILE for each, with the line of the text where the second one stands and the file of the first. A look at
# the words: what stands in brackets, and values, is passed over.
/^[ \t]*#[ \t]*(line[ \t]+)?[0-9]+[ \t]+"/ {
    file = $0
    sub(/^[^"]*"/, "", file)
    sub(/".*/, "", file)
    next
}
/^[ \t]*#/ { next }
{
    gsub(/'(\\.|[^'\\])'/, "0")
    rest = $0
    while (match(rest, /[A-Za-z_0-9]+|[^A-Za-z_0-9 \t\r\f\v]/)) {
        word = substr(rest, RSTART, RLENGTH)
        rest = substr(rest, RSTART + RLENGTH)
        if (word ~ /^[[({]$/) {
            if (depth == 0 && is_static && name != "" && !in_value) note()
            if (word == "(" && depth == 0) has_parameters = 1
            depth++
        } else if (word ~ /^[])}]$/) {
            depth--
            if (depth == 0 && word == "}" && has_parameters) begin()
        } else if (depth == 0) {
            if (word == "static") is_static = 1
            else if (word == ";") { if (is_static && name != "" && !in_value) note(); begin() }
            else if (word == "=") { if (is_static && name != "") note(); in_value = 1 }
            else if (word == ",") { if (is_static && name != "" && !in_value) note(); name = ""; in_value = 0 }
            else if (word ~ /^[A-Za-z_]/) name = word
        }
    }
}
function begin() { is_static = in_value = has_parameters = 0; name = "" }
function note() {
    if (file ~ /\.c$/) {
        if (!(name in first)) first[name] = file
        else if (first[name] != file && !(name in told)) { told[name] = 1; print NR, name, first[name] }
    }
    name = ""
}
