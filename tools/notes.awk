# Functions by which other scripts read the whole notes, as `notes notes` writes them, with `{` as what ends a record and
# `"` as what parts its fields: so a record is an object of JSON up to the next one. The variable `mark` of the
# environment is the number of `_` before the number of a unit in a new name of a project's text.

function begin_notes(    it) {
    for (it = 0; it < ENVIRON["mark"]; it++) new_name = new_name "_"
    if (new_name != "") new_name = new_name "[0-9]+$"
}

# A number behind the name of its member.
function number(field) {
    return substr(field, 2) + 0
}

# The numbers of a list behind the name of its member, each between commas, or nothing.
function numbers(field) {
    field = substr(field, 3, index(field, "]") - 3)
    return field == "" ? "" : "," field ","
}

# The name that a file has where a text of units has a new one.
function old_name(name) {
    if (new_name != "") sub(new_name, "", name)
    return name
}
