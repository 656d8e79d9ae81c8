# Writes the answer of `waits` or `ranges`, notes on rings or races, or assumptions, with their places in their files. It
# reads three parts: the places of the text, `LINE:COL`, in a line each; these places in their files, line by line; and
# the answer. It is read behind openings.awk.

# The words from one field to another, with commas, or what stands for none.
function listed(first, last, none,    text, at) {
    for (at = first; at <= last; at++) text = text (at > first ? ", " : "") $at
    return text == "" ? none : text
}

part == 1 { places[FNR] = $0; next }
part == 2 { shown[places[FNR]] = $0; next }

# The last line has the number alone: `waits N`, `rings N`, `races N`, `dead N` or `assumptions N`.
!($1 in shown) { print; next }
NF == 2 && $2 == "WAIT" {
    print shown[$1] ": warning: " says["WAIT"] " [WAIT]"
    next
}
NF == 2 && ($2 in opening) { print shown[$1] ": note: " opening[$2] " [" $2 "]"; next }
NF == 2 && $2 == "DEAD" { print shown[$1] ": note: " says["DEAD"] " [DEAD]"; next }
NF == 3 && $2 == "RING" {
    print shown[$1] ": warning: " $3 " tasks may come to wait for each other for ever, in this order [WAIT]"
    next
}
$3 == "holds" { print shown[$1] ": note: " $2 " holds " listed(4, NF - 2, "nothing") " and asks for " $NF; next }
NF == 4 && $3 == "RACES" {
    print shown[$1] ": warning: tasks may access " $2 " at the same time, one of them storing; it is accessed so: [RACE]"
    next
}
$4 == "holds" {
    free = 5
    while ($free != "free") free++
    last = NF - ($NF == "races" && NF > free)
    print shown[$1] ": note: " $2 " " $3 ", holds " listed(5, free - 1, "nothing") \
        (last > free ? " and has found free " listed(free + 1, last) : "") (last < NF ? ", and races" : "")
    next
}
{ print shown[$1] ": note: " $2 " is from " $3 " to " $4 }
