# Writes the lines of alarms and of waits as their results stand: what is not new, or is suppressed, is a note that says so. It reads
# four parts: where the results stand, a word a line; the reasons by which comments suppress them, a line each, in the same
# order; the lines of the alarms, with their number behind them; and those of the waits.

part == 1 { stands[FNR] = $1; next }
part == 2 { reasons[FNR] = $0; next }
part == 3 && /^alarms [0-9]+$/ { last = $0; next }

{
    word = stands[++count]
    if (word != "new" && match($0, /: warning: [^:]*$/)) {
        if (word == "suppressed" && reasons[count] != "") word = word ", " reasons[count]
        $0 = substr($0, 1, RSTART - 1) ": note: " word ": " substr($0, RSTART + 11)
    }
    print
}

END { print last }
