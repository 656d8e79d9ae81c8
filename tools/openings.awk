# What the rules of logs say, and what is open at a place of each kind of assumptions with what to write instead: those
# are the rules without a level. `rules` of the environment names the file that has them, a line `WORD LEVEL SENTENCE: HELP`
# for each, as `report_view --rules` writes them. Other scripts are read behind it.

BEGIN {
    while ((getline rule_line < ENVIRON["rules"]) > 0) {
        split(rule_line, rule_words, " ")
        rule_line = substr(rule_line, length(rule_words[1]) + length(rule_words[2]) + 3)
        rule_end = match(rule_line, /: [^:]*$/)
        says[rule_words[1]] = substr(rule_line, 1, rule_end - 1)
        rule_help = tolower(substr(rule_line, rule_end + 2, 1)) substr(rule_line, rule_end + 3)
        sub(/[.]$/, "", rule_help)
        if (rule_words[2] == "none") opening[rule_words[1]] = says[rule_words[1]] ": " rule_help
    }
    close(ENVIRON["rules"])
}
