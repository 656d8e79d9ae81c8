# Writes for each line of a preprocessed text the line of the file from which it comes by the line marks of the text, or
# an empty line where that file is not at hand. It is read behind origins.awk, which says what the environment has to
# tell.

BEGIN { begin_origins() }
{
    print is_at_hand(name, number) ? lines[name, number] : ""
    is_mark($0)
}
