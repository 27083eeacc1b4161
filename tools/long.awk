# How many ticks the cases of a file of the kind `long` run in all. The file is tested to its end before anything is timed.
BEGIN {
    open_file(ARGV[1])
    cases = next_number()
    if (cases < 1) wrong("at least 1 case was expected, not " text)
    while (cases-- > 0) ticks += next_case()
    if (next_line()) wrong("the last case ended before this line")
    print ticks
    exit
}

# A case is a program, its code and schedule, a state, how many ticks, and the three slices lent to all of them.
function next_case(    n) {
    skip(1)
    skip_slices(last_table + 2)
    skip(state_size())
    n = next_number()
    if (n < 1) wrong("at least 1 tick was expected, not " text)
    skip_slices(3)
    return n
}

function next_number() {
    if (!next_line()) wrong_file("ends before its last case does")
    if (text !~ /^-?[0-9]+$/) wrong(shown(text) " is no number")
    return text + 0
}

function skip(n) {
    if (n < 0) wrong("a slice cannot have " text " numbers")
    while (n-- > 0) next_number()
}

function skip_slices(n) {
    while (n-- > 0) skip(next_number())
}
