# The lines of one input file after the other, and what is wrong with one: every message of the tools has this form.

# Ends the tool. Nothing has been printed by then, since all is read first. POSIX awk has no name for standard error.
function stop(message) {
    printf("%s: %s\n", ENVIRON["TOOL"], message) | "cat >&2"
    close("cat >&2")
    exit 2
}

function wrong_file(why) {
    stop(source ": " why)
}

function wrong_at(line, why) {
    stop(source " line " line ": " why)
}

function wrong(why) {
    wrong_at(at, why)
}

# A text as a message can show it: a byte that does not print is a question mark.
function shown(s) {
    gsub(/[^ -~]/, "?", s)
    return "`" (length(s) > 60 ? substr(s, 1, 60) ".." : s) "`"
}

function counted(n, what) {
    return n " " what (n == 1 ? "" : "s")
}

function open_file(file) {
    source = file
    at = 0
}

# Closed, so that a file given twice is read twice. A mawk in use crashes where /dev/stdin is closed.
function end_file() {
    if (source != "/dev/stdin") close(source)
    return 0
}

# The next line into `text` and `whole`, ended in either way; 0 behind the last.
function next_line(    got) {
    got = (getline text < source)
    if (got < 0) wrong_file("cannot be read")
    if (got == 0) return end_file()
    at++
    sub(/\r$/, "", text)
    whole = text
    return 1
}

# The next line that says something, without its comment, a blank between its words; 0 behind the last.
function next_entry() {
    while (next_line()) {
        sub(/#.*/, "", text)
        gsub(/[ \t]+/, " ", text)
        gsub(/^ | $/, "", text)
        if (text != "") return 1
    }
    return 0
}

# The digits are counted first: a long number is not exact in awk.
function check_number(word,    digits) {
    if (word !~ /^-?[0-9]+$/) wrong(shown(word) " is no number")
    digits = word
    sub(/^-?0*/, "", digits)
    if (length(digits) > 10 || word + 0 < -2147483648 || word + 0 > 2147483647)
        wrong(shown(word) " is not within 32 bits, -2147483648 to 2147483647")
}
