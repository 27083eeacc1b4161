# What comes in to a run, tick by tick: readings, results and times stay until they change, and each `ticks N` is so many ticks of them.

function read_ticks(file,    word, n) {
    open_file(file)
    while (next_entry()) {
        n = split(text, word, " ")
        if (n == 2 && word[1] == "ticks") add_ticks(word[2])
        else if (n == 3 && word[1] ~ /^(reading|result|time)$/) change(word[1], word[2], word[3])
        else wrong(shown(text) ": `reading PORT VALUE`, `result PORT VALUE`, `time TASK VALUE` or `ticks N` was expected")
    }
    if (steps == 0) wrong_file("has no line `ticks N`, so there is nothing to run")
}

function change(what, which, value) {
    if (what == "reading") check_port(which, "sensor", "Sensor")
    if (what == "result") check_port(which, "output or private", "Output", "Private")
    if (what == "time") check_declared(which, "tasks", "task")
    if (value == "none") value = "-2147483648" # the no-reading value
    check_number(value)
    lent[what, which + 0] = value
}

function check_declared(which, name, kind) {
    if (which !~ /^[0-9]+$/ || which + 0 >= rows[name]) wrong(shown(which) " is no declared " kind)
}

# of this kind, or of one of two
function check_port(which, kind, value, other,    is) {
    check_declared(which, "ports", kind " port")
    is = of("ports", which + 0, "KIND")
    if (is != constant("PortKind::" value) && (other == "" || is != constant("PortKind::" other)))
        wrong(shown(which) " is no declared " kind " port")
}

function add_ticks(n) {
    check_number(n)
    if (n + 0 < 1) wrong("`ticks N` is at least `ticks 1`")
    steps += n
    if (steps > 2147483647) wrong("more than 2147483647 ticks in all")
    span[++spans] = n
    each[spans] = slice("reading", constant("PORTS")) slice("result", constant("PORTS")) slice("time", constant("TASKS"))
}

function slice(what, size,    s, i) {
    s = size "\n"
    for (i = 0; i < size; i++) s = s ((what, i) in lent ? lent[what, i] : 0) "\n"
    return s
}

function print_ticks(    i, k) {
    print steps
    for (i = 1; i <= spans; i++) for (k = 0; k < span[i]; k++) printf("%s", each[i])
}
