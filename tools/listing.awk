# The E code of a program after document 01, an ordinary model, unproved: it tells whether a listing is this program's.
# Address by address: listed[a] is the line, code[a, 0..2] are the words.

# The instructions in the order of their numbers, each with how many arguments it has.
BEGIN {
    numbered("call", 1)
    numbered("schedule", 1)
    numbered("if", 2)
    numbered("jump", 1)
    numbered("future", 2)
    numbered("return", 0)
}

function numbered(name, n) {
    number[name] = instructions++
    arguments[name] = n
}

function emit(name, a, b) {
    if (code_size == constant("CODE")) compiles_not()
    listed[code_size] = code_size " " name (arguments[name] > 0 ? " " (a + 0) : "") (arguments[name] > 1 ? " " (b + 0) : "")
    code[code_size, 0] = number[name]
    code[code_size, 1] = a + 0
    code[code_size, 2] = b + 0
    code_size++
}

function compiles_not() {
    stop(program ": is no program that compiles; `./run toporasca` says why")
}

# Twice, since an address ahead is known only after the first pass.
function compile(file,    m, k, pass) {
    program = file
    check_program()
    for (m = 0; m < rows["modes"]; m++) units[m] = units_of(m)
    for (pass = 1; pass <= 2; pass++) {
        code_size = 0
        emit("jump", block[cell["start", 0, 0] + 0, 0])
        for (m = 0; m < rows["modes"]; m++) for (k = 0; k < units[m]; k++) emit_unit(m, k)
    }
}

# What the model divides by, counts up to or names is in range; the compiler judges the rest.
function check_program(    r) {
    check_named(cell["start", 0, 0] + 0, "modes")
    check_timed("invocations")
    check_timed("updates")
    check_timed("switches")
    for (r = 0; r < rows["invocations"]; r++) check_named(of("invocations", r, "TASK"), "tasks")
    for (r = 0; r < rows["switches"]; r++) check_named(of("switches", r, "TARGET"), "modes")
}

function check_named(n, name) {
    if (n < 0 || n >= rows[name]) compiles_not()
}

function check_timed(name,    r) {
    for (r = 0; r < rows[name]; r++) {
        check_named(of(name, r, "MODE"), "modes")
        check_named(of(name, r, "DRIVER"), "drivers")
        if (of(name, r, "FREQUENCY") < 1 || of(name, r, "FREQUENCY") > constant("FREQUENCY")) compiles_not()
    }
}

function units_of(m,    u, period) {
    u = multiple("switches", m, multiple("updates", m, multiple("invocations", m, 1)))
    period = of("modes", m, "PERIOD")
    if (period < 1 || period > constant("PERIOD") || period % u) compiles_not()
    return u
}

# The least common multiple of `u` and the frequencies of a mode's rows.
function multiple(name, m, u,    r, step) {
    for (r = 0; r < rows[name]; r++) {
        if (of(name, r, "MODE") != m) continue
        step = u
        while (u % of(name, r, "FREQUENCY")) u += step
        if (u > constant("UNITS")) compiles_not()
    }
    return u
}

# The rows that are due at a mode's unit come to due[1..] in table order. How many there are.
function find_due(name, m, k, due,    r, n) {
    n = 0
    for (r = 0; r < rows[name]; r++)
        if (of(name, r, "MODE") == m && k % (units[m] / of(name, r, "FREQUENCY")) == 0) due[++n] = r
    return n
}

# The block of a unit. A due switch is a gate here, since `switch` is a word of gawk.
function emit_unit(m, k,    task, tasks, update, updates, gate, gates, i) {
    tasks = find_due("invocations", m, k, task)
    updates = find_due("updates", m, k, update)
    gates = find_due("switches", m, k, gate)
    block[m, k] = code_size
    for (i = 1; i <= tasks; i++) emit("call", constant("OUTPUT_CALL") + of("invocations", task[i], "TASK"))
    for (i = 1; i <= updates; i++) emit("call", of("updates", update[i], "DRIVER"))
    for (i = 0; i < rows["ports"]; i++)
        if (of("ports", i, "KIND") == constant("PortKind::Sensor")) emit("call", constant("SENSOR_CALL") + i)
    for (i = 1; i <= gates; i++) emit("if", of("switches", gate[i], "DRIVER"), stub[k, gate[i]])
    if (k == 0) entry[m] = code_size
    for (i = 1; i <= tasks; i++) emit("call", of("invocations", task[i], "DRIVER"))
    for (i = 1; i <= tasks; i++) emit("schedule", of("invocations", task[i], "TASK"))
    emit("future", of("modes", m, "PERIOD") / units[m], block[m, (k + 1) % units[m]])
    emit("return")
    for (i = 1; i <= gates; i++) emit_stub(k, gate[i])
}

function emit_stub(k, row) {
    stub[k, row] = code_size
    emit("call", of("switches", row, "DRIVER"))
    emit("jump", entry[of("switches", row, "TARGET")])
}

function print_code(    a, i) {
    print code_size * constant("WORDS")
    for (a = 0; a < code_size; a++) for (i = 0; i < constant("WORDS"); i++) print code[a, i]
}
