# The commented tables of document 01, one reader for all of them. A table's rows come to cell[name, row, column], counted from 0.

# The program's tables in their order, then the others: name, columns in columns.rt, most rows in limits.rt.
BEGIN {
    order[0] = "start"
    rows["start"] = 0
    width["start"] = most["start"] = fewest["start"] = 1
    declare("ports", "port", "PORTS")
    declare("tasks", "task", "TASKS")
    declare("task ports", "task_port", "TASK_PORTS")
    declare("drivers", "driver", "DRIVERS")
    declare("copies", "copy", "COPIES")
    declare("modes", "mode", "MODES")
    declare("mode ports", "mode_port", "MODE_PORTS")
    declare("invocations", "invocation", "INVOCATIONS")
    declare("updates", "update", "UPDATES")
    declare("switches", "switch", "SWITCHES")
    fewest["modes"] = 1
    last_table = declared
    declare("windows", "window", "WINDOWS")
    declare("part", "schedule", "PART")
    declare("schedule", "schedule", "SCHEDULE")
}

function declare(name, columns, limit) {
    order[++declared] = name
    columns_of[name] = columns
    width[name] = constant(columns ".WIDTH")
    most[name] = constant(limit)
    rows[name] = fewest[name] = 0
}

# A field by its column's name, as a number.
function of(name, row, column) {
    return cell[name, row, constant(columns_of[name] "." column)] + 0
}

# Which of the program's tables has this name; -1 where none has.
function place(name,    t) {
    for (t = last_table; t >= 0; t--) if (order[t] == name) break
    return t
}

# The line is a row of this table.
function read_row(name,    word, n, i) {
    n = split(text, word, " ")
    for (i = 1; i <= n; i++) check_number(word[i])
    if (n != width[name]) wrong("a row of `" name "` has " counted(width[name], "number") ", not " n)
    if (rows[name] == most[name]) wrong("`" name "` has at most " counted(most[name], "row"))
    line_of[name, rows[name]] = at
    whole_of[name, rows[name]] = whole
    for (i = 1; i <= n; i++) cell[name, rows[name], i - 1] = word[i]
    rows[name]++
}

# The line is a row of the table at this place, or should be the name of the next.
function read_program_row(t) {
    if (t < 0) wrong("`start` was expected first, not " shown(text))
    if (text !~ /^[-+0-9]/)
        wrong(shown(text) " is neither a row of `" order[t] "`" (t < last_table ? " nor the next table's name, `" order[t + 1] "`" : ""))
    read_row(order[t])
}

# The line is the name of a table; the one before it ends. Where it stands in the program.
function read_name(before,    t) {
    t = place(text)
    if (t <= before) wrong("the table `" text "` stands twice, first in line " began[text])
    if (t != before + 1) wrong("the table `" order[before + 1] "` was expected, not `" text "`")
    end_table(before)
    began[text] = at
    return t
}

function end_table(t) {
    if (t >= 0 && rows[order[t]] < fewest[order[t]])
        wrong_at(began[order[t]], "`" order[t] "` has no row, at least " fewest[order[t]] " was expected")
}

function read_program(file,    t) {
    open_file(file)
    t = -1
    while (next_entry()) {
        if (place(text) >= 0) t = read_name(t)
        else read_program_row(t)
    }
    end_table(t)
    if (t != last_table) wrong_file("the table `" order[t + 1] "` is missing")
}

# A file that is one table, without its name.
function read_rows(file, name) {
    open_file(file)
    rows[name] = 0
    while (next_entry()) read_row(name)
}

function print_rows(name,    r, c) {
    for (r = 0; r < rows[name]; r++) for (c = 0; c < width[name]; c++) print cell[name, r, c]
}

# A slice is how many numbers it has, then the numbers.
function print_slice(name) {
    print rows[name] * width[name]
    print_rows(name)
}

# The one case of a file begins with its program, in slices.
function print_case(    t) {
    print 1
    print_rows("start")
    for (t = 1; t <= last_table; t++) print_slice(order[t])
}
