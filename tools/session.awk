# The main part of tools/session.
BEGIN {
    read_program(ARGV[1])
    check_listing(ARGV[2], ARGV[1])
    read_ticks(ARGV[3])
    join_parts(4)
    print_case()
    print_code()
    print_slice("schedule")
    print_fresh_state()
    print_ticks()
    exit
}

# What the compiler printed for these tables, and for no others.
function check_listing(file, table,    a) {
    open_file(file)
    if (!next_line()) wrong_file("is empty, what `./run toporasca` prints for " table " was expected")
    if (text ~ /^[1-9][0-9]*( [0-9]+ [0-9]+)?$/) wrong("the program is refused with " text " (docs/NUMBERS.md)")
    if (text != "0") wrong("is " shown(text) ", a listing begins with `0`")
    compile(table)
    for (a = 0; a < code_size; a++) {
        if (!next_line()) wrong_file("ends after line " at ", this program's goes on with " shown(listed[a]))
        if (text != listed[a]) wrong("is " shown(text) ", this program's is " shown(listed[a]))
    }
    if (next_line()) wrong("is " shown(text) ", this program's listing ends before it")
}

# The schedule is sorted by supplier, so a file is one supplier's, and those of lower suppliers come before it.
function join_parts(first,    i, s, before) {
    before = -1
    for (i = first; i < ARGC; i++) {
        read_rows(ARGV[i], "part")
        s = one_supplier()
        if (s <= before) wrong_at(line_of["part", 0], "supplier " s " behind supplier " before ", one file each and the lowest first was expected")
        append_part()
        given[s] = 1
        before = s
    }
    check_given()
}

# A task that is invoked and never dispatched only shows as an overrun, ticks later.
function check_given(    r, t, s) {
    for (r = 0; r < rows["invocations"]; r++) {
        t = of("invocations", r, "TASK")
        s = of("tasks", t, "SUPPLIER")
        if (!(s in given)) stop(program ": task " t " is supplier " s "'s, and no part of supplier " s " is given")
    }
}

# Whose part it is.
function one_supplier(    s, r) {
    if (rows["part"] == 0) wrong_file("has no row, a supplier's part of the schedule was expected")
    s = of("part", 0, "SUPPLIER")
    if (s < 0 || s >= constant("SUPPLIERS")) wrong_at(line_of["part", 0], "supplier " s " is not 0 to " (constant("SUPPLIERS") - 1))
    for (r = 1; r < rows["part"]; r++)
        if (of("part", r, "SUPPLIER") != s)
            wrong_at(line_of["part", r], "a row of supplier " of("part", r, "SUPPLIER") " in the part of supplier " s)
    return s
}

function append_part(    r, c) {
    for (r = 0; r < rows["part"]; r++) {
        if (rows["schedule"] == most["schedule"])
            wrong_at(line_of["part", r], "all parts together have at most " counted(most["schedule"], "row"))
        for (c = 0; c < width["part"]; c++) cell["schedule", rows["schedule"], c] = cell["part", r, c]
        rows["schedule"]++
    }
}

# The first values in ports and local outputs, 0 elsewhere.
function print_fresh_state(    ports, i) {
    ports = constant("PORTS")
    for (i = 0; i < state_size(); i++)
        print (i < 2 * ports && i % ports < rows["ports"] ? cell["ports", i % ports, constant("port.FIRST")] : 0)
}
