# The main part of tools/numbers. What it prints counts a table in rows.
BEGIN {
    read_program(ARGV[1])
    print_rows("start")
    print_counted()
    exit
}

function print_counted(    t) {
    for (t = 1; t <= last_table; t++) {
        print rows[order[t]]
        print_rows(order[t])
    }
}
