# The main part of tools/where.
BEGIN {
    name = table_at(ARGV[2])
    if (place(name) >= 0) read_program(ARGV[1])
    else read_rows(ARGV[1], name)
    show_row(ARGV[3])
    exit
}

# The table of this number: the program's ten, windows, part; then the start mode. The joined schedule is counted as a part is.
function table_at(n,    last) {
    last = declared - 1
    if (n !~ /^[0-9]+$/ || n + 0 > last)
        stop("table " shown(n) ": a number 0 to " last " was expected; the supplier asked about, " (last + 1) ", stands in no table")
    return n + 0 < last ? order[n + 1] : order[0]
}

function show_row(r) {
    if (r !~ /^[0-9]+$/ || r + 0 >= rows[name])
        wrong_file("row " shown(r) " of `" name "`: it has " counted(rows[name], "row") ", counted from 0")
    print source " line " line_of[name, r + 0] ": " whole_of[name, r + 0]
}
