# The main part of tools/case.
BEGIN {
    of_supplier = ARGC > 3
    if (of_supplier) check_supplier(ARGV[4])
    read_program(ARGV[1])
    read_rows(ARGV[2], "windows")
    if (of_supplier) read_rows(ARGV[3], "part")
    print_case()
    print_slice("windows")
    if (of_supplier) {
        print_slice("part")
        print ARGV[4]
    }
    exit
}

function check_supplier(s) {
    if (s !~ /^[0-9]+$/ || s + 0 >= constant("SUPPLIERS"))
        stop("supplier " shown(s) ": a number 0 to " (constant("SUPPLIERS") - 1) " was expected")
}
