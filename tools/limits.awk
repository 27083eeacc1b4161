# The limits, columns and kinds of document 01 where the proved code has them, in the crate `cells`: constant("PORTS"),
# constant("port.WIDTH"), constant("PortKind::Sensor").

BEGIN {
    read_constants(ENVIRON["CELLS"] "/limits.rt")
    read_constants(ENVIRON["CELLS"] "/columns.rt")
    read_kinds(ENVIRON["CELLS"] "/codes.rt")
}

# Lines `pub mod port {` and `pub const WIDTH: usize = 2;`. A value may be the name of a constant that came before.
function read_constants(file,    word, module, name, value) {
    open_file(file)
    module = ""
    while (next_line()) {
        split(text, word, " ")
        if (word[1] !~ /^pub(\(crate\))?$/) continue
        if (word[2] == "mod") module = word[3] "."
        if (word[2] != "const") continue
        name = module word[3]
        value = word[6]
        sub(/:$/, "", name)
        gsub(/crate::columns::|;$/, "", value)
        sub(/::/, ".", value)
        if (value in known) value = known[value]
        if (value ~ /^[0-9]+$/) known[name] = value + 0
    }
}

# Lines `PortKind::Sensor => 0,`.
function read_kinds(file,    word, value) {
    open_file(file)
    while (next_line()) {
        if (split(text, word, " ") != 3 || word[2] != "=>") continue
        value = word[3]
        sub(/,$/, "", value)
        if (value ~ /^[0-9]+$/) known[word[1]] = value + 0
    }
}

function constant(name) {
    if (!(name in known)) missing(name)
    return known[name]
}

function missing(name) {
    if (name ~ /::/) stop(ENVIRON["CELLS"] "/codes.rt: " name ": no line `KIND::NAME => N,` has it")
    stop(ENVIRON["CELLS"] (name ~ /\./ ? "/columns.rt" : "/limits.rt") ": " name ": no line `pub const NAME: usize = N;` has it")
}

# How many numbers a state has: two values a port, time stamp, two addresses, elapsed and remaining ticks, times left, positions.
function state_size() {
    return 2 * constant("PORTS") + 5 + constant("TASKS") + constant("SUPPLIERS")
}
