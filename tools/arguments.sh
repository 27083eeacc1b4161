# What the shell tools share, sourced by each: its usage, which is the comment at its head, its arguments, its input files, its reader.
# Every error is a message `TOOL: FILE line N: ..` and status 2, before anything is printed.
tool=$(basename "$0")
root=$(cd "$(dirname "$0")/.." && pwd)

usage() {
    sed -n '2,/^[^#]/s/^# \{0,1\}//p' "$0"
}

fail() {
    printf '%s: %s\n' "$tool" "$1" >&2
    exit 2
}

misused() {
    [ $# -eq 0 ] || printf '%s: %s\n' "$tool" "$1" >&2
    usage >&2
    exit 2
}

# A negative number is no option.
options() {
    for argument in "$@"; do
        case $argument in
        -h | --help)
            usage
            exit 0
            ;;
        -[0-9]*) ;;
        -*) misused "$argument: there is no such option" ;;
        esac
    done
}

# All input files are tested before one is read: awk takes a missing file or a directory in ways of its own.
inputs() {
    for file in "$@"; do
        [ -e "$file" ] || fail "$file: there is no such file"
        [ ! -d "$file" ] || fail "$file: is a directory, a file was expected"
        [ -f "$file" ] || [ -p "$file" ] || fail "$file: is neither a file nor a pipe"
        [ -r "$file" ] || fail "$file: may not be read"
    done
}

# awk behind the shared reader of tables, on bytes: reading -f FILE.awk.. -- ARGUMENT..
reading() {
    cells=$root/crates/cells/src
    inputs "$cells/limits.rt" "$cells/columns.rt" "$cells/codes.rt"
    LC_ALL=C TOOL=$tool CELLS=$cells \
        awk -f "$root/tools/lines.awk" -f "$root/tools/limits.awk" -f "$root/tools/tables.awk" "$@"
}
