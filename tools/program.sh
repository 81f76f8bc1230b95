# shellcheck shell=bash disable=SC2154
# Sourced by ./meshsheet, ./scansheet, ./hemsheet, ./meshclean and ./meshround, each of which runs a proved program of its own name. They set
#   home       the folder that they stand in
#   name       the program's
#   usage      the line of usage
#   help       what --help prints
#   longest    how much a file may have of what goes by the program, as one says it
#   kind       what a file is called that it reads, where that is no panel file
#   words      the file that says what its refusals mean, where that is not tools/refusals.txt
# before, and then
#   take_options WORDS   does what --help and --version ask for, and ends where the words are not those of the usage
#   open_input [FILE]    makes the file, or standard input, what the program reads; before the folder changes
#   make_ready           sets 'run' to the words that run the program, which is proved and built where it is not
#   print_sheet SHEET    on standard output, byte for byte, and said where that fails
#   write_panel WHAT [FILE]    does the whole work of a program that writes a panel file, WHAT it is called
#   refused NUMBER       says what a refusal means, and ends with 1
#   fail WORDS           says that nothing could be read, run or written, and ends with 2
#   version              prints the version
#
# The program is proved and built on first use, and after a change: that takes some minutes, what the kit says of it goes to
# target/NAME.said, and standard input is left alone. It is an x86-64 program: elsewhere the kit's emulator runs it.

fail() {
    echo "$name: $*" >&2
    exit 2
}

take_options() {
    case ${1:-} in
        --help) echo "$help" && exit ;;
        --version) version && exit ;;
        -?*) echo "$usage" >&2 && exit 2 ;;
    esac
    [ $# -le 1 ] || { echo "$usage" >&2 && exit 2; }
}

# A folder and a closed standard input would read as a file that is cut.
open_input() {
    [ "${1:-}" != - ] || shift
    if [ $# -gt 0 ]; then
        [ -e "$1" ] || fail "there is no file ${1@Q}"
        [ -d "$1" ] || [ -r "$1" ] || fail "${1@Q} may not be read"
        exec <"$1"
    fi
    [ -e /dev/stdin ] || fail "standard input is closed"
    [ ! -d /dev/stdin ] || fail "this is a folder, not a ${kind:-panel file}"
    if [ -t 0 ]; then
        echo "$usage" >&2
        exit 2
    fi
}

# Nothing is built where nothing has changed since it was.
stale() {
    [ ! -x "target/bin/$name" ] || [ ! -e "$built" ] || [ -n "$(find crates crates.txt -name out -prune -o -type f -newer "$built" -print -quit)" ]
}

# One builds and the others wait for it, whichever program they build: two at once would write the same files.
build() {
    command -v rt >/dev/null ||
        fail "the program is not built, or not of these sources, and the Rattle kit that builds it is not here: no 'rt' on the path"
    mkdir -p target
    exec 9>target/programs.lock
    if command -v flock >/dev/null && ! flock --nonblock 9; then
        echo "$name: waiting for another one that is building" >&2
        flock 9
    fi
    if stale; then
        echo "$name: proving and building, once" >&2
        touch "$built.begun"
        # the kit proves and builds a program to run it; it is given nothing to read
        (cd "crates/$name" && rt run </dev/null >"../../target/$name.said" 2>&1 9>&-) ||
            fail "it could not be built; target/$name.said says more"
        mkdir -p target/bin
        cp "crates/$name/out/$name" "target/bin/$name"
        mv "$built.begun" "$built"
    fi
    exec 9>&-
}

# In front of the program stand no words on x86-64, and the kit's emulator elsewhere.
make_ready() {
    built=target/$name.built run=("target/bin/$name")
    if stale; then
        build
    fi
    [ "$(uname -m)" != x86_64 ] || return 0
    local kit tools
    kit=${RATTLE_HOME:-$(dirname "$(dirname "$(readlink -f "$(command -v rt || echo /no/kit)")")")}
    tools=$kit/on/$(uname -m)/toolchain
    [ -x "$tools/bin/qemu-x86_64" ] || fail "this is no x86-64 machine, and the Rattle kit that has the emulator is not here: no 'rt' on the path"
    run=("$tools/bin/qemu-x86_64" "$tools/lib/ld-linux-x86-64.so.2" --library-path "$tools/lib" "${run[@]}")
}

print_sheet() {
    [ -n "$1" ] || fail "the program printed no sheet"
    { printf '%s' "$1"; } 2>/dev/null || fail "the sheet could not be written"
}

# Such a program always ends with status 0: on standard output it writes the file, or on standard error 'refused' and the number, or
# 'unwritten'. What it writes is kept aside until it has ended.
write_panel() {
    local what=$1 told
    [ ! -t 1 ] || fail "the $what is no text for a terminal: send it to a file with '>'"
    open_input "${@:2}"
    cd "$home"
    make_ready
    made=$(mktemp) || fail "there is no place for the $what"
    trap 'rm -f "$made"' EXIT
    told=$("${run[@]}" 2>&1 >"$made") || fail "the program did not end as it should"
    if [[ $told =~ ^refused\ ([0-9]+) ]]; then
        refused "${BASH_REMATCH[1]}"
    fi
    [ -z "$told" ] || fail "the $what could not be written"
    [ -s "$made" ] || fail "the program wrote no file"
    cat "$made" 2>/dev/null || fail "the $what could not be written"
}

refused() {
    echo "$name: the file is refused ($1): $(sed -n "s/^$1 //p" "${words:-tools/refusals.txt}" | sed "s/LONGEST/$longest/")" >&2
    exit 1
}

version() {
    sed -n "s/^version = \"\(.*\)\"\$/$name \1/p" "$home/rust/barleyhinge/Cargo.toml"
}
