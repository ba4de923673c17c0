# What the tests of ./nightly and ./merge share. They read it by '.', have the repository in $root, and stand where their files are.

# said NAME COMMAND..: what a command says, under its name, and its status
said() {
    echo "$1:"
    shift
    status=0
    "$@" || status=$?
    echo "status $status"
}
keep() { said "keep $1" "$root/keep" "$1"; }
nightly() { said "nightly $*" "$root/nightly" "$@"; }
# changed FILE PLACE BYTE: a copy of main with one byte changed
changed() { cp main "$1" && printf "$3" | dd of="$1" bs=1 seek="$2" conv=notrunc 2>dd.log; }
