# Read by `.` from the top of the repository: sets rt, and says where its version is not the one that README names.
# rt is taken from the PATH, or else from the toolchain's folder under RATTLE_HOME.
rt=$(command -v rt || { [ -n "${RATTLE_HOME:-}" ] && echo "$RATTLE_HOME/bin/rt"; }) || {
    echo "no rt on the PATH, and RATTLE_HOME is not set: README says what is needed" >&2
    exit 2
}
named=$(sed -n 's/.*`\(rattle-kit-[^`]*\)`.*/\1/p' README.md | head -n 1)
found=$("$rt" version)
[ "$found" = "$named" ] || echo "this is $found; what is here was proved with $named" >&2

# tools/seconds.txt has a crate a line: its name, the seconds that it takes to be proved, and those of its edits.
# The sum of a column over the crates that are named.
seconds() { # COLUMN NAME...
    column=$1
    shift
    for c in "$@"; do sed -n "s/^$c //p" tools/seconds.txt; done | {
        sum=0
        while read -r proved edits; do
            case $column in proved) sum=$((sum + proved)) ;; *) sum=$((sum + edits)) ;; esac
        done
        echo "$sum"
    }
}

minutes() { echo "$((($1 + 59) / 60)) minutes"; }
