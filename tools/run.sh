# What the scripts that run a program share; `depot` and `desk` source it. A script sets `name`, the
# program's crate, and `undone`, what is not done where the program is not proved; then it calls
#   prove_first, run_program ARGUMENTS..
# run_program leaves in `said` what the program wrote to standard error and in `ended` its status.

say() {
    echo "$name: $*" >&2
}

# Whether the program is there and nothing was changed since the check began that proved it. What rt
# makes, the folders `out`, doesn't count.
is_proved() {
    [ -x "$program" ] && [ -e "$proved" ] &&
        [ -z "$(find "$here/crates.txt" "$here"/crates/*/* -name out -prune -o -newer "$proved" -print | head -n 1)" ]
}

# The crates that the program is made of: those that crates.txt lists from it down, each behind the
# crates that it uses.
list_crates() {
    awk -F : -v program="$name" '
        !/^#/ { split($1, words, " "); below[words[1]] = $2 }
        function visit(name,    i, n, names) {
            if (!(name in below) || name in seen) return
            seen[name]
            n = split(below[name], names, " ")
            for (i = 1; i <= n; i++) visit(names[i])
            print name
        }
        END { visit(program) }' "$here/crates.txt"
}

# Proves and builds a crate: a library for the crates above it, or the program, which rt then runs
# once, on no input and with no arguments.
prove_crate() {
    cd "$here/crates/$1" || return
    if [ "$1" = "$name" ]; then rt run; else rt lib; fi
}

unproved() {
    cat "$log" >&2
    say "the program is not proved, so $undone"
    exit 1
}

prove() {
    log=$here/target/$name.log
    say "the program is proved and built first, which takes some minutes"
    mkdir -p "$here/target"
    rm -f "$proved"
    : >"$proved.begun"
    : >"$log"
    crates=$(list_crates)
    all=$(echo "$crates" | wc -l)
    left=$all
    for crate in $crates; do
        (prove_crate "$crate") </dev/null >>"$log" 2>&1 || unproved
        left=$((left - 1))
        say "$crate is proved, $left of $all crates to go"
    done
    [ -x "$program" ] || unproved
    mv "$proved.begun" "$proved"
}

# Where the program is not built yet, or a crate was changed since, it is proved and built first.
prove_first() {
    program=$here/crates/$name/out/$name
    proved=$here/target/$name.proved
    command -v rt >/dev/null || {
        say "the Rattle kit's rt is not on the path"
        exit 1
    }
    is_proved || prove
}

# A write to a closed pipe, or past the limit on a file's size, fails and is told; it does not end
# the program. Its standard error is caught; its standard output is the script's own.
run_program() {
    trap '' PIPE XFSZ
    exec 3>&1
    ended=0
    said=$("$program" "$@" 2>&1 >&3 3>&-) || ended=$?
    exec 3>&-
    [ -z "$said" ] || printf '%s\n' "$said" >&2
}
