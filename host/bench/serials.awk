# The tables of serials by where they differ, made by table.awk: what a line costs that seeks one, and what the checker costs.

function kinds(name, list, suffix, alone,    n, i, kind) {
    n = split(list, kind, " ")
    print name
    head("")
    for (i = 1; i <= n; i++) row(kind[i], kind[i] suffix, 1024, alone)
    print ""
}

function both_chains(suffix, alone) {
    kinds("chains of 4 cards, as they fall", "maker12 maker14 maker16 mixed short ends", suffix, alone)
    kinds("chains of 64 cards, in 16 buckets", "maker14 maker16 mixed short ends", "-long" suffix, alone)
}

function times() {
    print "SERIALS SOUGHT: processor time in nanoseconds a line of Show, its share of the job's one test of soundness included\n"
    both_chains("", 0)
    print "SERIALS CHECKED: processor time in nanoseconds a test of soundness\n"
    both_chains("-check", 0)
    spread()
}

function instructions() {
    print "SERIALS SOUGHT: instructions executed for a line of Show, without the test of soundness\n"
    both_chains("", 1)
    print "SERIALS CHECKED: instructions executed for a test of soundness\n"
    both_chains("-check", 0)
}

END {
    if (unit == "nanoseconds") times()
    else instructions()
}
