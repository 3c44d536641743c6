# The tables of histories listed, made by table.awk: what a fault costs that is shown.

BEGIN {
    faults = 2048
    what = unit == "nanoseconds" ? "processor time in nanoseconds" : "instructions executed"
}

function order_tables(alone) {
    table("rising", "filed by day", alone)
    table("late", "filed by day, but one fault in eight up to three weeks late", alone)
    table("falling", "each fault of an earlier day than the one before it", alone)
}

function calls(name, alone) {
    print name
    head("")
    row("rising", "rising-calls", 1, alone)
    row("late", "late-calls", 1, alone)
    row("falling", "falling-calls", 1, alone)
    print ""
}

END {
    print "HISTORIES IN JOBS: " what " a fault shown, its share of the job's one test of soundness included\n"
    order_tables(0)
    print "HISTORIES IN LINES ALONE: the same without the test of soundness\n"
    order_tables(1)
    print "HISTORIES BY SINGLE CALLS: " what " a fault, one card with 2,048\n"
    calls("Show with its test of soundness", 0)
    calls("Show alone", 1)
    if (unit == "nanoseconds") spread()
}
