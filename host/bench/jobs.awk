# The tables of jobs and of single calls, made by table.awk.

function job_tables(alone) {
    table("day", "all of these on one store, from Open on", alone)
    table("fill", "enter all cards, withdraw all", alone)
    table("show", "show all cards, two faults on each", alone)
    table("file", "file 2,048 faults", alone)
    table("churn", "enter and withdraw: down to a quarter of the cards and up again", alone)
}

function times() {
    print "JOBS: processor time in nanoseconds a line, its share of the job's one test of soundness included\n"
    job_tables(0)
    print "LINES ALONE: the same without the test of soundness\n"
    job_tables(1)
    print "SINGLE CALLS: processor time in nanoseconds a call\n"
    table("call", "Show with its test of soundness, full store", 0)
    table("check", "the test of soundness, full store", 0)
    spread()
}

function counted(workloads, name, alone,    n, i, list) {
    n = split(workloads, list, " ")
    print name
    head("")
    for (i = 1; i <= n; i++) row(list[i], list[i], 1024, alone)
    print ""
}

function instructions() {
    print "INSTRUCTIONS: executed for a line or a call, 1,024 cards\n"
    counted("day fill show file churn", "a line, with its share of the job's one test of soundness", 0)
    counted("day fill show file churn", "a line alone", 1)
    counted("call check", "a call", 0)
}

END {
    if (unit == "nanoseconds") times()
    else instructions()
}
