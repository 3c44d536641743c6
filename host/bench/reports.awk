# The tables of reports. Each line of input is a run: workload, stores of a report, program, form, microseconds or instructions, reports,
# place. The runs of one program on one text come together, the quickest first. Given are unit, which is nanoseconds or instructions, and programs,
# the names of the columns.

BEGIN {
    columns = split(programs, column, " ")
    title["report-c"] = "C"
    title["report-before"] = "before"
    title["report-ours"] = "ours"
    what = unit == "nanoseconds" ? "processor time in microseconds" : "instructions executed, in thousands,"
    scale = unit == "nanoseconds" ? 1 : 1000
}

{
    key = $1 " " $2 " " $3 " " $4
    if (!(key in least)) least[key] = $5
    reports[key] = $6
    if (!(($1, $2) in met)) {
        met[$1, $2] = 1
        numbers[$1] = numbers[$1] " " $2
    }
}

# What a report takes, from the quickest runs: with its tests what the runs of one report for each group take above the base, without
# tests what those of two take above these.
function cost(workload, stores, program, form,    key, less) {
    key = workload " " stores " " program " "
    less = form == "tested" ? "base" : "tested"
    return (least[key form] - least[key less]) / (reports[key form] - reports[key less]) / scale
}

# What stores take beside the fixed part, over as many times what one takes.
function growth(workload, stores, program, form,    fixed) {
    fixed = cost("none", 1, program, form)
    return (cost(workload, stores, program, form) - fixed) / (stores * (cost(workload, 1, program, form) - fixed))
}

function head(    i) {
    printf "%10s", "stores"
    for (i = 1; i <= columns; i++) printf "%10s", title[column[i]]
    for (i = 2; i <= columns; i++) printf "%12s", title[column[i]] "/C"
    if (programs ~ /before report-ours/) printf "%12s", "ours/before"
    for (i = 1; i <= columns; i++) printf "%14s", title[column[i]] " growth"
    print ""
}

function row(label, workload, stores, form,    i, of) {
    printf "%10s", label
    for (i = 1; i <= columns; i++) printf "%10.1f", of[column[i]] = cost(workload, stores, column[i], form)
    for (i = 2; i <= columns; i++) printf "%12.2f", of[column[i]] / of["report-c"]
    if (programs ~ /before report-ours/) printf "%12.2f", of["report-ours"] / of["report-before"]
    for (i = 1; i <= columns && workload != "none"; i++) printf "%14.2f", growth(workload, stores, column[i], form)
    print ""
}

function table(workload, name, form,    n, i, list) {
    n = split(numbers[workload], list, " ")
    print name
    head()
    row("fixed", "none", 1, form)
    for (i = 1; i <= n; i++) row(list[i], workload, list[i], form)
    print ""
}

function form_tables(form, name) {
    print "REPORTS " name ": " what " a report\n"
    table("full", "full stores: 1,024 cards and 2,048 faults each, of 9,999 codes", form)
    table("few", "the same, of 64 codes", form)
    table("quarter", "a quarter full: 256 cards and 512 faults each, of 9,999 codes", form)
}

END {
    form_tables("tested", "WITH THEIR TESTS OF SOUNDNESS")
    form_tables("again", "ON STORES KNOWN TO BE SOUND")
}
