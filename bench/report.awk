# The tables of a run, in markdown. It reads the lines of `harness list`, then lines `JOB INPUT SIDE NUMBER`, of which the least counts; `unit` is what
# the numbers count.

$1 == "input" {
    inputs[++count] = $2
    links[$2] = $3
    neighbours[$2] = $4
    hops[$2] = $5
    words = $6
    for (i = 7; i <= NF; i++)
        words = words " " $i
    title[$2] = words
    next
}

!(($1, $2, $3) in value) || $4 < value[$1, $2, $3] { value[$1, $2, $3] = $4 }

function table(job, head,    i, x) {
    if (!((job, inputs[1], "library") in value)) # all pairs, where instructions are counted
        return
    printf "\n| %s | plain C, %s | library, %s | ratio |\n|---|---:|---:|---:|\n", head, unit, unit
    for (i = 1; i <= count; i++) {
        x = inputs[i]
        printf "| %s%s | %.0f | %.0f | %.2f |\n", title[x], detail(job, x), value[job, x, "plain"], value[job, x, "library"], ratio(job, x)
    }
}

function detail(job, x) {
    return job == "path" ? " (" hops[x] " hops)" : job == "interfaces" ? " (" neighbours[x] " neighbours)" : ""
}

function ratio(job, x) {
    return value[job, x, "library"] / value[job, x, "plain"]
}

# The worst of several numbers and where it was, and a line of the table of targets for it.
function start() {
    worst = 0
    where = ""
}

function take(number, place) {
    if (number > worst) {
        worst = number
        where = place
    }
}

function tell(target, limit) {
    printf "| %s | %s | %.2f (%s) | %s |\n", target, limit, worst, where, worst <= limit ? "yes" : "no"
}

END {
    table("judge", "judge a table: `tracer_read`")
    table("fill", "costs and sets of one destination: `tracer_fill`")
    table("pairs", "all pairs: 64 fills")
    table("path", "a path: `tracer_path`")
    table("interfaces", "an interface table: `tracer_interfaces`")

    printf "\n| target | at most | worst | met |\n|---|---:|---|---|\n"
    start()
    for (i = 1; i <= count; i++)
        take(ratio("judge", inputs[i]), title[inputs[i]])
    tell("judge, library to plain C", 1.5)
    start()
    for (i = 1; i <= count; i++)
        take(ratio("fill", inputs[i]), title[inputs[i]])
    tell("fill, library to plain C", 2)
    start()
    for (i = 1; i <= count; i++)
        for (k = 1; k <= count; k++)
            if (i != k && links[inputs[i]] == links[inputs[k]])
                take(value["fill", inputs[i], "library"] / value["fill", inputs[k], "library"], title[inputs[i]] " to " title[inputs[k]])
    tell("library's fill, a table to another with as many links", 3)
    start()
    for (i = 1; i <= count; i++)
        take(value["path", inputs[i], "library"] / value["fill", inputs[i], "library"], title[inputs[i]])
    tell("library's path in fills of the same table", 2.5)
    start()
    for (i = 1; i <= count; i++)
        take(value["interfaces", inputs[i], "library"] / value["fill", inputs[i], "library"] / (neighbours[inputs[i]] + 1), title[inputs[i]])
    tell("library's interface table in (neighbours + 1) fills of the same table", 1)
}
