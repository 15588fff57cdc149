# The table of the benchmark from its rows (job, who, ns, instructions, times the library's time), and the goals.

function line(job, who, ns, count, ratio) {
    printf "| %-24s | %-14s | %10s | %12s | %7s |\n", job, who, ns, count, ratio
}

# A number with three digits that count, or more before the point.
function short(x) {
    return sprintf(x < 10 ? "%.2f" : x < 100 ? "%.1f" : "%.0f", x)
}

# A goal is met where the value lies on its side of the bound.
function goal(text, known, value, unit, side, bound) {
    met = side == "least" ? value >= bound : value <= bound
    print "- " text ": " (known ? short(value) " " unit ", " (met ? "met" : "missed") : "not measured")
}

BEGIN {
    line("job", "who", "ns a call", "instructions", "ratio")
    print "|---|---|---:|---:|---:|"
}

NF == 5 {
    name = $1 "/" $2
    ns[name] = $3
    count[name] = $4
    ratio[name] = $5
    line($1, $2, short($3), $4, short($5))
}

NF < 5 {
    line($1, $2, $3, "", "")
}

END {
    print ""
    flint = "recognise/FLINT"
    goal("recognise at least 13 times as fast as FLINT", flint in ns, ratio[flint], "times", "least", 13)
    pari = "recognise/PARI"
    goal("recognise at least 170 times as fast as PARI", pari in ns, ratio[pari], "times", "least", 170)
    goal("recognise no slower than careful plain code", 1, 1 / ratio["recognise/plain"], "times its time", "most", 1)
    goal("recognise in at most 110 ns", 1, ns["recognise/library"], "ns", "most", 110)
    goal("recognise: ph no slower than plain code", 1, 1 / ratio["recognise: ph/plain"], "times its time", "most", 1)
    counted = count["recognise/library"]
    goal("recognise in at most 400 instructions", counted ~ /^[0-9]+$/, counted, "instructions", "most", 400)
    goal("joins no slower than plain code", 1, 1 / ratio["joins/plain"], "times its time", "most", 1)
    goal("a box of a thousand full sheets in at most 100 ms", 1, ns["box/library"] / 1000, "ms", "most", 100)
    whole = ratio["sheet check, parts of 64/library, whole"]
    goal("a full sheet in parts of 64 bytes in at most 3 times the whole check's time", 1, 1 / whole, "times", "most", 3)
    goal("sheet check no slower than plain code", 1, 1 / ratio["sheet check/plain"], "times its time", "most", 1)
    goal("sheet check at least 2 GB/s", 1, 4096 / ns["sheet check/library"], "GB/s", "least", 2)
}
