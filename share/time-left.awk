# How long a proof of all crates still takes, as `, some N minutes left`:
# awk -v seconds=SINCE_THE_FIRST_CRATE -v processors=N -f time-left.awk TABLE CRATES LOG
#
# TABLE, whose head begins with `| Crate |` and ends with `proof |`, has a row `| `NAME` | .. | MINUTES ..` for each crate, by the last
# measured build, a crate without minutes counting as one; CRATES is crates.txt; LOG is what `rt` says. The pace is that of the crates
# that this log begins: of the last one so many minutes count as its part of functions that are checked. What stands below a crate that
# was begun is done. Before a minute's worth is done, the pace is one minute of the table a minute and processor.
FNR == 1 { file++ }
file == 1 && /^\| Crate \|/ { wanted = /proof \|$/ }
file == 1 && wanted && /^\| `[a-z0-9_]+` \|/ {
    split($0, cell, /[|`]/)
    count = split($0, cells, "|")
    minutes[cell[3]] = cells[count - 1] + 0 > 0 ? cells[count - 1] + 0 : 1
}
file == 2 && /^[a-z0-9_]+:/ {
    sub(/:/, "")
    for (n = 2; n <= NF; n++) below[$1] = below[$1] " " $n
}
file == 3 && /^rt: chose --jobs [0-9]+ for / && $NF in minutes && !($NF in begun) {
    begun[$NF]
    pace += last ? minutes[last] : 0
    last = $NF
    part = 0
}
file == 3 && /^so far: [0-9]+ of [0-9]+ functions checked/ && $5 > 0 { part = $3 / $5 }

function finish(name,    names, n, many) {
    if (name in done) return
    done[name]
    many = split(below[name], names)
    for (n = 1; n <= many; n++) finish(names[n])
}

function visit(name,    names, n, many) {
    if (name in seen) return
    seen[name]
    left += name in done ? 0 : minutes[name]
    many = split(below[name], names)
    for (n = 1; n <= many; n++) visit(names[n])
}

END {
    for (name in begun) finish(name)
    visit("gvis")
    pace += last ? part * minutes[last] : 0
    left += last ? (1 - part) * minutes[last] : 0
    if (pace >= 1) printf ", some %d minutes left\n", seconds * left / pace / 60 + 1
    else if (processors > 0) printf ", some %d minutes left\n", left / processors + 1
}
