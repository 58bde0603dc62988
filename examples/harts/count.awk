# Reads the answers and the report of turns.awk's harts, and prints a row as JSON: the counts of all harts together; how many
# answers the four had to the page of the stack; how many of these are stale, that is by another frame than the witness was
# answered just before; and for how many moves the oldest frame had been gone.
#     awk -v name=NAME -f examples/harts/count.awk
$1 == "hart" && $7 == "ok" && substr($6, 1, 13) == "0000001fff000" {
    frame = substr($8, 1, 13)
    if ($2 == 4) {
        now = frame
        seen[frame] = ++moves
    } else {
        answers++
        if (moves && frame != now) {
            stale++
            if (moves - seen[frame] > oldest) oldest = moves - seen[frame]
        }
    }
}
$3 ~ /^accesses=/ {
    for (i = 3; i <= NF; i++) {
        split($i, part, "=")
        sum[part[1]] += part[2]
    }
}
$1 == "harts" { split($NF, part, "="); held = part[2] }
END {
    printf "{\"name\":\"%s\",\"accesses\":%d,\"answers\":%d,\"stale\":%d,", name, sum["accesses"], answers, stale
    printf "\"oldest\":%d,\"misses\":%d,\"invalidated\":%d,", oldest, sum["misses"], sum["invalidated"]
    print "\"held\":" held ",\"unmapped\":0,\"accepted\":0,\"notcanonical\":0,\"tlb\":[]}"
}
