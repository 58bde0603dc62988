# Makes of a program's history, as `xlab script --syscalls` writes it, a script of four harts, which run the program by turns
# of 10,000 records. The hart that runs takes the requests of its own changes at once. When the others take:
#     awk -v when=once -f examples/python/harts.awk    at each unmap, protect and move, as by an interrupt
#     awk -v when=turn ..                              when their turn begins
#     awk -v when=full ..                              when their queue has no room for the next change
# The last line says how many times a hart that didn't run took the request of an unmap, a protect or a move.
function take(h) {
    if (h != hart && asked[h]) interrupts++
    for (; waiting[h]; waiting[h]--) print "take " h
    asked[h] = 0
}
function change(verb, count,    h) {
    for (h = 0; h < 4; h++) if (waiting[h] + count > 64) take(h)
    print
    for (h = 0; h < 4; h++) {
        waiting[h] += count
        if (verb != "map") asked[h] = 1
    }
    take(hart)
    if (when == "once" && verb != "map") for (h = 0; h < 4; h++) take(h)
}
function run(records,    part) {
    for (; records; records -= part) {
        if (!left) {
            hart = (hart + 1) % 4
            left = 10000
            print "hart " hart
            if (when == "turn") take(hart)
        }
        part = records < left ? records : left
        left -= part
        print "run " part
    }
}
BEGIN { left = 10000; rest = 1000000; print "harts 4 64 4096 256 1 8" }
$1 == "run" { records = $2 == "rest" ? rest : $2; rest -= records; run(records) }
$1 == "map" { change($1, $6 ? $6 : 1) }
$1 == "unmap" { change($1, $5) }
$1 == "protect" || $1 == "move" { change($1, $6) }
END { print "# " interrupts + 0 " interruptions" }
