# Prints a script of five harts. Four run the pages of small.trace by turns of 100 records. After each tenth turn the page of
# the stack gets another frame, as the mover of a compacting system would give it; each of the four takes the requests of this
# later. The fifth hart is a witness: it takes them at once and makes one access to the page, a record of its own.
#     awk -v after=N -f examples/harts/turns.awk    the four take N records later; N is a multiple of 100
#     awk -v quiet=1 -f examples/harts/turns.awk    the page keeps its frame
function take(first, last, times,    hart, i) {
    for (hart = first; hart <= last; hart++) for (i = 0; i < times; i++) print "take " hart
}
BEGIN {
    print "harts 5 64 128 16 1 8"
    print "map 0 401000 4k r-xu\nmap 0 403000 4k rw-u 13\nmap 0 411000 4k rw-u 20\nmap 0 426000 4k rw-u 29"
    print "map 0 1fff000000 4k rw-u"
    take(0, 4, 64)
    for (turn = 1; turn <= 1280; turn++) {
        print "hart " turn % 4 "\nrun 100"
        if (turn % 10 == 0) {
            if (!quiet) print "unmap 0 1fff000000 4k\nmap 0 1fff000000 4k rw-u\ntake 4\ntake 4"
            print "hart 4\nrun 1"
            due[turn + after / 100] = !quiet
        }
        if (due[turn]) take(0, 3, 2)
    }
}
