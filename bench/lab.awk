# A ptop text: a lab of N nodes with IFACES interfaces each (14 where that isn't given), on as many switches as take four
# nodes to a switch, at most 64, which trunks join in a row. Nodes that follow each other are on switches that do, or with
# BLOCKS=1 on one switch. With SCRIPT=1 it is a script with that text as its block.
BEGIN {
    if (!IFACES) IFACES = 14
    switches = int((N + 3) / 4); if (switches > 64) switches = 64
    if (SCRIPT) print "ptop " 1 + switches + N + IFACES * N + switches - 1
    print "vlans 100 1199"
    for (s = 1; s <= switches; s++) print "node s" s " switch"
    for (n = 1; n <= N; n++) print "node p" n " pc:1"
    for (n = 1; n <= N; n++) {
        s = (BLOCKS ? int((n - 1) * switches / N) : (n - 1) % switches) + 1
        for (i = 0; i < IFACES; i++) print "link p" n "." i " p" n ":eth" i " s" s ":" ++port[s] " 1000000"
    }
    for (s = 2; s <= switches; s++) print "link t" s " s" s - 1 ":" 4000 " s" s ":" 4001 " 10000000"
}
