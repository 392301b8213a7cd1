# Commands for a lab of 1,024 nodes that lab.awk makes: OTHERS experiments of two virtual nodes each are swapped in on machines from
# p513 on, and then E, a chain of V virtual nodes on machines p1 to pV, is made, and ROUNDS times swapped in and out. With TURNS, its
# swap-in is opened and turned so often, beside OPEN open ones of such chains on the machines behind. With AUDITS, E is swapped in where it
# has nodes, and all is audited so often.
function chain(nodes, last,   v) {
    for (v = 1; v <= nodes; v++) print "node v" v " pc " (v == nodes ? last : "linux")
    for (v = 1; v < nodes; v++) print "link s" v " s" v " 1000 v" v " v" v + 1
}
function made(name, nodes) {
    print "create-top " name " " 2 * nodes - 1
    chain(nodes, "linux")
}
function placed(nodes, first,   v) {
    for (v = 1; v <= nodes; v++) print "node v" v " p" first + v - 1 " pc"
    for (v = 1; v < nodes; v++) {
        from = v == 1 ? 0 : 1
        print "plug v" v ":" from " p" first + v - 1 ":eth" from
        print "plug v" v + 1 ":0 p" first + v ":eth0"
    }
}
function swapped_in(name, nodes, first, word) {
    print word "swapin-with " name " " 3 * nodes - 2
    placed(nodes, first)
}
function changed(name, nodes, first, last) {
    print "modify-with " name " " 2 * nodes - 1 " " 3 * nodes - 2
    chain(nodes, last)
    placed(nodes, first)
}
BEGIN {
    for (o = 0; o < OTHERS; o++) {
        made("O" o, 2)
        swapped_in("O" o, 2, 513 + 2 * o)
    }
    if (MOVING) {
        for (o = 0; o < MOVING; o++) {
            print "fail p" 513 + 2 * o " 1 not"
            print "swapout O" o
        }
        print "stop 1 none"
        print "swapout O" MOVING
        for (r = 0; r < ROUNDS; r++) print "status"
        exit
    }
    if (V) made("E", V)
    if (AUDITS != "") {
        if (V) swapped_in("E", V, 1)
        for (r = 0; r < AUDITS; r++) print "audit"
        exit
    }
    if (TURNS != "") {
        for (o = 1; o <= OPEN; o++) {
            made("O" o, V)
            swapped_in("O" o, V, V * o + 1, "open ")
        }
        swapped_in("E", V, 1, "open ")
        for (r = 0; r < TURNS; r++) print "turn E"
        exit
    }
    if (CHANGE) swapped_in("E", V, 1)
    for (r = 0; r < ROUNDS; r++) {
        if (CHANGE) {
            changed("E", V, 1, r % 2 ? "linux" : "freebsd")
        } else {
            swapped_in("E", V, 1)
            print "swapout E"
        }
    }
}
