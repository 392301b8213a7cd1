# A top text of V virtual nodes and 2V segments with eight ends each, which are parts of one LAN, with a place for each
# virtual node, an address for each end, and a pipe between each end of a virtual node and the next.
BEGIN {
    for (v = 1; v <= V; v++) print "node v" v " pc linux big:500"
    for (v = 1; v <= V; v++) print "fix-node v" v " p" v
    for (s = 0; s < 2 * V; s++) {
        ends = ""
        for (e = 0; e < 8; e++) {
            v = (8 * s + e) % V + 1
            ends = ends " v" v "=10.0." int(end / 254) "." end % 254 + 1
            end++
            count[v]++
        }
        print "link s" s " lan 1000" ends
    }
    for (v = 1; v <= V; v++) for (k = 0; k + 1 < count[v]; k += 2) print "pipe v" v " " k " " k + 1 " 1000 10 0 1000 10 0"
}
