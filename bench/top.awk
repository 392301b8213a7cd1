# A top text of V virtual nodes and 2V segments with eight ends each, or, with SOLUTION=1, the solution that places
# virtual node K on machine pK of the lab that lab.awk makes.
BEGIN {
    for (v = 1; v <= V; v++) print SOLUTION ? "node v" v " p" v " pc" : "node v" v " pc linux"
    for (s = 0; s < 2 * V; s++) {
        ends = ""
        for (e = 0; e < 8; e++) {
            v = (8 * s + e) % V + 1
            ends = ends " v" v
            if (SOLUTION) print "plug v" v ":" count[v] + 0 " p" v ":eth" count[v]++ + 0
        }
        if (!SOLUTION) print "link s" s " s" s " 1000" ends
    }
}
