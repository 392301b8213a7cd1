# A top text of V virtual nodes for the lab that lab.awk makes with BLOCKS=1, where B machines stand on a switch: LANS LANs
# over each E that follow each other, and a link of KBPS kbps from the first to the first that FirstFit puts on the second
# switch. So FirstFit costs KBPS, from which a walk has its heat.
BEGIN {
    for (v = 1; v <= V; v++) print "node v" v " pc linux"
    for (first = 1; first + E - 1 <= V; first += E)
        for (l = 1; l <= LANS; l++) {
            ends = ""
            for (e = 0; e < E; e++) ends = ends " v" first + e
            print "link l" first "." l " l" first "." l " 1000" ends
        }
    print "link far far " KBPS " v1 v" B + 1
}
