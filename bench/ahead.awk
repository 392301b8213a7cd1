# A ptop text of N nodes in K groups, the last group first, without interfaces. A node of group g has the types of g and of
# the TYPES - 1 groups before it. With BATCH=1 a batch instead: a promise of N / K nodes of each group's type, MORE nodes
# more of the last. So each need but the first few takes nodes of a later group at first, and the last ones get theirs by
# exchanges along all.
BEGIN {
    if (BATCH) {
        for (g = 0; g < K; g++) print "promise t" g " " N / K + (g == K - 1 ? MORE : 0) " 0 1"
    } else {
        for (n = 0; n < N; n++) {
            g = K - 1 - int(n * K / N)
            line = "node p" n
            for (t = g; t > g - TYPES && t >= 0; t--) line = line " t" t ":1"
            print line
        }
    }
}
