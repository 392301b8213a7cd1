# A script: a lab of N nodes in K groups, the last group first, without interfaces; MADE experiments of one virtual node for a group
# each, in turn; and where there are RUNS, a batch of so many. A node of group g has the types of g and of the TYPES - 1 groups
# before it, and one that is the group's alone, which the experiments ask for. For each group a promise keeps all but LESS nodes of
# its type, so that needs take nodes of later groups first, and exchange them. With LATE=1 the promises begin one after another, and
# each run is tested at each beginning; else they all hold at once, and it is tested there.
BEGIN {
    print "ptop " N
    for (n = 0; n < N; n++) {
        g = K - 1 - int(n * K / N)
        line = "node p" n " own" g ":1"
        for (t = g; t > g - TYPES && t >= 0; t--) line = line " t" t ":1"
        print line
    }
    for (e = 0; e < MADE; e++) printf "create-top e%d 1\nnode a own%d linux\n", e, e % K
    if (RUNS) {
        print "batch 0 " K + RUNS
        for (g = 0; g < K; g++) print "promise t" g " " N / K - LESS " " (LATE ? g : 0) " 1000000"
        for (e = 0; e < RUNS; e++) print "run e" e " 0 1000"
    }
}
