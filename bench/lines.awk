# A script of N lines that are skipped, and then one command.
BEGIN {
    for (n = 1; n <= N; n++) print "# line " n
    print "status"
}
