# A script: the lab of small.awk, N experiments of its wiring, and then ROUNDS times a command of the next of them in turn. By WHAT it
# is shown (show), or deleted and made again (again), or all are listed (status).
function made(e) { printf "create-top E%07d 3\n%s", e, pair }
BEGIN {
    printf "ptop 6\n%s", lab
    for (e = 1; e <= N; e++) made(e)
    for (r = 0; r < ROUNDS; r++) {
        e = r % N + 1
        if (WHAT == "show") printf "show E%07d\n", e
        if (WHAT == "status") print "status"
        if (WHAT == "again") {
            printf "delete E%07d\n", e
            made(e)
        }
    }
}
