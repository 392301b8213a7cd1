# A Tcl text of N commands: a loop that makes 20,000 evaluations at most, behind comments that fill it to BYTES bytes.
BEGIN {
    for (; BYTES > 99; BYTES -= 100) printf "#%98s\n", ""
    print "set sum 0"
    printf "for {set i 0} {$i < %d} {incr i} {\n    set sum [expr $sum + $i * 2 %% 7]\n}\n", int((N - 3) / 4)
}
