# An NS text of 254 nodes on 509 LANs each, and of a link of two more nodes, one of which gets an address N times.
BEGIN {
    print "set ns [new Simulator]"
    for (n = 1; n <= 256; n++) print "set n" n " [$ns node]"
    for (n = 1; n <= 254; n++) members = members " $n" n
    print "set all \"" substr(members, 2) "\""
    print "for {set i 0} {$i < 509} {incr i} {\n    $ns make-lan $all 100Mb 0ms\n}"
    print "$ns duplex-link $n255 $n256 100Mb 0ms DropTail"
    print "for {set i 0} {$i < " int(N / 100) "} {incr i} {"
    for (i = 0; i < 100; i++) print "    tb-set-ip $n255 10.0.0.1"
    print "}"
    print "$ns run"
}
