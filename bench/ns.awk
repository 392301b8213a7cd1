# An NS text of N nodes, LINKS links between them and LANS LANs of ENDS nodes each, whose delays are DELAY milliseconds (0
# where that isn't given). Links behind the 254th, whose number gives no subnet, have an address of one of their own. Settings
# of links and nodes, one after another, and a comment fill the text to BYTES bytes, if given.
function put(line) {
    print line
    bytes += length(line) + 1
}
function next_node() {
    return "$n" at++ % N + 1
}
BEGIN {
    if (!DELAY) DELAY = 0
    put("set ns [new Simulator]")
    for (n = 1; n <= N; n++) put("set n" n " [$ns node]")
    for (l = 0; l < LINKS; l++) {
        put("set l" l " [$ns duplex-link $n" l % N + 1 " $n" (l + 1 + int(l / N)) % N + 1 " 100Mb " DELAY "ms DropTail]")
        if (l >= 254) put("tb-set-ip-link $n" l % N + 1 " $l" l " 10." 2 + int(l / 256) "." l % 256 ".1")
    }
    for (l = 0; l < LANS; l++) {
        members = ""
        for (e = 0; e < ENDS; e++) members = members " " next_node()
        put("set big" l " [$ns make-lan \"" substr(members, 2) "\" 100Mb " DELAY "ms]")
    }
    for (s = 0; bytes < BYTES - 200; s++) {
        if (s % 2 || !LINKS) put("tb-set-node-os " next_node() " linux")
        else put("tb-set-link-loss $l" int(s / 2) % LINKS " 0.0")
    }
    fill = BYTES - bytes - length("$ns run") - 1
    if (fill > 0) printf "#%" fill - 2 "s\n", ""
    put("$ns run")
}
