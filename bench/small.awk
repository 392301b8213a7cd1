# A lab of two nodes on one switch, and a wiring of two virtual nodes and a segment, for the scripts that are named behind this one.
BEGIN {
    lab = "vlans 100 101\nnode s1 switch\nnode pc1 pc:1\nnode pc2 pc:1\nlink l1 pc1:eth0 s1:1 100000\nlink l2 pc2:eth0 s1:2 100000\n"
    pair = "node a pc linux\nnode b pc linux\nlink ab ab 100000 a b\n"
}
