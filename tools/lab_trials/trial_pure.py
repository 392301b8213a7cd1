"""Parts of lab that run nothing: command lines, scripts, counts, orders, layouts and texts."""
import unittest

from labcli import graph, grammar, hosts, log, orders, play, service, shortage, spread, stock, texts, values, words
from labcli.codes import USAGE, Worst, Wrong
from labcli.shown import Shown, shown_of

SHOWN = """show ring in
make-vclass any 500 pc big
node a any linux ssd:1000
node b pc linux
node l.d delay delay
fix-node b pc2
link l.0 l 100000 a=10.1.1.1 l.d
link l.1 l 100000 l.d b=10.1.1.2
link lan lan 1000 a=10.1.2.1 b=10.1.2.2 l.d
multiplex lan
pipe l.d 0 1 100000 2000 0 50000 0 250000
node a big1 big
node b pc2 pc
node l.d d1 delay
plug a:0 big1:eth0
plug l.d:0 d1:eth0
plug l.d:1 d1:eth1
plug b:0 pc2:eth0
tag l.0 100
tag l.1 101
tag lan 102
end ring""".split("\n")

LAB = """vlans 100 149
node s1 switch
node s2 switch
node pc1 pc:1
node pc2 pc:1 - old:1000
node big1 pc:1 big:2 - ssd:100
link pc1-0 pc1:eth0 s1:1 1000000
link pc1-1 pc1:eth1 s1:2 100000
link pc2-0 pc2:eth0 s2:1 1000000
link big1-0 big1:eth0 s1:3 1000000
link big1-1 big1:eth1 s1:4 1000000
link trunk s1:24 s2:24 5000""".split("\n")


def asked(*lines):
    return Shown(["show A out", *lines, "end A"])


def refusal(do, *given):
    try:
        return do(*given)
    except Wrong as wrong:
        return wrong.status, str(wrong)


class CommandLines(unittest.TestCase):
    """The reading of command lines."""

    def parsed(self, *given):
        word, rest = words.split(list(given))
        return vars(words.module_of(word)[1].parse(rest))

    def test_options_anywhere(self):
        """Options stand anywhere, and behind -- nothing is one."""
        for given in (["-d", "X", "-n", "in", "A", "7"], ["in", "-n", "A", "-d", "X", "7"], ["in", "A", "7", "-dX", "-n"], ["-dX", "in", "-n", "--", "A", "7"]):
            found = self.parsed(*given)
            self.assertEqual([found[key] for key in ("folder", "dry", "exp", "place", "turns")], ["X", True, "A", "7", False])
        self.assertEqual(self.parsed("show", "--", "-x")["exp"], "-x")
        self.assertEqual(self.parsed("create", "--", "A", "--x.ns")["file"], "--x.ns")
        self.assertEqual(self.parsed("run", "-", "--cost=pack")["cost"], "pack")

    def test_refusals(self):
        """A wrong command line is told by what is wanted in its place."""
        for given, told in (
            (["map", "-n"], "lab map takes no -n; usage: lab map"), (["in", "A", "--cost", "most"], "invalid choice: 'most'"),
            (["in"], "usage: lab in E [SEED], or lab in E PLACE"), (["show", "A", "B"], "usage: lab show E"), (["show", "a b"], "a b is no name"),
            (["in", "A", "-w"], "-w wants a word behind it"), (["log", "many"], "invalid int value: 'many'"), (["-w", "5"], "usage: lab [-d DIR] COMMAND"),
            (["--away"], "no such option: --away"), ([], "usage: lab [-d DIR] COMMAND"), (["-d"], "-d wants a folder behind it"),
        ):
            status, text = refusal(self.parsed, *given)
            self.assertEqual((status, told in text), (USAGE, True), (given, text))

    def test_table(self):
        """Each word has a module that makes its parser, a form and a summary; and the parser of no word wants what its form leaves out."""
        for word, (_, forms, summary) in words.WORDS.items():
            self.assertTrue(forms and summary)
            self.assertEqual(words.module_of(word)[1].word, word)

    def test_times(self):
        """Times are microseconds, or have a unit."""
        for given, wanted in (("0", 0), ("1500000", 1_500_000), ("12s", 12_000_000), ("1.5s", 1_500_000), ("0.000001s", 1), ("300ms", 300_000), ("1.5ms", 1500),
                              ("7us", 7), ("1000000s", 10 ** 12)):
            self.assertEqual(play.microseconds(given), wanted, given)
        for given in ("", "soon", "1.5", "-1", "1.5us", "1000000.1s", "1e3", "1 s", "1.1234567s"):
            self.assertEqual(refusal(play.microseconds, given)[0], USAGE, given)


class Scripts(unittest.TestCase):
    """Scripts as a server takes them."""

    def test_taken(self):
        """Commands are split by their blocks, whose lines are taken as they are."""
        found = grammar.commands(b"# a lab\n\nptop 1\nstatus\n  swapin   A 1\nmodify-with A 1 2\nx\ny\n\nstatus")
        self.assertEqual([it.head for it in found], ["ptop 1", "swapin A 1", "modify-with A 1 2", "status"])
        self.assertEqual([it.text for it in found], [b"ptop 1\nstatus\n", b"swapin A 1\n", b"modify-with A 1 2\nx\ny\n\n", b"status\n"])
        self.assertEqual([it.swapped for it in found], [None, "A", "A", None])

    def test_refused(self):
        """What would end the program, or is another client's business, is refused."""
        for script in (b"away\n", b"open swapin A 1\n", b"turn A\n", b"finish A\n", b"stop 1 none\n", b"fail s1 1 not\n", b"status now\n", b"swapin A\n", b"show a/b\n",
                       b"ptop 2\nx\n", b"ptop 99999\n", b"create A 1\n" + b"x" * 4097 + b"\n", b"swapin A -1\n", b"show \xff\n", b"swapin A 123456789012345678901\n"):
            self.assertEqual(refusal(grammar.commands, script)[0], USAGE, script)

    def test_worst(self):
        """The worst status of all replies counts; lines within a reply don't."""
        worst = Worst()
        for line in ("show A in", "node failed pc linux", "end A", "audit 2", "lacks s1 1 100", "node down", "none A", "in A"):
            worst.see(line)
        self.assertEqual(worst.status, 12)

    def test_texts(self):
        """A text loses marks of other systems; a block's line is found again by its number."""
        one, two = texts.Text("one", b"\xef\xbb\xbfa\r\nb\n"), texts.Text("two", b"c")
        command = texts.Command("modify-with A", one, two)
        self.assertEqual(command.script(), b"modify-with A 2 1\na\nb\nc\n")
        self.assertEqual([command.place(number) for number in (1, 3, 4)], [("one", 1, "a"), ("two", 1, "c"), ("two", 2, "")])
        self.assertEqual(refusal(texts.Text, "long", b"\n" * 16_385)[0], USAGE)


class Experiments(unittest.TestCase):
    """What is made of an experiment's text."""

    def test_shown(self):
        """An experiment's text is told apart from its place."""
        exp = shown_of(SHOWN)[0]
        self.assertEqual((exp.name, exp.phase, len(exp.top), len(exp.solution), exp.tags), ("ring", "in", 10, 7, {"l.0": 100, "l.1": 101, "lan": 102}))
        self.assertEqual(exp.ends()[1], ("l.1", "l", 100_000, [("l.d", 1, ""), ("b", 0, "10.1.1.2")]))

    def test_hosts(self):
        """Each address has its names, and a node's own name stands at its first one; an inventory has machines by system."""
        exp = shown_of(SHOWN)[0]
        self.assertEqual(hosts.hosts(exp)[2:], ["10.1.1.1\ta-l a-0 a", "10.1.1.2\tb-l b-0 b", "10.1.2.1\ta-lan a-1", "10.1.2.2\tb-lan b-1"])
        self.assertEqual(hosts.inventory(exp)[:4], ["[ring_linux]", "a ansible_host=big1 node_type=any", "b ansible_host=pc2 node_type=pc", ""])
        self.assertEqual(hosts.group("2-a.b", "x"), "_2_a_b_x")

    def test_values(self):
        """Replies become values."""
        told = values.show(SHOWN)
        self.assertEqual((told["machines"]["a"], told["plugs"]["b:0"], told["fixed"]), ({"machine": "big1", "type": "big"}, "pc2:eth0", {"b": "pc2"}))
        self.assertEqual(told["segments"][2]["vlan"], 102)
        self.assertEqual(told["pipes"][0]["back"], {"kbps": 50_000, "delay_us": 0, "loss_ppm": 250_000})
        self.assertEqual(values.audit(["audit 2", "lacks s1 2 100", "node pc1"])["differences"],
                         [{"kind": "lacks", "switch": "s1", "port": 2, "vlan": 100}, {"kind": "node", "machine": "pc1"}])
        self.assertEqual(values.status(["exp A in 2 1", "free 1 9"]),
                         {"experiments": [{"name": "A", "phase": "in", "machines": 2, "vlans": 1}], "free": {"machines": 1, "vlans": 9}})
        told = values.lab_map(["switch s1 1 of 2 free", "machine pc1 in A a b", "machine pc2 free", "trunk t s1 s2 5 of 9 kbps left", "ids free 2-4"], {"pc2"})
        self.assertEqual(told["switches"][0]["machines"], [{"name": "pc1", "state": "in", "experiment": "A", "nodes": ["a", "b"], "off": False},
                                                           {"name": "pc2", "state": "free", "experiment": None, "nodes": [], "off": True}])
        self.assertEqual((told["trunks"], told["free_ids"]), ([{"name": "t", "ends": ["s1", "s2"], "left": 5, "kbps": 9}], ["2-4"]))

    def test_graph(self):
        """A picture has a point for each node and LAN, and an edge for each end of a LAN and each link."""
        network = graph.Network(shown_of(SHOWN)[0])
        self.assertEqual((set(network.points), len(network.edges)), ({"a", "b", "l.d", "LAN lan"}, 5))
        self.assertEqual(network.points["l.d"].lines, ["100M, 2 ms", "50M, 25 %", "d1"])
        text = "\n".join(graph.svg(network))
        self.assertEqual((text.count('class="e"'), text.count('class="n"'), "VLAN 101" in text, text[-6:]), (5, 2, True, "</svg>"))
        self.assertIn('"a" -- "l.d" [label="100M VLAN 100",taillabel="10.1.1.1",headlabel=""];', "\n".join(graph.dot(network)))
        self.assertEqual(graph.quoted('a"\\\n'), '"a\\"\\\\\\n"')

    def test_spread(self):
        """No two boxes cover one another, and the layout comes out alike each time."""
        edges = [(a, (a + 1) % 30) for a in range(30)]
        points = spread.apart([[40 * x, 40 * y] for x, y in spread.spread(32, edges)], [(60, 30)] * 32, 10)
        near = [(a, b) for a in range(32) for b in range(a) if abs(points[a][0] - points[b][0]) < 69 and abs(points[a][1] - points[b][1]) < 39]
        self.assertEqual(near, [])
        self.assertEqual(spread.spread(32, edges), spread.spread(32, edges))


class Counts(unittest.TestCase):
    """Why no place is found, and what is tried."""

    def told(self, *lines, held=(), off=(), trunks=(), ids=50):
        return shortage.reasons(asked(*lines), stock.Stock(LAB), dict(held), set(off), dict(trunks), ids)

    def test_reasons(self):
        """Each shortage is told by its node, place or trunk."""
        none = ["each count has enough, so it is how links share trunks and interfaces, or nodes a machine: fix some nodes (lab help in)"]
        pair = ["node a pc linux", "node b pc linux"]
        old = "{} would have to desire old, which each free machine of type pc keeps for nodes that do"
        for lines, more, wanted in (
            (pair + ["link l l 1000 a b"], {}, none),
            (["node a other linux"], {}, ["of type other 1 are wanted, 0 are free, and the lab has 0"]),
            (pair, {"held": {"pc1": "B", "big1": "B"}}, ["of type pc 2 are wanted, 1 are free, and the lab has 3", old.format("a"), old.format("b")]),
            (pair, {"off": ["pc1", "pc2"]}, ["of type pc 2 are wanted, 1 are free, and the lab has 3", "out of service: pc1 pc2"]),
            (pair + ["node c pc linux", "link l l 1 a b", "link m m 1 a c", "link n n 1 a b"], {},
             ["a: 3 links of 1 kbps or more, and no machine of type pc has more than 2 interfaces so fast"]),
            (pair + ["link l l 1000000 a b", "link m m 1000000 a b"], {},
             ["a b: 2 links of 1000000 kbps or more, and 1 free machines of type pc have so many interfaces so fast"]),
            (["node a pc linux", "fix-node a pc9"], {}, ["a is fixed to pc9, which the lab doesn't have"]),
            (["node a pc linux", "fix-node a pc1"], {"held": {"pc1": "B"}}, ["a is fixed to pc1, which B holds"]),
            (["node a big linux", "fix-node a pc1"], {}, ["a is fixed to pc1, which isn't of type big"]),
            (["node a pc linux gpu:1000"], {}, ["a has to have gpu, and no free machine of type pc has it"]),
            (["node a pc linux"], {"held": {"pc1": "B", "big1": "B"}}, [old.format("a")]),
            (pair + ["link l l 6000 a b"], {"trunks": {"trunk": 5000}}, ["no segment can go over trunk (5000 kbps): the slowest wants 6000 kbps"]),
            (pair + ["link l l 6000 a b"], {"ids": 0}, ["1 VLAN ids are wanted, and 0 are free"]),
        ):
            self.assertEqual(self.told(*lines, **more), wanted, lines)

    def test_multiplexed(self):
        """Ends of multiplexed segments share an interface, so they are counted once."""
        nodes = ["node a pc linux", "node b pc linux", "node c pc linux", "node d pc linux"]
        links = [f"link l{k} l{k} 1000 a {k}" for k in "bcd"]
        self.assertEqual(shortage.wanted_of(asked(*nodes, *links, *[f"multiplex l{k}" for k in "bcd"]))[0].rates, [1000])

    def test_orders(self):
        """Orders have each node once, and come out alike each time; a text in another order has the same lines."""
        exp = asked("node a pc linux", "node b pc linux", "node c pc linux", "fix-node c pc1", "link l l 1 a b", "link m m 1 c b")
        thought, drawn = orders.orders(exp)
        self.assertEqual({tuple(sorted(order)) for order in thought + drawn}, {("a", "b", "c")})
        self.assertEqual((thought[0][0], thought[1][0], orders.orders(exp)[1]), ("b", "c", drawn))
        self.assertEqual(orders.ordered(exp, ["c", "a", "b"])[:3], ["node c pc linux", "node a pc linux", "node b pc linux"])
        self.assertEqual(sorted(orders.ordered(exp, ["c", "a", "b"])), sorted(exp.top))
        self.assertEqual(orders.placed(["created A 1 0", "local A 7", "node a pc1 pc", "end A", "gave up A", "least A 3", "end A"]), [(7, ["node a pc1 pc"]), (3, [])])

    def test_left(self):
        """What is left of a lab is a lab's text: without machines that are held, and with what its trunks have left."""
        left = stock.Left(stock.Stock(LAB), ["pc1", "big1"], {"trunk": 7}, 3)
        self.assertEqual(left.text(), [*["vlans 2 4", "node s1 switch", "node s2 switch", "node pc1 pc:1", "node big1 pc:1 big:2 - ssd:100"],
                                       *LAB[6:8], *LAB[9:11], "link trunk s1:24 s2:24 7"])
        self.assertNotIn("trunk", "\n".join(stock.Left(stock.Stock(LAB), ["pc1"], {"trunk": 0}, 3).text({"pc1"})))
        self.assertEqual(stock.Stock(LAB).parts(["pc1", "pc2", "big1"], 1), [{"pc2"}, {"pc1", "big1"}])


class Notes(unittest.TestCase):
    """The log and the list of machines out of service."""

    def test_log(self):
        """Words that a terminal would obey are told by their numbers, and a line is read as it was written."""
        self.assertEqual(log.plain("a\tb\x1b[2J\n\udcff"), "a\\tb\\x1b[2J\\n\\xff")
        self.assertEqual(len(log.plain("x" * 600)), 499)
        self.assertEqual(log.parts("2026-12-01T10:20:30Z\troot\t0.31\tin ring\tin ring\n")["command"], "in ring")
        self.assertEqual(log.parts("half a line"), None)
        self.assertEqual(words.without_common(["in", "-d", "X", "-v", "A", "-w", "5", "7"]), ["in", "A", "7"])

    def test_list(self):
        """Where there is no list, no machine is out of service."""
        self.assertEqual(service.listed("/nowhere"), {})
