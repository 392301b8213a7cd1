"""The word `graph`: an experiment as a picture, by SVG or DOT."""
import html

from .spread import apart, spread

STYLE = """text{font:12px sans-serif;fill:#1d2a33;text-anchor:middle}.s{font-size:10px;fill:#4a5a66}.l{font-size:9px;fill:#4a5a66}
.n{fill:#cfe5f1;stroke:#2d6a8a}.d{fill:#ffe3c2;stroke:#b26b1e}.k{fill:#eef1f3;stroke:#6b7a86}.e{stroke:#6b7a86;stroke-width:1.5}
.b{fill:#fff;opacity:.85}"""
# The length of an edge, and the least gap between two boxes.
EDGE, GAP = 150, 26
# Up to so many edges the addresses stand at their ends.
FEW = 40


def add(words):
    """Adds the parser."""
    parser = words.add("graph", example="lab graph ring > ring.svg; lab graph ring --dot | dot -Tpdf > ring.pdf")
    parser.add_argument("exp", metavar="E", type=words.name)
    parser.add_argument("--dot", action="store_true", help="a text of Graphviz in place of SVG")


def rate(kbps):
    """Gives a rate as it is said."""
    for unit, name in ((1_000_000, "G"), (1000, "M")):
        if kbps >= unit:
            return f"{kbps / unit:g}{name}"
    return f"{kbps}k"


def shaping(words):
    """Gives what a pipe does one way, of its kbps, microseconds and millionths."""
    kbps, delay, loss = map(int, words)
    return rate(kbps) + (f", {delay / 1000:g} ms" if delay else "") + (f", {loss / 10_000:g} %" if loss else "")


class Point:
    """A node, a delay node or a LAN of the picture: its kind, its lines, and what is told of it beside them."""

    def __init__(self, kind, *lines, title=""):
        self.kind, self.lines, self.title = kind, [line for line in lines if line], title
        widths = [7.4 * len(self.lines[0]), *[5.8 * len(line) for line in self.lines[1:]]]
        self.box = (max(44, max(widths) + 14), 14 + 13 * len(self.lines))


class Network:
    """The points and edges of an experiment. An edge has two points, a label, and the addresses at both."""

    def __init__(self, exp):
        self.name, self.phase, self.points, self.edges = exp.name, exp.phase, {}, []
        machines, plugs = dict(exp.places()), exp.plugs()
        pipes = {}
        for words in exp.of("pipe"):
            pipes.setdefault(words[1], []).extend((shaping(words[4:7]), shaping(words[7:10])))
        for words in exp.of("node"):
            name, kind, system = words[1:4]
            if name in pipes:
                self.points[name] = Point("d", *list(dict.fromkeys(pipes[name]))[:3], machines.get(name, ""), title=name)
            else:
                self.points[name] = Point("n", name, " ".join(it for it in (machines.get(name, kind), system) if it != "default"))
        for segment, link, kbps, ends in exp.ends():
            vlan = f"VLAN {exp.tags[segment]}" if segment in exp.tags else ""
            told = [(node, address, plugs.get(f"{node}:{number}", "")) for node, number, address in ends]
            self.join(segment, link, kbps, vlan, told)

    def join(self, segment, link, kbps, vlan, ends):
        """Adds a segment: an edge, or a point with an edge to each end."""
        label = f"{rate(kbps)} {vlan}".strip()
        if len(ends) == 2:
            self.edges.append((ends[0], ends[1], label, segment))
            return
        name = f"LAN {segment}"
        self.points[name] = Point("k", link, label, title=segment)
        self.edges += [(end, (name, "", ""), "", segment) for end in ends]


def quoted(text):
    """Gives a text as DOT has it."""
    return '"' + text.replace("\\", "\\\\").replace('"', '\\"').replace("\n", "\\n") + '"'


def dot(network):
    """Gives the lines of a text of Graphviz."""
    shapes = {"n": "shape=box,style=filled,fillcolor=\"#cfe5f1\"", "d": "shape=box,style=\"rounded,filled\",fillcolor=\"#ffe3c2\"", "k": "shape=ellipse"}
    lines = [f"graph {quoted(network.name)} {{", "  layout=neato; overlap=false; node [fontname=sans,fontsize=11]; edge [fontname=sans,fontsize=9];"]
    for name, point in network.points.items():
        lines.append(f"  {quoted(name)} [{shapes[point.kind]},label={quoted(chr(10).join(point.lines))}];")
    for (a, at_a, _), (b, at_b, _), label, _ in network.edges:
        lines.append(f"  {quoted(a)} -- {quoted(b)} [label={quoted(label)},taillabel={quoted(at_a)},headlabel={quoted(at_b)}];")
    return [*lines, "}"]


def text(x, y, line, kind="", anchor=""):
    return f'<text x="{x:.0f}" y="{y:.0f}"{f" class={chr(34)}{kind}{chr(34)}" if kind else ""}{anchor}>{html.escape(line)}</text>'


def label(x, y, line):
    """Gives a small label on a light ground."""
    width = 5.2 * len(line) + 4
    return f'<rect class="b" x="{x - width / 2:.0f}" y="{y - 9:.0f}" width="{width:.0f}" height="12"/>' + text(x, y, line, "l")


def beside(box, start, end, width):
    """Gives the point on a line where a label of this width stands just outside a box at its start."""
    across, up = end[0] - start[0], end[1] - start[1]
    length = (across * across + up * up) ** 0.5 or 1
    along, high = abs(across) / length or 1e-6, abs(up) / length or 1e-6
    far = min(box[0] / 2 / along, box[1] / 2 / high) + min(width / 2 / along, 6 / high) + 4
    part = min(0.5, far / length)
    return start[0] + part * across, start[1] + part * up + 3


def edge(places, boxes, one, is_few):
    """Gives the line of an edge, and its labels: its own in the middle, and the addresses a fixed way from the boxes."""
    (a, at_a, plug_a), (b, at_b, plug_b), about, segment = one
    (x, y), (to_x, to_y) = places[a], places[b]
    told = " - ".join((f"{a} {at_a} {plug_a}".strip(), f"{b} {at_b} {plug_b}".strip()))
    line = [f'<line class="e" x1="{x:.0f}" y1="{y:.0f}" x2="{to_x:.0f}" y2="{to_y:.0f}"><title>{html.escape(segment + ": " + told)}</title></line>']
    if about:
        near, far = beside(boxes[a], (x, y), (to_x, to_y), 0), beside(boxes[b], (to_x, to_y), (x, y), 0)
        line.append(label((near[0] + far[0]) / 2, (near[1] + far[1]) / 2, about))
    for address, name, start, end in ((at_a, a, (x, y), (to_x, to_y)), (at_b, b, (to_x, to_y), (x, y))):
        if address and is_few:
            line.append(label(*beside(boxes[name], start, end, 5.2 * len(address)), address))
    return line


def svg(network):
    """Gives the lines of an SVG text."""
    names = list(network.points)
    numbers, boxes = {name: number for number, name in enumerate(names)}, {name: network.points[name].box for name in names}
    joined = [(numbers[a[0]], numbers[b[0]]) for a, b, _, _ in network.edges]
    points = [[EDGE * x * 1.3, EDGE * y] for x, y in spread(len(names), joined)]
    points = apart(points, [boxes[name] for name in names], GAP)
    left = min(x - boxes[name][0] / 2 for name, (x, _) in zip(names, points)) - 16
    top = min(y - boxes[name][1] / 2 for name, (_, y) in zip(names, points)) - 40
    places = {name: (x - left, y - top) for name, (x, y) in zip(names, points)}
    width = max(300, max(x + boxes[name][0] / 2 for name, (x, _) in places.items()) + 16)
    height = max(y + boxes[name][1] / 2 for name, (_, y) in places.items()) + 16
    lines = [f'<svg xmlns="http://www.w3.org/2000/svg" width="{width:.0f}" height="{height:.0f}" viewBox="0 0 {width:.0f} {height:.0f}">',
             f"<style>{STYLE}</style>", '<rect width="100%" height="100%" fill="#fff"/>',
             text(16, 20, f"{network.name}: {network.phase}", "", ' style="text-anchor:start"')]
    for one in network.edges:
        lines += edge(places, boxes, one, len(network.edges) <= FEW)
    for name, point in network.points.items():
        (x, y), (wide, high) = places[name], point.box
        lines.append(f'<g><title>{html.escape(point.title or name)}</title><rect class="{point.kind}" x="{x - wide / 2:.0f}" y="{y - high / 2:.0f}" '
                     f'width="{wide:.0f}" height="{high:.0f}" rx="{3 if point.kind == "n" else high / 2:.0f}"/>')
        lines += [text(x, y - high / 2 + 18 + 13 * number, line, "s" if number else "") for number, line in enumerate(point.lines)]
        lines.append("</g>")
    return [*lines, "</svg>"]


def run(args, lab):
    """Tells the picture."""
    network = Network(lab.shown(args.exp)[0])
    print("\n".join(dot(network) if args.dot else svg(network)))
    return 0
