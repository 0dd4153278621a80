#!/usr/bin/env python3
"""Draws a region of least cost: the nodes, the arcs and the flow that `bench_programs --region` prints.

    bench/region_svg.py [FILE] >PICTURE.svg     the printed lines of one region, or standard input

Nodes on the source's side of the cut, where the range lies in the register, are filled. A line is an arc, or two arcs
of one capacity that lead both ways; its label is what flows, of how much can. Arcs from the source's side to the other,
whose capacities are the cost, are red. Arcs that carry nothing at all, of capacity 0, are left out.
"""
import sys

LEFT, INSIDES, BUNDLES, RIGHT = 110, 420, 790, 1120
TOP, STEP = 120, 120
WIDTH, HEIGHT = 176, 44
TEXT = 'font-family="DejaVu Sans, Arial, sans-serif"'


class Picture:
    """What the lines say."""

    def __init__(self, lines):
        self.title, self.nodes, self.arcs, self.marks, self.blocks = "", {}, [], [], []
        for line in lines:
            words = line.split()
            if not words:
                continue
            kind = words[0]
            if kind == "range":
                if self.title:
                    sys.exit("region_svg.py: one region at a time")
                self.title = line.strip()
            elif kind == "block":
                self.blocks.append(words[1])
            elif kind == "node":
                self.nodes[int(words[1])] = (words[2] == "in", words[3:])
            elif kind == "arc":
                self.arcs.append((int(words[1]), int(words[2]), int(words[4]), int(words[6])))
            elif kind == "label":
                self.marks.append(words[1:])
        if not self.title or not self.nodes:
            sys.exit("region_svg.py: no region")

    def lines(self):
        """The lines of the picture: from, to, capacity, flow, and whether they lead both ways."""
        made, k = [], 0
        while k < len(self.arcs):
            a, b, capacity, flow = self.arcs[k]
            back = self.arcs[k + 1] if k + 1 < len(self.arcs) else None
            if back and a != 0 and (back[0], back[1], back[2]) == (b, a, capacity):
                net = flow - back[3]
                made.append((a, b, capacity, net, True) if net >= 0 else (b, a, capacity, -net, True))
                k += 2
            else:
                made.append((a, b, capacity, flow, False))
                k += 1
        return [line for line in made if line[2] > 0]


def row_of(picture, part):
    """The row of a block's part, such as bb.2:end, and where in the row it is."""
    block, _, where = part.partition(":")
    shift = {"start": -0.3, "inside": 0.0, "end": 0.3}[where]
    return picture.blocks.index(block) + shift


def places(picture):
    """Where the middle of each node is."""
    rows = max(len(picture.blocks), 1)
    middle = TOP + STEP * (rows - 1) / 2
    where = {0: (LEFT, middle), 1: (RIGHT, middle)}
    column = []
    for node, (_, parts) in picture.nodes.items():
        if node < 2:
            continue
        if parts and parts[0].endswith(":inside"):
            where[node] = (INSIDES, TOP + STEP * row_of(picture, parts[0]))
        else:
            at = sum(row_of(picture, part) for part in parts) / max(len(parts), 1)
            column.append((at, node))
    last = None
    for at, node in sorted(column):
        y = TOP + STEP * at
        if last is not None:
            y = max(y, last + height(picture, node) + 30)
        where[node] = (BUNDLES, y)
        last = y
    return where


def names(picture, node):
    """The lines of text in a node."""
    parts = picture.nodes[node][1]
    if node == 0:
        return ["source:", "in the register"]
    if node == 1:
        return ["sink:", "not in it"] + parts[1:]
    if parts and parts[0].endswith(":inside"):
        return ["inside of " + parts[0].split(":")[0]]
    return parts


def height(picture, node):
    return max(HEIGHT, 18 * len(names(picture, node)) + 16)


def edge(picture, where, node, towards):
    """The point on a node's border in the direction of another point."""
    x, y = where[node]
    dx, dy = towards[0] - x, towards[1] - y
    w, h = WIDTH / 2, height(picture, node) / 2
    scale = min(w / abs(dx) if dx else 1e9, h / abs(dy) if dy else 1e9)
    return x + dx * scale, y + dy * scale


def drawn_line(picture, where, line, turn):
    """A line of the picture, bent by so much, with its label in its middle."""
    a, b, capacity, flow, both = line
    is_cut = picture.nodes[a][0] and not picture.nodes[b][0]
    if both:
        is_cut = picture.nodes[a][0] != picture.nodes[b][0]
    colour = "#c0392b" if is_cut else "#333333" if flow else "#999999"
    width = 2.4 if is_cut else 1.6 if flow else 1.1
    (ax, ay), (bx, by) = where[a], where[b]
    length = max(((bx - ax) ** 2 + (by - ay) ** 2) ** 0.5, 1)
    mx, my = (ax + bx) / 2 - (by - ay) / length * turn, (ay + by) / 2 + (bx - ax) / length * turn
    sx, sy = edge(picture, where, a, (mx, my))
    ex, ey = edge(picture, where, b, (mx, my))
    name = "cut" if is_cut else "flow" if flow else "idle"
    start = ' marker-start="url(#%s)"' % name if both and not flow else ""
    text = "%d of %d" % (flow, capacity)
    x, y = (sx + 2 * mx + ex) / 4, (sy + 2 * my + ey) / 4
    half = 3.7 * len(text) + 4
    path = '<path d="M %.1f %.1f Q %.1f %.1f %.1f %.1f" fill="none" stroke="%s" stroke-width="%.1f" marker-end="url(#%s)"%s/>' % (
        sx, sy, mx, my, ex, ey, colour, width, name, start)
    box = '<rect x="%.1f" y="%.1f" width="%.1f" height="17" fill="#ffffff"/>' % (x - half, y - 8.5, 2 * half)
    label = '<text x="%.1f" y="%.1f" %s font-size="12" text-anchor="middle" fill="%s">%s</text>' % (x, y + 4.5, TEXT, colour, text)
    return path, box + "\n" + label


def drawn_node(picture, where, node):
    x, y = where[node]
    tall = height(picture, node)
    fill = "#cfe2f3" if picture.nodes[node][0] else "#ffffff"
    out = ['<rect x="%.1f" y="%.1f" width="%d" height="%.1f" rx="8" fill="%s" stroke="#333333" stroke-width="1.4"/>' % (
        x - WIDTH / 2, y - tall / 2, WIDTH, tall, fill)]
    texts = names(picture, node)
    for k, text in enumerate(texts):
        line = y + 5 + 18 * (k - (len(texts) - 1) / 2)
        out.append('<text x="%.1f" y="%.1f" %s font-size="14" text-anchor="middle">%s</text>' % (x, line, TEXT, text))
    return "\n".join(out)


def marker(name, colour):
    return ('<marker id="%s" viewBox="0 0 10 10" refX="9" refY="5" markerWidth="7" markerHeight="7" orient="auto-start-reverse">'
            '<path d="M 0 0 L 10 5 L 0 10 z" fill="%s"/></marker>' % (name, colour))


def drawn(picture):
    """The whole picture."""
    where = places(picture)
    between = {}
    for line in picture.lines():
        between.setdefault((min(line[0], line[1]), max(line[0], line[1])), []).append(line)
    paths, labels = [], []
    for (low, high), lines in sorted(between.items()):
        for k, line in enumerate(lines):
            turn = 52 * (k - (len(lines) - 1) / 2)
            if line[0] != low:
                turn = -turn
            # a line past the column of insides goes round them
            if low == 0 and where[high][0] == BUNDLES:
                turn -= 90
            path, label = drawn_line(picture, where, line, turn)
            paths.append(path)
            labels.append(label)
    bottom = max(y + height(picture, node) / 2 for node, (_, y) in where.items())
    size = int(max(bottom, TOP + STEP * (len(picture.blocks) - 1)) + 60)
    wide = RIGHT + WIDTH // 2 + 30
    words = picture.title.split()
    title = "Range %s in %s: cost %s = base %s + cut %s" % (words[1], words[3], int(words[5]) + int(words[7]), words[5], words[7])
    out = ['<svg xmlns="http://www.w3.org/2000/svg" width="%d" height="%d" viewBox="0 0 %d %d">' % (wide, size, wide, size),
           '<defs>' + marker("cut", "#c0392b") + marker("flow", "#333333") + marker("idle", "#999999") + '</defs>',
           '<rect width="%d" height="%d" fill="#ffffff"/>' % (wide, size),
           '<text x="30" y="36" %s font-size="18">%s</text>' % (TEXT, title),
           '<text x="30" y="60" %s font-size="13" fill="#555555">Blue: in the register. Labels: what flows, of what can. Red: the arcs of the cut, all full.</text>' % TEXT]
    out += paths + labels + [drawn_node(picture, where, node) for node in sorted(where)]
    return "\n".join(out + ["</svg>", ""])


if __name__ == "__main__":
    if len(sys.argv) > 1:
        with open(sys.argv[1], encoding="utf-8") as file:
            sys.stdout.write(drawn(Picture(file)))
    else:
        sys.stdout.write(drawn(Picture(sys.stdin)))
