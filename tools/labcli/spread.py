"""A layout of a graph in the plane: points whose distances are near those along the edges, and whose boxes don't cover one another."""
import random


def distances(count, edges):
    """Gives for each point the distance along edges to each other; points that nothing joins are a little farther than the farthest."""
    near = [set() for _ in range(count)]
    for a, b in edges:
        near[a].add(b)
        near[b].add(a)
    found = []
    for start in range(count):
        row, layer, far = {start: 0}, [start], 0
        while layer:
            far += 1
            layer = [it for it in {b for a in layer for b in near[a]} if it not in row]
            row.update(dict.fromkeys(layer, far))
        found.append(row)
    most = max((max(row.values()) for row in found), default=0) + 2
    return [[row.get(it, most) for it in range(count)] for row in found]


def spread(count, edges):
    """Gives a point for each, by steps that bring one pair after another nearer to its distance, each round by smaller ones."""
    draws, wanted = random.Random(1), distances(count, edges)
    points = [[draws.random() * count ** 0.5, draws.random() * count ** 0.5] for _ in range(count)]
    pairs = [(a, b) for a in range(count) for b in range(a)]
    rounds = 60 if count <= 80 else 20
    for number in range(rounds):
        draws.shuffle(pairs)
        step = 0.02 ** (number / rounds)
        for a, b in pairs:
            aim = wanted[a][b]
            across, up = points[a][0] - points[b][0], points[a][1] - points[b][1]
            length = (across * across + up * up) ** 0.5 or 1e-6
            part = min(1.0, step * 4 / (aim * aim)) * (length - aim) / 2 / length
            points[a] = [points[a][0] - part * across, points[a][1] - part * up]
            points[b] = [points[b][0] + part * across, points[b][1] + part * up]
    return points


def apart(points, boxes, gap):
    """Moves points until their boxes, each a width and a height, have a gap between them."""
    for _ in range(200):
        is_moved = False
        for a in range(len(points)):
            for b in range(a):
                across, up = points[a][0] - points[b][0], points[a][1] - points[b][1]
                over_x = (boxes[a][0] + boxes[b][0]) / 2 + gap - abs(across)
                over_y = (boxes[a][1] + boxes[b][1]) / 2 + gap - abs(up)
                if over_x <= 0 or over_y <= 0:
                    continue
                is_moved, axis = True, 0 if over_x < over_y else 1
                part = (min(over_x, over_y) / 2 + 0.5) * (1 if (across, up)[axis] >= 0 else -1)
                points[a][axis] += part
                points[b][axis] -= part
        if not is_moved:
            break
    return points
