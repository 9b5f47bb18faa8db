"""Where the boxes of a graph without cycles go, in layers: each above all that it uses. For tools/diagrams.py.

An edge over several layers gets a point in each of them, so that it goes between the boxes. The order in a layer is the
best of some sweeps that put each box near its neighbours, by how many edges cross.
"""

from collections import namedtuple

# A graph in layers: the layers from the lowest, the edges from layer to layer, and the points of each edge.
Layered = namedtuple("Layered", "layers steps routes")
SWEEPS, PULLS, GAP = 40, 60, 14


def reduced(uses):
    """Of what each uses only that which nothing else that it uses does."""
    below = {}

    def all_below(name):
        if name not in below:
            below[name] = set().union(*({other} | all_below(other) for other in uses[name]))
        return below[name]

    return {name: [other for other in others if not any(other in all_below(third) for third in others)]
            for name, others in uses.items()}


def levels_of(uses):
    """The layer of each, from 0: above all that it uses, and as high as that if more use it than it uses."""
    levels = {}

    def level(name):
        if name not in levels:
            levels[name] = 1 + max((level(other) for other in uses[name]), default=-1)
        return levels[name]

    for name in sorted(uses, key=level, reverse=True):
        users = [other for other in uses if name in uses[other]]
        if len(users) > len(uses[name]):
            levels[name] = min(levels[other] for other in users) - 1
    return levels


def with_points(uses):
    """The layers with the points of long edges, which are pairs of a name and a number."""
    levels = levels_of(uses)
    layers = [[] for _ in range(max(levels.values()) + 1)]
    for name in sorted(uses):
        layers[levels[name]].append(name)
    steps, routes = [], {}
    for name in sorted(uses):
        for other in uses[name]:
            points = [(name, other, level) for level in range(levels[name] - 1, levels[other], -1)]
            for point in points:
                layers[point[2]].append(point)
            routes[name, other] = [name, *points, other]
            steps += zip(routes[name, other], routes[name, other][1:])
    return Layered(layers, steps, routes)


def crossings(layers, steps):
    places = {name: place for layer in layers for place, name in enumerate(layer)}
    levels = {name: level for level, layer in enumerate(layers) for name in layer}
    by_level = {}
    for high, low in steps:
        by_level.setdefault(levels[low], []).append((places[high], places[low]))
    return sum((one[0] - two[0]) * (one[1] - two[1]) < 0
               for pairs in by_level.values() for at, one in enumerate(pairs) for two in pairs[at + 1:])


def ordered(graph):
    """The graph with each layer in an order with few crossings."""
    above, below = {}, {}
    for high, low in graph.steps:
        above.setdefault(low, []).append(high)
        below.setdefault(high, []).append(low)
    layers = [list(layer) for layer in graph.layers]
    best, fewest = [list(layer) for layer in layers], crossings(layers, graph.steps)
    for sweep in range(SWEEPS):
        near = above if sweep % 2 else below
        for level in range(len(layers) - 1, -1, -1) if sweep % 2 else range(len(layers)):
            places = {name: place / max(len(layer) - 1, 1) for layer in layers for place, name in enumerate(layer)}
            wish = {name: sum(map(places.get, near.get(name, [name]))) / len(near.get(name, [name]))
                    for name in layers[level]}
            layers[level].sort(key=wish.get)
        count = crossings(layers, graph.steps)
        if count < fewest:
            best, fewest = [list(layer) for layer in layers], count
    return graph._replace(layers=best)


def spread(layer, wish, widths):
    """The middles of the boxes of a layer, near what each should have and without an overlap."""
    middles = [wish[name] for name in layer]
    for _ in range(len(layer)):
        for at in range(1, len(layer)):
            least = (widths[layer[at - 1]] + widths[layer[at]]) / 2 + GAP
            short = least - (middles[at] - middles[at - 1])
            if short > 0:
                middles[at - 1] -= short / 2
                middles[at] += short / 2
    for at in range(1, len(layer)):
        least = middles[at - 1] + (widths[layer[at - 1]] + widths[layer[at]]) / 2 + GAP
        middles[at] = max(middles[at], least)
    return dict(zip(layer, middles))


def placed(uses, width_of):
    """The middle and the layer of each box and point, and the points of each edge."""
    graph = ordered(with_points(reduced(uses)))
    widths = {name: width_of(name) if isinstance(name, str) else 4 for layer in graph.layers for name in layer}
    near = {}
    for high, low in graph.steps:
        near.setdefault(high, []).append(low)
        near.setdefault(low, []).append(high)
    middles = {}
    for layer in graph.layers:
        middles.update(spread(layer, dict.fromkeys(layer, 0), widths))
    for pull in range(PULLS):
        for layer in graph.layers if pull % 2 else reversed(graph.layers):
            wish = {name: sum(map(middles.get, near.get(name, [name]))) / len(near.get(name, [name])) for name in layer}
            middles.update(spread(layer, wish, widths))
    left = min(middles[name] - widths[name] / 2 for name in middles)
    levels = {name: level for level, layer in enumerate(graph.layers) for name in layer}
    return {name: (middles[name] - left, levels[name]) for name in middles}, graph.routes
