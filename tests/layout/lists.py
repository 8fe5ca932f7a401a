"""Lists of boxes for the comparison: good ones of every shape, each rule broken alone, cut ones, and bytes that are no list.

A tree is a list of boxes in the list's order, each a pair (weights, child numbers).
"""
import itertools

MOST_BOXES, MOST_LEVELS, MOST_CHILDREN = 64, 6, 8


def listed(tree):
    return bytes([len(tree)]) + b"".join(bytes([len(w)]) + bytes(w) + bytes(c) for w, c in tree)


def from_parents(rng, parents, weight):
    """A tree whose box n + 1 is a child of box parents[n]; the children of a box come in any order."""
    children = [[] for _ in range(len(parents) + 1)]
    for number, parent in enumerate(parents, 1):
        children[parent].append(number)
    for numbers in children:
        rng.shuffle(numbers)
    return [([weight() for _ in numbers], numbers) for numbers in children]


def chain(length):
    return [([1], [number + 1]) if number < length - 1 else ([], []) for number in range(length)]


def grown(rng, boxes, levels, children, weight):
    """A tree of so many boxes that reaches the level and has a box with so many children, as far as there are boxes for it. Boxes
    are numbered in any order in which a parent comes first."""
    parent, level, under = [None], [1], [0]

    def add(to):
        parent.append(to)
        level.append(level[to] + 1)
        under.append(0)
        under[to] += 1

    while len(parent) < boxes and level[-1] < levels:
        add(len(parent) - 1)
    full = rng.choice([n for n in range(len(parent)) if level[n] < levels] or [0])
    while len(parent) < boxes and under[full] < children and levels > 1:
        add(full)
    while len(parent) < boxes:
        room = [n for n in range(len(parent)) if under[n] < children and level[n] < levels]
        if not room:
            break
        add(rng.choice(room))
    order, ready = [], [0]
    while ready:
        box = ready.pop(rng.randrange(len(ready)))
        order.append(box)
        ready += [n for n in range(len(parent)) if parent[n] == box]
    number = {box: at for at, box in enumerate(order)}
    return from_parents(rng, [number[parent[box]] for box in order[1:]], weight)


def small_trees(rng, most, weight):
    """Every tree of up to `most` boxes: box n + 1 is a child of any box up to n."""
    for boxes in range(1, most + 1):
        for parents in itertools.product(*[range(n) for n in range(1, boxes)]):
            yield from_parents(rng, parents, weight)


def trees(rng, turns):
    """For each number of boxes, of levels (7 too, which is one too many) and of children, with even and with uneven weights."""
    even = lambda: 1
    uneven = lambda: rng.choice([1, 2, 3, 50, 100, rng.randint(1, 100)])
    yield from small_trees(rng, 7, even)
    yield from small_trees(rng, 6, uneven)
    for _ in range(turns):
        for boxes in range(1, MOST_BOXES + 1):
            for levels in range(1, MOST_LEVELS + 2):
                for children in range(1, MOST_CHILDREN + 1):
                    yield grown(rng, boxes, levels, children, rng.choice([even, even, uneven]))


def broken(rng, tree):
    """The tree's list with one rule broken, for each rule that can be broken here: (which, list)."""
    good = listed(tree)
    n = len(tree)
    yield "a byte after the list", good + bytes([rng.choice([0, 1, rng.randrange(256)])])
    yield "a byte missing", good[:-1]
    yield "a box too few", bytes([n - 1]) + good[1:]
    yield "a box too many", bytes([n + 1]) + good[1:]
    yield "a box that is no child", listed(tree + [([], [])])
    parents = [number for number, (weights, _) in enumerate(tree) if weights]
    if not parents:
        return
    at = rng.choice(parents)
    weights, numbers = tree[at]
    j = rng.randrange(len(weights))

    def changed(weights, numbers):
        return listed(tree[:at] + [(weights, numbers)] + tree[at + 1:])

    def with_weight(weight):
        return changed(weights[:j] + [weight] + weights[j + 1:], numbers)

    def with_child(child):
        return changed(weights, numbers[:j] + [child] + numbers[j + 1:])

    yield "a weight of 0", with_weight(0)
    yield "a weight over 100", with_weight(rng.choice([101, 255, rng.randint(101, 255)]))
    yield "a child of itself", with_child(at)
    yield "the first box as a child", with_child(0)
    yield "a child before its parent", with_child(rng.randrange(at + 1))
    yield "a child that is no box", with_child(rng.choice([n, 255, rng.randint(n, 255)]))
    yield "a child left out", changed(weights[:j] + weights[j + 1:], numbers[:j] + numbers[j + 1:])
    if len(numbers) < MOST_CHILDREN:
        again = rng.choice([child for _, others in tree for child in others if child > at])
        yield "a child twice", changed(weights + [1], numbers + [again])


def too_large():
    """Lists that are good but for one limit."""
    yield "nine children", listed([([1] * 9, list(range(1, 10)))] + [([], [])] * 9)
    wide = [([1] * 8, list(range(1, 9)))]
    wide += [([1] * 7, list(range(9 + 7 * n, 16 + 7 * n))) for n in range(8)]
    yield "65 boxes", listed(wide + [([], [])] * 56)
    yield "no boxes", b"\x00"
    yield "nothing", b""
    for length in range(7, 65):
        yield "a chain", listed(chain(length))


def no_lists(rng, turns):
    """Random bytes, of all values and of small ones, which go further before they break."""
    for _ in range(turns):
        length = rng.choice([0, 1, 2, 5, 14, 60, 190, 191, 192, 193, 300, 5000])
        largest = rng.choice([1, 2, 3, 9, 100, 255])
        yield bytes(rng.randint(0, largest) for _ in range(length))
