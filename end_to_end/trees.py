"""PQ-trees as verdicts print them: a column, or a bracket with a list of trees."""

import itertools
import re


def parsed(text):
    """The tree of a text."""
    nodes = [("", [])]
    for word in re.findall(r"[()\[\]]|\d+", text):
        if word in "([":
            nodes.append((word, []))
        elif word in ")]":
            node = nodes.pop()
            nodes[-1][1].append(node)
        else:
            nodes[-1][1].append(int(word))
    (_, [tree]), = nodes
    return tree


def written(tree):
    """The text of a tree."""
    if isinstance(tree, int):
        return str(tree)
    bracket, children = tree
    return bracket + " ".join(map(written, children)) + {"(": ")", "[": "]"}[bracket]


def frontiers(tree):
    """All frontiers of a tree, as tuples."""
    if isinstance(tree, int):
        return {(tree,)}
    bracket, children = tree
    arranged = itertools.permutations(children) if bracket == "(" else (children, children[::-1])
    found = set()
    for some in arranged:
        for parts in itertools.product(*(frontiers(child) for child in some)):
            found.add(tuple(itertools.chain.from_iterable(parts)))
    return found


def leaves(tree):
    """The columns from left to right."""
    return [tree] if isinstance(tree, int) else [column for child in tree[1] for column in leaves(child)]


def nodes(tree, bracket):
    """The number of nodes of a tree that are written with this bracket."""
    return 0 if isinstance(tree, int) else (tree[0] == bracket) + sum(nodes(child, bracket) for child in tree[1])


def is_canonical(tree):
    """Whether the children of P-nodes rise by their least columns, and Q-nodes begin with the lower end."""
    if isinstance(tree, int):
        return True
    bracket, children = tree
    mins = [min(leaves(child)) for child in children]
    return all(map(is_canonical, children)) and (mins == sorted(mins) if bracket == "(" else mins[0] < mins[-1])


def lines_problem(tree_line, order_line, wanted):
    """What is wrong with a tree and its order, where the tree shall have these frontiers, or None."""
    tree = parsed(tree_line.removeprefix("tree "))
    if not is_canonical(tree):
        return f"{tree_line} is not canonical"
    if order_line != "order " + " ".join(map(str, leaves(tree))):
        return f"{order_line} of {tree_line}"
    return None if wanted(frontiers(tree)) else f"{tree_line} has other frontiers than are asked for"
