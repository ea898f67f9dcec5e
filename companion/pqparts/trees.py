"""PQ-trees: read from their text, named, and said in words."""

from dataclasses import dataclass

MOST_DEPTH, MOST_SENTENCES = 100, 200


@dataclass
class Node:
    """A node of a tree: a leaf with its number, or its children, which may be permuted, or only turned round."""

    leaf: int = None
    children: list = None
    is_turning: bool = False

    def leaves(self):
        """The numbers at its leaves from left to right."""
        found, left = [], [self]
        while left:
            node = left.pop()
            if node.leaf is not None:
                found.append(node.leaf)
            else:
                left.extend(reversed(node.children))
        return found


def tree_of(text):
    """The tree of a text as `pq` writes it."""
    stack, root = [], None
    for word in text.replace("(", "( ").replace("[", "[ ").replace(")", " )").replace("]", " ]").split():
        if word in "([":
            node = Node(children=[], is_turning=word == "[")
            stack.append(node)
            continue
        node = stack.pop() if word in ")]" else Node(leaf=int(word))
        if stack:
            stack[-1].children.append(node)
        else:
            root = node
    return root


def nested(tree, names):
    """The tree with names, as lists within dictionaries; None of a tree that is too deep for that."""
    if any(depth > MOST_DEPTH for _, depth in inner_nodes(tree)):
        return None
    results, left = [], [(tree, False)]
    while left:
        node, is_done = left.pop()
        if node.leaf is not None:
            results.append(names[node.leaf - 1])
        elif not is_done:
            left.append((node, True))
            left.extend((child, False) for child in reversed(node.children))
        else:
            count = len(node.children)
            children = results[-count:]
            del results[-count:]
            results.append({"turn" if node.is_turning else "permute": children})
    return results[0]


def inner_nodes(tree):
    """The inner nodes, each with its depth, from the root down."""
    found, left = [], [(tree, 0)]
    while left:
        node, depth = left.pop()
        if node.leaf is None:
            found.append((node, depth))
            left.extend((child, depth + 1) for child in reversed(node.children))
    return found


def listed(names, most=12):
    """Names in a row, the middle left out of long ones."""
    shown = names if len(names) <= most else [*names[: most - 2], "..", names[-1]]
    return ", ".join(shown)


def said(node, names):
    """A node in words: its parts, each with its names."""
    parts = "; ".join(listed([names[leaf - 1] for leaf in child.leaves()]) for child in node.children)
    count = len(node.children)
    if node.is_turning:
        return f"{count} parts stand in this order, up to turning it round: {parts}"
    return f"{count} parts stand together and may change places: {parts}"


def in_words(tree, names, things):
    """What a tree fixes, as sentences, from the whole down to its blocks."""
    if tree.leaf is not None:
        return [f"There is one of the {things} alone: {names[tree.leaf - 1]}."]
    (root, _), *inner = inner_nodes(tree)
    if not inner and root.is_turning:
        return [f"There is one order of the {things}, up to turning it round."]
    if not inner:
        return [f"Nothing is fixed: the {things} may stand in any order."]
    first = said(root, names)
    found = [f"The whole: {first}."]
    found += [f"Within {listed([names[leaf - 1] for leaf in node.leaves()], 6)}: {said(node, names)}." for node, _ in inner[:MOST_SENTENCES]]
    return found + ([f"There are {len(inner) - MOST_SENTENCES} blocks more."] if len(inner) > MOST_SENTENCES else [])


def blocks(tree, names):
    """The inner nodes below the root: the names of each, and whether its parts only turn or may change places."""
    return [{"members": [names[leaf - 1] for leaf in node.leaves()], "fixed": node.is_turning, "depth": depth}
            for node, depth in inner_nodes(tree) if depth]


def free_leaves(tree, is_circle=False):
    """The leaves right below a root whose children may be permuted: nothing ties them to the others. Round a circle the tree doesn't tell."""
    if tree.leaf is not None or tree.is_turning or is_circle:
        return []
    return [child.leaf for child in tree.children if child.leaf is not None]
