#!/usr/bin/env python3
"""Draws the text that `joinplan explain` prints as a picture: `joinplan explain K q.sql | tools/draw_plan.py > plan.svg`.

A node is a scan or a step with its rows and its cost; what it takes stands below it, the left side first. The conditions of
`on:` stand at the edges to the two sides, those of `filter:` above the node. A block that stands under `#k:` is drawn as a
tree of its own."""
import re
import sys
from html import escape

NODE = re.compile(r"(?P<title>.+) rows=(?P<rows>\d+) cost=(?P<cost>\d+)$")
# The members of a list of conditions; a text in quotes may hold the mark between them.
MEMBER = re.compile(r"(?:'(?:[^']|'')*'|[^;'])+")
WIDTH, LINE, GAP, SPACE = 7.2, 16, 28, 64


class Node:
    def __init__(self, lines):
        self.lines, self.on, self.filters, self.children = lines, [], [], []

    def width(self):
        return max(len(it) for it in self.lines) * WIDTH + 20

    def height(self):
        return len(self.lines) * LINE + 10


def depth_of(line):
    return (len(line) - len(line.lstrip(" "))) // 2


def members(words):
    return [it.strip() for it in MEMBER.findall(words)]


def node_of(line, above):
    found = NODE.match(line.strip())
    if not found:
        return None
    return Node([*above, found["title"], f"{int(found['rows']):,} rows", f"cost {int(found['cost']):,}"])


def read(text):
    """The trees of the text, each with its label: the statement's, and those of its sublinks."""
    trees, stack, above, label = [], [], [], ""
    for line in text.splitlines():
        depth, words = depth_of(line), line.strip()
        if re.fullmatch(r"#\d+:", words):
            label, stack, above = words[:-1], [], []
            continue
        while stack and stack[-1][0] >= depth:
            stack.pop()
        if words.startswith("on: ") and stack:
            stack[-1][1].on = members(words[4:])
        elif words.startswith("filter: ") and stack:
            stack[-1][1].filters = members(words[8:])
        elif node := node_of(line, above):
            above = []
            if stack:
                stack[-1][1].children.append(node)
            else:
                trees.append((label, node))
            stack.append((depth, node))
        else:
            above.append(words)
    return trees


def placed(node, left, top):
    """Places the node and what is below it, and gives the width and the height that this takes."""
    filters = len(node.filters) * LINE
    below = top + filters + node.height() + SPACE + len(node.on) * LINE
    at, height = left, 0
    for child in node.children:
        width, tall = placed(child, at, below)
        at, height = at + width + GAP, max(height, tall)
    own = max([node.width(), *(len(it) * WIDTH + 20 for it in [*node.filters, *node.on])])
    width = max(own, at - left - GAP if node.children else 0)
    if node.children and at - left - GAP < width:
        moved(node.children, (width - (at - left - GAP)) / 2)
    node.x, node.y = left + width / 2, top + filters
    return width, filters + node.height() + (SPACE + len(node.on) * LINE + height if node.children else 0)


def moved(nodes, by):
    for node in nodes:
        node.x += by
        moved(node.children, by)


def text_at(x, y, words, style=""):
    return f'<text x="{x:.1f}" y="{y:.1f}" text-anchor="middle"{style}>{escape(words)}</text>'


def drawn(node):
    found = []
    for number, words in enumerate(node.filters):
        found.append(text_at(node.x, node.y - LINE * (len(node.filters) - number) + 11, words, ' class="filter"'))
    for child in node.children:
        top = child.y - len(child.filters) * LINE
        found.append(f'<line x1="{node.x:.1f}" y1="{node.y + node.height():.1f}" x2="{child.x:.1f}" y2="{top:.1f}"/>')
    for number, words in enumerate(node.on):
        found.append(text_at(node.x, node.y + node.height() + LINE * (number + 1) + 4, words, ' class="on"'))
    half = node.width() / 2
    found.append(f'<rect x="{node.x - half:.1f}" y="{node.y:.1f}" width="{2 * half:.1f}" height="{node.height():.1f}" rx="6"/>')
    for number, words in enumerate(node.lines):
        found.append(text_at(node.x, node.y + LINE * (number + 1), words))
    for child in node.children:
        found += drawn(child)
    return found


STYLE = """text { font: 12px monospace; fill: #222 }
rect { fill: #eef3fa; stroke: #46618a }
line { stroke: #46618a }
.on { fill: #7a4a00; paint-order: stroke; stroke: #fff; stroke-width: 5px }
.filter { fill: #4a6b2a }"""


def picture(text):
    parts, top, wide = [], 20, 0
    for label, tree in read(text):
        if label:
            parts.append(f'<text x="20" y="{top + 12}">{escape(label)}</text>')
            top += 24
        width, height = placed(tree, 20, top)
        parts += drawn(tree)
        top, wide = top + height + 40, max(wide, width)
    size = f'width="{wide + 40:.0f}" height="{top:.0f}"'
    return "\n".join([f'<svg xmlns="http://www.w3.org/2000/svg" {size}>', f"<style>{STYLE}</style>", *parts, "</svg>", ""])


if __name__ == "__main__":
    sys.stdout.write(picture(sys.stdin.read()))
