#!/usr/bin/env python3
"""Draws the pictures of docs/pictures: versions that share blocks, and erases of calls.

  tools/draw_pictures.py           writes them
  tools/draw_pictures.py --check   tells whether they are as they would be written; its status is 1 where one is not
  tools/draw_pictures.py PROGRAM   makes docs/pictures/versions.image anew by this program `uffs`, and writes them

versions.svg is read off docs/pictures/versions.image, an image that `uffs` made by the lines of CALLS: the newest
record, and the nodes that the roots of its versions reach, by the bytes of docs/format.md. erases.svg has figures of
crates/operations/stdout and of tools/littlefs/counts.
"""
import os
import re
import struct
import subprocess
import sys
import tempfile

TOP = os.path.dirname(os.path.dirname(os.path.abspath(__file__)))
FOLDER = f"{TOP}/docs/pictures"
IMAGE = f"{FOLDER}/versions.image"
FIGURES = f"{TOP}/crates/operations/stdout"
OTHERS = f"{TOP}/tools/littlefs/counts"
# The changes of the image after the empty root: what the picture says of each, and the lines of its script.
CALLS = [
    ("mkdir /conf", ["mkdir /conf"]),
    ("write /conf/pump, 2 bytes", ["write /conf/pump 6f6e"]),
    ("write /log, 9,000 bytes", ["write /log " + "2e" * 9000]),
    ("pwrite at the end of /log, 500 bytes", ["open /log 2", "pwrite 0 9000 " + "2b" * 500, "close 0"]),
    ("write /conf/pump, 3 bytes", ["write /conf/pump 6f6666"]),
]
# The calls that the plot shows.
SHOWN = [
    "undo", "pwrite of a byte at the end of 1 MiB", "write of a new file, 1,000 bytes, depth 2", "mkdir at depth 4",
    "mkdir in a directory of 1,000 entries", "pwrite of a byte in the middle of 1 MiB",
]
CAPTION = [
    "A column is a block of the flash, in the order in which blocks were taken. Blocks 0 to 7 are the anchors and hold records alone.",
    "A square is filled where the version reaches the block. Its colour tells which version wrote it.",
    "An arrow leads from a node to one that it names. Pointers of a file that lead further back than to the node before are left out.",
]
COLOURS = ["#777777", "#1b6e3c", "#1f5fa8", "#b35900", "#7b3fa0", "#a8243c"]
FONT = "font-family='sans-serif' font-size="


def read(path):
    with open(path, "rb") as file:
        return file.read()


def pages_of(image):
    """The sizes of an image, and the bytes of each page that has data, by its number."""
    page, pages, blocks = struct.unpack_from("<3I", image, 8)
    found, place = {}, 20
    for block in range(blocks):
        place += 1
        for number in range(block * pages, (block + 1) * pages):
            if image[place] == 1:
                found[number] = image[place + 1 : place + 1 + page]
                place += page
            place += 1
    return page, pages, found


def newest_versions(image):
    """The versions of the newest record, as serials with their roots. The record fills one page here."""
    _, pages, found = pages_of(image)
    records = [it for number, it in found.items() if number < 8 * pages and it[:4] == b"UFCR"]
    payload = max(records, key=lambda it: struct.unpack_from("<Q", it, 4))[20:]
    count = payload[21]
    return [struct.unpack_from("<QI", payload, 40 + 12 * it) for it in range(count)]


class Node:
    """A node: its block, what it is, and the blocks that it names."""

    def __init__(self, block, label, depth, names):
        self.block, self.label, self.depth, self.names = block, label, depth, names


def bytes_of(image, block):
    _, pages, found = pages_of(image)
    return b"".join(found.get(number, b"") for number in range(block * pages, (block + 1) * pages))


def entries_of(data):
    """The entries of a node of a directory: kind, name and head."""
    place, end = 16, 16 + struct.unpack_from("<I", data, 8)[0]
    while place < end:
        kind, length = data[place], data[place + 1]
        name = data[place + 2 : place + 2 + length].decode()
        yield kind, name, struct.unpack_from("<I", data, place + 2 + length)[0]
        place += 10 + length


def body_of(image, head, path):
    """The nodes of a file, the last one first. Of the pointers the first alone is told: it leads to the node before."""
    data = bytes_of(image, head)
    index = struct.unpack_from("<I", data, 4)[0]
    before = [struct.unpack_from("<I", data, 16)[0]] if index else []
    yield Node(head, f"{path} {index}" if index or path == "/log" else path, 2, before)
    for block in before:
        yield from body_of(image, block, path)


def nodes_of(image, block, path=""):
    """The nodes that a directory of one node reaches, its own first."""
    named = list(entries_of(bytes_of(image, block)))
    yield Node(block, path or "root", min(path.count("/"), 1), [head for _, _, head in named if head])
    for kind, name, head in named:
        if head:
            yield from nodes_of(image, head, f"{path}/{name}") if kind == 2 else body_of(image, head, f"{path}/{name}")


def text(x, y, words, size=12, colour="#222", anchor="start", more=""):
    return f"<text x='{x}' y='{y}' {FONT}'{size}' fill='{colour}' text-anchor='{anchor}'{more}>{words}</text>"


def document(width, height, title, parts):
    head = f"<svg xmlns='http://www.w3.org/2000/svg' viewBox='0 0 {width} {height}' width='{width}' height='{height}' role='img'>"
    return "\n".join([head, f"<title>{title}</title>", f"<rect width='{width}' height='{height}' fill='#fff'/>", *parts, "</svg>", ""])


def versions_picture():
    """The versions of the image, and the blocks that each reaches."""
    image = read(IMAGE)
    versions = newest_versions(image)
    reached = {serial: {node.block: node for node in nodes_of(image, root)} for serial, root in versions}
    nodes, writers = {}, {}
    for serial, found in reached.items():
        for block, node in found.items():
            nodes.setdefault(block, node)
            writers.setdefault(block, serial)
    blocks = sorted(nodes)
    left, step, levels = 340, 48, [78, 148, 218]
    x_of = {block: left + step * place for place, block in enumerate(blocks)}
    width, parts = left + step * len(blocks) + 20, []
    parts.append(text(20, 30, "Versions share the blocks of what did not change", 17))
    for level, words in zip(levels, ("the root of each version", "the directory /conf", "the nodes of files")):
        parts.append(text(20, level + 21, words, 13, "#555"))
    for node in nodes.values():
        parts += arrows(node, nodes, x_of, levels, COLOURS[writers[node.block] - 1])
    for node in nodes.values():
        parts += box(x_of[node.block], levels[node.depth], node, COLOURS[writers[node.block] - 1])
    parts += matrix(versions, reached, writers, x_of, 322)
    height = 322 + 34 * len(versions) + 16
    for line in CAPTION:
        height += 20
        parts.append(text(20, height - 8, line, 13, "#555"))
    return document(width, height, "Versions that share blocks", parts)


def arrows(node, nodes, x_of, levels, colour):
    """The arrows from a node: down to what stands below it, and along the row to the node before of a file."""
    for name in node.names:
        below = nodes[name].depth > node.depth
        x, y, to_x = x_of[node.block] + 20, levels[node.depth] + 32, x_of[name] + 20
        to_y = levels[nodes[name].depth] - 2 if below else y
        middle = f"{x} {y + 26} {to_x} {to_y - 30}" if below else f"{x} {y + 46} {to_x} {to_y + 46}"
        yield f"<path d='M {x} {y} C {middle} {to_x} {to_y}' fill='none' stroke='{colour}' stroke-width='1.6'/>"
        tip = f"{to_x} {to_y} {to_x - 4} {to_y - 8} {to_x + 4} {to_y - 8}" if below else f"{to_x} {to_y} {to_x - 4} {to_y + 8} {to_x + 4} {to_y + 8}"
        yield f"<polygon points='{tip}' fill='{colour}'/>"


def box(x, y, node, colour):
    """A node: its block, and what it is."""
    yield f"<rect x='{x}' y='{y}' width='40' height='32' rx='4' fill='{colour}'/>"
    yield text(x + 20, y + 14, node.block, 13, "#fff", "middle")
    yield text(x + 20, y + 26, node.label.replace("/conf/", "").lstrip("/") or node.label, 10, "#fff", "middle")


def matrix(versions, reached, writers, x_of, top):
    """A line for each version, with a square for each block."""
    for block, x in x_of.items():
        yield text(x + 20, top - 8, block, 12, "#555", "middle")
    told = ["the empty root", *(words for words, _ in CALLS)]
    for line, (serial, _) in enumerate(versions):
        y = top + 34 * line
        yield text(20, y + 19, f"version {serial}: {told[serial - 1]}", 13, COLOURS[serial - 1])
        for block, x in x_of.items():
            fill = COLOURS[writers[block] - 1] if block in reached[serial] else "#f0f0f0"
            yield f"<rect x='{x}' y='{y}' width='40' height='26' rx='3' fill='{fill}'/>"


def single_calls():
    """The programs and erases of each single call that crates/operations counts."""
    table = read(FIGURES).decode().split("\n\n")[0]
    return {name: (int(programs), int(erases)) for name, programs, erases in re.findall(r"^(.+?) {2,}\d+ +\d+ +\d+ +(\d+) +(\d+) +\d+$", table, re.M)}


def counts_of_littlefs():
    """The erases of each call that tools/littlefs counts."""
    return {name: float(erases) for name, erases in re.findall(r"^(.+?) {2,}\d+ +[\d.]+ +([\d.]+)$", read(OTHERS).decode(), re.M)}


def erases_picture():
    """The erases of calls with a sync, beside those of littlefs, as bars."""
    own, others = single_calls(), counts_of_littlefs()
    left, top, room, step = 330, 96, 420, 44
    rows = [(name, own[name][1] + 1 / 16, others.get(name)) for name in SHOWN]
    most = max(erases for _, erases, _ in rows)
    parts = [text(20, 30, "Blocks that a call erases, with what makes it durable", 17)]
    parts.append(text(20, 54, "Blocks of 4,096 bytes. undofs: the call and a sync, of which one in sixteen erases a block. littlefs 2.8: on the average.", 13, "#555"))
    for place, (name, erases, other) in enumerate(rows):
        y = top + step * place
        parts.append(text(left - 12, y + 22, name, 13, "#222", "end"))
        parts += bar(left, y, room * erases / most, f"{erases:.2f}  undofs", COLOURS[2])
        parts += bar(left, y + 17, room * other / most, f"{other:.2f}  littlefs", COLOURS[0]) if other else [text(left + 10, y + 30, "littlefs has no such call", 12, "#777")]
    return document(left + room + 130, top + step * len(rows) + 10, "Blocks that a call erases, with what makes it durable", parts)


def bar(x, y, long, words, colour):
    """A bar, and what it tells."""
    wide = max(round(long), 2)
    yield f"<rect x='{x}' y='{y}' width='{wide}' height='14' fill='{colour}'/>"
    yield text(x + wide + 8, y + 12, words, 12, "#222", "start", " xml:space='preserve'")


def make_image(program):
    """Makes the image anew by the program."""
    script = "".join(f"{line}\n" for _, lines in CALLS for line in [*lines, "sync"])
    with tempfile.TemporaryDirectory() as folder:
        name = f"{folder}/versions.image"
        subprocess.run([program, "format", name], check=True)
        subprocess.run([program, "run", name, "--stop"], input=script.encode(), stdout=subprocess.DEVNULL, check=True)
        with open(IMAGE, "wb") as out:
            out.write(read(name))


def pictures():
    return {f"{FOLDER}/versions.svg": versions_picture(), f"{FOLDER}/erases.svg": erases_picture()}


def stale():
    """The pictures that are not as they would be written."""
    return [os.path.relpath(path, TOP) for path, drawn in pictures().items() if not os.path.isfile(path) or read(path) != drawn.encode()]


def main():
    if sys.argv[1:] == ["--check"]:
        for name in stale():
            print(f"{name} is not as tools/draw_pictures.py writes it")
        return 1 if stale() else 0
    if len(sys.argv) > 2 or (sys.argv[1:] and not os.path.isfile(sys.argv[1])):
        print(__doc__, file=sys.stderr)
        return 2
    if sys.argv[1:]:
        make_image(os.path.abspath(sys.argv[1]))
    for path, drawn in pictures().items():
        with open(path, "w", encoding="utf-8") as out:
            out.write(drawn)
    return 0


if __name__ == "__main__":
    sys.exit(main())
