#!/usr/bin/env python3
# Draws a pattern and its complement; USAGE says how.
import os
import re
import sys
from collections import defaultdict

USAGE = """Draws a pattern and its complement, from the pattern's words and what the listing program prints of it.

    target/bin/listing < PATTERN | tools/draw.py PATTERN > picture.svg

States stand in a row. A double ring accepts, an arrow from the left marks an initial state; an edge's label lists its letters.
For larger automata let `tubochre-bench --dot` write a graph, and any viewer of DOT lay it out.
"""

STEP, RADIUS, LEFT = 150, 26, 70
MOST_BYTES = 4000000  # no listing, and no pattern without needless zeros, is as long
STATES_MOST, LETTERS_MOST, RECORDS_MOST, FLAGS_MOST = 32, 16, 4096, 3
STATE_FIELDS, EDGE_FIELDS = 6, 3  # number, N, C, S, B, flags; source, letter, target
STANDARD_INPUT = 0


def stop(sentence):
    sys.exit("draw.py: " + sentence)


def shown(word):
    """A word of the command line as it is, if it is one that cannot steer a terminal; else quoted."""
    return word if word.isprintable() and word else repr(word)


def read_text(place, name):
    """The text of a file, or of standard input, of which no more is read than can be right."""
    try:
        with open(place, "rb") as file:
            data = file.read(MOST_BYTES + 1)
    except OSError as error:
        stop("%s: %s" % ("standard input" if place == STANDARD_INPUT else shown(place), error.strerror))
    if len(data) > MOST_BYTES:
        stop("%s is longer than %d bytes" % (name, MOST_BYTES))
    try:
        return data.decode("ascii")
    except UnicodeDecodeError as error:
        stop("%s is no plain text: byte %d is 0x%02x" % (name, error.start, data[error.start]))


def numbers(words, name):
    for word in words:
        if not re.fullmatch("0*[0-9]{1,10}", word):
            stop("%s has %s where a number should stand" % (name, repr(word[:40])))
    return [int(word[-10:]) for word in words]


# ---- The listing, which is looked at first: it says whether the pattern is one.


def read_listing(text):
    """The names of the states, their flags, and the edges."""
    if text and not text.endswith("\n"):
        stop("the listing is cut off: its last line has no end")
    lines = text.split("\n")[:-1]
    refused = re.fullmatch("refused ([0-9]{1,2})", lines[0]) if len(lines) == 1 else None
    if refused:
        stop("the pattern is refused by %s, so there is nothing to draw" % refused.group(1))
    head = re.fullmatch("states ([0-9]{1,5}) edges ([0-9]{1,5})", lines[0]) if lines else None
    if not head:
        stop("standard input is no listing: pass on what the listing program prints")
    n, m = int(head.group(1)), int(head.group(2))
    if n == 0:
        stop("the listing has no states, and every complement has one")
    if len(lines) != 1 + n + m:
        stop("the listing has %d lines, and %d states and %d edges take %d" % (len(lines), n, m, 1 + n + m))
    rows = [numbers(line.split(" "), "the listing") for line in lines[1:]]
    states, edges = rows[:n], rows[n:]
    if any(len(row) != STATE_FIELDS or row[0] != q or row[-1] > FLAGS_MOST for q, row in enumerate(states)):
        stop("the listing's states are not numbered lines of six fields with flags from 0 to 3")
    if any(len(row) != EDGE_FIELDS or row[0] >= n or row[1] >= LETTERS_MOST or row[2] >= n for row in edges):
        stop("the listing's edges are not lines of source, letter and target")
    return [",".join(map(str, row[1:-1])) for row in states], [row[-1] for row in states], [tuple(row) for row in edges]


# ---- The pattern, read with no trust in its chains.


def chain(words, q):
    """The edges of a state: each next is larger than its own record, so a chain ends."""
    n, k, m = words[:3]
    record = words[4 + 2 * q]
    while record:
        if record > m:
            stop("the pattern is no valid table: a link leads to record %d of %d" % (record, m))
        letter, target, link = words[2 * n + 3 * record : 2 * n + 3 * record + 3]
        if letter >= k or target >= n or (link and link <= record):
            stop("the pattern is no valid table: record %d is %d %d %d" % (record, letter, target, link))
        yield q, letter, target
        record = link


def read_pattern(text):
    words = numbers(re.findall("[^ \n]+", text), "the pattern")
    if len(words) < 3:
        stop("the pattern has fewer than three words")
    n, k, m = words[:3]
    if not (1 <= n <= STATES_MOST and 1 <= k <= LETTERS_MOST and m <= RECORDS_MOST and len(words) == 3 + 2 * n + 3 * m):
        stop("the pattern is no valid table: its first words are %d %d %d, and it has %d" % (n, k, m, len(words)))
    flags = [words[3 + 2 * q] for q in range(n)]
    if max(flags) > FLAGS_MOST:
        stop("the pattern is no valid table: a state has flags %d" % max(flags))
    return [str(q) for q in range(n)], flags, [edge for q in range(n) for edge in chain(words, q)]


# ---- The picture.


def labels(edges):
    grouped = defaultdict(set)
    for p, c, q in edges:
        grouped[p, q].add(c)
    return {pair: ",".join(map(str, sorted(letters))) for pair, letters in grouped.items()}


def draw(title, names, flags, edges, top, out):
    y = top + 108
    x = [LEFT + STEP * i for i in range(len(names))]
    out.append('<text x="10" y="%d" font-weight="bold">%s</text>' % (top + 20, title))
    for (p, q), text in labels(edges).items():
        if p == q:
            path = "M %d %d C %d %d %d %d %d %d" % (x[p] - 12, y - 24, x[p] - 34, y - 70, x[p] + 34, y - 70, x[p] + 12, y - 24)
            at = (x[p], y - 62)
        else:
            side = -1 if p < q else 1
            a, b = x[p] + (22 if p < q else -22), x[q] + (-22 if p < q else 22)
            bend = 26 + 16 * (abs(p - q) - 1)
            path = "M %d %d Q %d %d %d %d" % (a, y + 14 * side, (a + b) // 2, y + (14 + bend) * side, b, y + 14 * side)
            at = ((a + b) // 2, y + (18 + bend // 2) * side + (4 if side > 0 else -2))
        out.append('<path d="%s" fill="none" stroke="#333" marker-end="url(#tip)"/>' % path)
        out.append('<text x="%d" y="%d" text-anchor="middle" fill="#064">%s</text>' % (at[0], at[1], text))
    for i, name in enumerate(names):
        out.append('<circle cx="%d" cy="%d" r="%d" fill="#fff" stroke="#000"/>' % (x[i], y, RADIUS))
        if flags[i] >= 2:
            out.append('<circle cx="%d" cy="%d" r="%d" fill="none" stroke="#000"/>' % (x[i], y, RADIUS - 4))
        if flags[i] % 2:
            out.append('<path d="M %d %d L %d %d" stroke="#333" marker-end="url(#tip)"/>' % (x[i] - 58, y, x[i] - RADIUS - 2, y))
        out.append('<text x="%d" y="%d" text-anchor="middle" font-size="11">%s</text>' % (x[i], y + 4, name))
    return x[-1]


def picture(pattern, complement):
    out = []
    width = max(draw("the pattern", *pattern, 0, out), draw("its complement: states N,C,S,B", *complement, 180, out)) + 80
    return "\n".join([
        '<svg xmlns="http://www.w3.org/2000/svg" width="%d" height="360" font-family="sans-serif" font-size="13">' % width,
        '<defs><marker id="tip" viewBox="0 0 8 8" refX="7" refY="4" markerWidth="7" markerHeight="7" orient="auto">'
        '<path d="M 0 0 L 8 4 L 0 8 z" fill="#333"/></marker></defs>',
        '<rect width="100%" height="100%" fill="#fff"/>',
        *out,
        "</svg>",
        "",
    ])


def write(text):
    try:
        sys.stdout.write(text)
        sys.stdout.flush()
    except OSError as error:
        os.dup2(os.open(os.devnull, os.O_WRONLY), sys.stdout.fileno())  # what is left to write is not tried again
        stop("standard output: " + error.strerror)


def main():
    if sys.stdout is None:
        stop("standard output is closed")
    if sys.argv[1:] in (["-h"], ["--help"]):
        write(USAGE)
    elif len(sys.argv) != 2:
        sys.exit(USAGE)
    elif sys.stdin is None:
        stop("standard input is closed")
    else:
        complement = read_listing(read_text(STANDARD_INPUT, "the listing"))
        write(picture(read_pattern(read_text(sys.argv[1], "the pattern")), complement))


main()
