#!/usr/bin/env python3
"""Draws the pictures of docs/pictures: driver, port and disks, the way of one Read, the crates, and the bytes of
messages.

Each picture is an SVG with a white background, and the same tree always gives the same bytes. The arrows between
crates are read from crates.txt and from what the sources of a crate import: an arrow is drawn from each crate to
those that it uses, except where a longer way of arrows leads there too. A new crate needs a line in CRATES."""

import html
import pathlib
import re
import sys

TOP = pathlib.Path(__file__).resolve().parent.parent
INK, FAINT, MEMORY, PORT, UNITS = "#1b1f24", "#57606a", "#eef4fb", "#fdf3e1", "#e9f6ec"
BLUE, GREEN, AMBER, GREY = "#cfe2f8", "#cdeed3", "#fbe3b4", "#e8e8ec"


class Picture:
    """A picture under way: its size, and the elements so far."""

    def __init__(self, width, height, title):
        self.size, self.title, self.parts = (width, height), title, []

    def box(self, x, y, width, height, fill="#ffffff", stroke=INK, round=6, dash=None, thick=1.2):
        dashed = f' stroke-dasharray="{dash}"' if dash else ""
        self.parts.append(
            f'<rect x="{x:g}" y="{y:g}" width="{width:g}" height="{height:g}" rx="{round}" fill="{fill}" '
            f'stroke="{stroke}" stroke-width="{thick:g}"{dashed}/>'
        )

    def text(self, x, y, words, size=13, bold=False, middle=True, colour=INK, mono=False, end=False):
        anchor = "end" if end else "middle" if middle else "start"
        weight = ' font-weight="bold"' if bold else ""
        family = ' font-family="monospace"' if mono else ""
        self.parts.append(
            f'<text x="{x:g}" y="{y:g}" font-size="{size:g}" text-anchor="{anchor}" fill="{colour}"{weight}{family}>'
            f"{html.escape(words, quote=False)}</text>"
        )

    def lines(self, x, y, words, size=12, step=16, **how):
        for number, line in enumerate(words):
            self.text(x, y + step * number, line, size, **how)

    def arrow(self, path, colour=INK, thick=1.5, dash=None, head=True):
        dashed = f' stroke-dasharray="{dash}"' if dash else ""
        marker = f' marker-end="url(#head{colour[1:]})"' if head else ""
        self.parts.append(
            f'<path d="{path}" fill="none" stroke="{colour}" stroke-width="{thick:g}"{dashed}{marker}/>'
        )

    def step(self, x, y, number):
        self.parts.append(f'<circle cx="{x:g}" cy="{y:g}" r="11" fill="{INK}"/>')
        self.text(x, y + 4.5, str(number), 13, bold=True, colour="#ffffff")

    def svg(self):
        width, height = self.size
        heads = sorted(set(re.findall(r"#head(\w+)", "".join(self.parts))))
        markers = "\n".join(
            f'<marker id="head{c}" viewBox="0 0 10 10" refX="9" refY="5" markerWidth="7" markerHeight="7" '
            f'orient="auto"><path d="M0 0 L10 5 L0 10 z" fill="#{c}"/></marker>'
            for c in heads
        )
        return (
            f'<svg xmlns="http://www.w3.org/2000/svg" width="{width}" height="{height}" '
            f'viewBox="0 0 {width} {height}" font-family="sans-serif">\n<title>{self.title}</title>\n'
            f"<defs>\n{markers}\n</defs>\n"
            f'<rect width="{width}" height="{height}" fill="#ffffff"/>\n' + "\n".join(self.parts) + "\n</svg>\n"
        )


# ---- driver, port and disks


def named_box(picture, x, y, width, height, name, about, fill="#ffffff"):
    picture.box(x, y, width, height, fill)
    picture.text(x + width / 2, y + height / 2 - 4, name, 14, bold=True)
    picture.text(x + width / 2, y + height / 2 + 16, about, 11.5)


def disk(picture, x, y, name):
    """A cylinder, as for a disk."""
    picture.parts.append(
        f'<path d="M{x} {y} v28 a50 9 0 0 0 100 0 v-28" fill="{GREEN}" stroke="{INK}" stroke-width="1.2"/>'
        f'<ellipse cx="{x + 50}" cy="{y}" rx="50" ry="9" fill="{UNITS}" stroke="{INK}" stroke-width="1.2"/>'
    )
    picture.text(x + 50, y + 27, name, 12)


def overview():
    p = Picture(1040, 310, "Driver, port and disks")
    p.text(30, 34, "Driver, port and disks", 20, bold=True, middle=False)

    named_box(p, 30, 70, 190, 80, "your emulator", "a guest with a driver of its own", "#f4f4f7")
    named_box(p, 30, 190, 190, 80, "uda, uda50", "scripts of block requests", "#f4f4f7")
    named_box(p, 280, 190, 130, 80, "class driver", "up to 15 commands", BLUE)
    p.arrow("M220 230 H278")

    p.box(470, 70, 170, 200, MEMORY)
    p.text(555, 94, "host memory", 14, bold=True)
    for y, name, fill in ((124, "command ring", BLUE), (194, "response ring", AMBER)):
        p.text(487, y - 6, name, 11.5, middle=False)
        for n in range(5):
            p.box(487 + 27 * n, y, 27, 24, fill if n in (1, 2) else "#ffffff", round=0)
    p.text(555, 252, "buffers of the transfers", 11.5)
    for y in (90, 210):
        right = 468
        left = 220 if y == 90 else 410
        p.arrow(f"M{left} {y + 8} H{right}")
        p.arrow(f"M{right + 2} {y + 40} H{left + 2}")
    p.text(345, 92, "commands", 11.5)
    p.text(345, 146, "end messages", 11.5)

    p.box(700, 70, 150, 200, PORT)
    p.text(775, 94, "port", 14, bold=True)
    p.lines(775, 114, ["registers, initialization,", "credits, interrupts"], 11.5, 16)
    named_box(p, 715, 180, 120, 72, "executor", "moves the blocks", UNITS)
    p.arrow("M640 136 H698")
    p.arrow("M700 206 H642")

    p.arrow("M835 216 H880", head=False)
    p.arrow("M880 94 V250", head=False)
    for unit in range(4):
        p.arrow(f"M880 {94 + 52 * unit} H910", head=False)
        disk(p, 910, 80 + 52 * unit, f"unit {unit}")
    p.text(960, 294, "files, memory, your calls", 11.5)
    return p


# ---- the way of one Read


def ring(picture, x, y, name, count, at, fill):
    """A ring of descriptors, of which the one at a place is marked. Gives the middle of its lower edge."""
    picture.text(x, y - 7, name, 12, bold=True, middle=False)
    for n in range(count):
        picture.box(x + 36 * n, y, 36, 26, fill if n == at else "#ffffff", round=0)
        if n == at:
            picture.text(x + 36 * n + 18, y + 18, "OWN", 11, bold=True)
    return x + 36 * at + 18, y + 26


def packet(picture, x, y, text, fill):
    picture.box(x, y, 96, 40, "#ffffff", round=0)
    picture.lines(x + 48, y + 17, ["envelope", "4 bytes"], 11, 14)
    picture.box(x + 96, y, 192, 40, fill, round=0)
    picture.lines(x + 192, y + 17, text, 11, 14)


def turn_box(picture, x, y, name, lines):
    picture.box(x, y, 205, 112, "#ffffff")
    picture.text(x + 102, y + 22, name, 14, bold=True)
    picture.lines(x + 12, y + 44, lines, 11.5, 18, middle=False)


def read():
    p = Picture(1190, 950, "The way of one Read")
    p.text(30, 34, "The way of one Read", 20, bold=True, middle=False)
    p.text(30, 56, "from the command ring through the port and the executor, and back through the response ring", 13,
           middle=False, colour=FAINT)

    p.box(30, 84, 120, 616, "#f4f4f7")
    p.lines(90, 360, ["Driver of", "the host"], 15, 20, bold=True)
    p.box(250, 140, 330, 560, MEMORY)
    p.text(415, 163, "Host memory", 15, bold=True)
    p.box(640, 84, 520, 616, PORT)
    p.text(1000, 110, "Port", 15, bold=True)
    p.box(900, 332, 225, 350, UNITS)
    p.text(1012, 355, "Executor", 15, bold=True)

    # the registers
    for x, name in ((660, "IP"), (720, "SA")):
        p.box(x, 97, 60, 30, "#ffffff", round=0)
        p.text(x + 30, 117, name, 13, bold=True)
    p.arrow("M150 112 H658")
    p.text(415, 104, "reads IP: the port polls", 12)
    p.step(200, 112, 2)

    # the way back
    p.text(270, 192, "interrupt indicators", 12, bold=True, middle=False)
    p.box(270, 200, 144, 26, "#ffffff", round=0)
    p.text(342, 218, "command, base - 4", 11)
    p.box(414, 200, 144, 26, "#ffffff", round=0)
    p.text(486, 218, "response, base - 2", 11)
    x, y = ring(p, 270, 262, "response ring, from base on", 8, 2, AMBER)
    packet(p, 270, 310, ["end message: reference,", "status, byte count"], AMBER)
    p.arrow(f"M{x} {y} V309")
    turn_box(p, 660, 196, "turn: deliver", ["writes text, envelope with", "credits, indicator; returns",
                                            "the descriptor: OWN 0, F 1"])
    p.box(925, 196, 200, 112, "#ffffff")
    p.text(1025, 218, "queued end messages", 13, bold=True)
    for n in range(5):
        p.box(945 + 32 * n, 238, 32, 36, AMBER if n == 0 else "#ffffff", round=0)
    p.text(961, 292, "first", 11, colour=FAINT)
    p.arrow("M923 256 H867")
    p.arrow("M658 256 H582")
    p.step(620, 256, 5)
    p.arrow("M268 275 H152")
    p.step(210, 275, 6)
    p.lines(200, 305, ["end message,", "credits"], 11.5, 15)

    # the way there
    x, y = ring(p, 270, 418, "command ring, after it", 8, 4, BLUE)
    packet(p, 270, 466, ["command: Read, unit, lbn,", "byte count, address"], BLUE)
    p.arrow(f"M{x} {y} V465")
    p.arrow("M150 431 H267")
    p.step(210, 431, 1)
    p.lines(200, 460, ["packet, then", "descriptor"], 11.5, 15)
    turn_box(p, 660, 375, "turn: fetch", ["reads descriptor, packet;", "writes indicator; returns",
                                          "the descriptor: OWN 0, F 1"])
    p.box(915, 372, 195, 92, "#ffffff")
    p.text(1012, 392, "pending commands", 13, bold=True)
    for n in range(5):
        p.box(932 + 32 * n, 404, 32, 36, BLUE if n == 4 else "#ffffff", round=0)
    p.text(1012, 457, "at most 15", 11, colour=FAINT)
    p.arrow("M582 431 H658")
    p.step(620, 431, 3)
    p.arrow("M865 431 H913")

    # the blocks
    p.box(270, 576, 288, 46, GREEN, round=0)
    p.lines(414, 596, ["the command's buffer: as many bytes as", "the byte count says, from the address on"], 11.5, 16)
    p.box(915, 504, 195, 78, "#ffffff")
    p.text(1012, 527, "turn: execute", 14, bold=True)
    p.lines(1012, 548, ["checks the command, then", "moves block after block"], 11.5, 18)
    p.arrow("M1012 464 V502")
    p.box(915, 618, 195, 54, GREEN)
    p.text(1012, 641, "store of the unit", 13, bold=True)
    p.text(1012, 660, "blocks of 512 bytes", 11.5)
    p.arrow("M1012 617 V584")
    p.arrow("M913 543 H720 V599 H560")
    p.text(790, 534, "bytes of the blocks", 11.5)
    p.step(870, 543, 4)
    p.arrow("M1110 543 H1142 V256 H1127")
    p.text(1134, 325, "end message", 11.5, end=True)

    steps = [
        "The driver has a credit. It writes the command packet, and then the descriptor with OWN 1, and with "
        "F 1 to ask for a ring interrupt.",
        "The driver reads IP, and the port polls until it finds a descriptor that it doesn't own.",
        "Fetch: the port reads descriptor and packet and returns the descriptor. One credit is used, and the "
        "Read is pending.",
        "Execute: the executor takes an eligible command and checks it. The store's blocks go to the buffer, "
        "and an end message is queued.",
        "Deliver: the port writes the first queued end message to the buffer of the next response "
        "descriptor, and returns that descriptor.",
        "The driver finds the command by its reference, adds the credits to its own, and gives the "
        "descriptor to the port again with OWN 1.",
    ]
    for number, line in enumerate(steps, 1):
        y = 730 + 27 * (number - 1)
        p.step(42, y, number)
        p.text(62, y + 4.5, line, 12.5, middle=False)
    p.lines(30, 900, [
        "The first end message after initialization grants 15 credits, and each later one grants 1. The port "
        "writes an indicator, and requests an interrupt,",
        "in the compatible profile only: if F was 1 and the port owns the previous descriptor of the ring.",
    ], 12.5, 19, middle=False, colour=FAINT)
    return p


# ---- the crates

# each crate with its column, its row and what it is
CRATES = {
    "uda_mem": (1, 0, "host memory"),
    "uda_image": (1, 1, "stores of blocks"),
    "uda_disk": (1, 2, "requests and answers"),
    "uda_packet": (1, 3, "messages"),
    "uda_exec": (1, 4, "executor"),
    "uda_port": (1, 5, "port, rings, registers"),
    "uda_host": (1, 6, "host's side of the rings"),
    "uda_driver": (1, 7, "class driver"),
    "uda_script_run": (1, 8, "runs a script"),
    "uda_script": (1, 9, "command line of uda"),
    "uda": (1, 10, "program"),
    "uda_c": (3, 6.6, "library for C"),
    "uda_saved": (2, 5.5, "saved state as bytes"),
    "uda_bus": (2, 6.2, "map registers of a bus"),
    "uda_called": (3, 1, "called images"),
    "c_box": (3, 4.5, "box as its pointer"),
    "uda_posting": (2, 4.4, "requests by commands"),
    "uda_grammar": (3, 2, "parser of scripts"),
    "uda50": (3, 10, "program"),
    "uda50_verbs": (3, 9, "its verbs"),
    "uda50_copy": (3, 8, "copies a drive"),
    "uda50_files": (2, 8, "files as images"),
    "uda50_arguments": (4, 8, "its command line"),
    "uda50_show": (4, 7, "what it prints"),
    "uda50_script_text": (4, 3, "text of scripts"),
    "uda_plain": (0, 2, "in-order run"),
    "test_low": (0, 5, ""),
    "scenarios": (0, 5.5, ""),
    "test_driver": (0, 7.36, ""),
    "example": (0, 7, ""),
    "layers": (0, 6.64, ""),
    "test_growths": (0, 7.82, ""),
    "test_agreement": (0, 8.18, ""),
    "test_script": (0, 9, ""),
    "workloads": (0, 8.54, ""),
    "test_show": (3, 7.2, ""),
    "test_copy": (4, 9, ""),
}
# the arrows that leave by the right side and go down between two columns, each with its x
LANES = {("uda_driver", "uda_posting"): 500, ("uda_script_run", "uda_grammar"): 740,
         ("uda50_verbs", "uda50_arguments"): 948, ("uda50_verbs", "uda50_script_text"): 960,
         ("uda_c", "uda_called"): 951}
# the arrows that go over the top and down at the right, each with the x where it goes up, its y, and the x where it goes down
OVER = {("workloads", "uda50_show"): (270, 85, 1169)}
PROGRAMS = {"uda", "uda50", "uda_c"}
AROUND = re.compile(r"^test_|^example$|^layers$|^workloads$|^scenarios$")


def uses():
    """Each crate, with those that it uses: crates.txt has them, and its sources import them."""
    listed = {}
    for line in (TOP / "crates.txt").read_text().splitlines():
        if line.strip() and not line.startswith("#"):
            name, used = line.split(":")
            listed[name.split()[0]] = set(used.split())
    found = {}
    for name, used in listed.items():
        sources = "".join(
            path.read_text()
            for path in sorted((TOP / "crates" / name).rglob("*"))
            if path.suffix in (".rt", ".antt") and path.parts[len(TOP.parts) + 2] in ("src", "specs", "proofs")
        )
        imported = {a or b for a, b in re.findall(r"\b(\w+)::|\bRattle\.(\w+)\.", sources)}
        found[name] = used & imported & listed.keys() - {name}
    return found


def nearest(graph):
    """The graph without the arrows that a longer way makes needless."""
    reached = {}

    def reach(name):
        if name not in reached:
            reached[name] = graph[name].union(*map(reach, graph[name])) if graph[name] else set()
        return reached[name]

    return {name: sorted(used - set().union(*map(reach, used))) for name, used in sorted(graph.items()) if used}


def crates():
    p = Picture(1180, 1010, "The crates, and what each uses")
    p.text(30, 34, "The crates, and what each uses", 20, bold=True, middle=False)
    note = "An arrow points to a crate that is used. A crate reached by a longer way has no arrow of its own."
    p.text(30, 56, note, 13, middle=False, colour=FAINT)
    lefts, width, pitch, bottom = (30, 290, 540, 770, 980), 170, 82, 950

    def centre(name):
        if name not in CRATES:
            sys.exit(f"{name} has no place in CRATES")
        column, row, _ = CRATES[name]
        return lefts[column] + width / 2, bottom - pitch * row

    def way(name, other):
        """The way of an arrow from the edge of a crate to the edge of another."""
        (x, y), (u, v), half = centre(name), centre(other), width / 2
        if (name, other) in LANES:
            return f"M{x + half:g} {y:g} H{LANES[name, other]} V{v - 52:g} H{u:g} V{v - 22:g}"
        if (name, other) in OVER:
            up, top, down = OVER[name, other]
            return f"M{x + half:g} {y:g} H{up} V{top} H{down} V{v:g} H{u + half + 2:g}"
        if AROUND.search(name) and u > x:
            return f"M{x + half:g} {y:g} L{u - half - 2:g} {v:g}"
        if AROUND.search(name):
            return f"M{x - half:g} {y:g} H{x - half - 14:g} V{v:g} H{x - half - 2:g}"
        if y == v:
            return f"M{x + half:g} {y:g} H{u - half - 2:g}" if u > x else f"M{x - half:g} {y:g} H{u + half + 2:g}"
        if x == u:
            return f"M{x:g} {y + 20:g} V{v - 22:g}"
        if u > x:
            return f"M{x + half:g} {y:g} H{u:g} V{v - 22:g}"
        return f"M{x:g} {y + 20:g} V{v - 36:g} H{u + 40:g} V{v - 22:g}"

    graph = uses()
    for name, used in nearest(graph).items():
        for other in used:
            p.arrow(way(name, other), "#9a8a5c" if AROUND.search(name) else "#3b4a5e", 1.3)
    for name in graph:
        x, y = centre(name)
        about = CRATES[name][2]
        fill = AMBER if AROUND.search(name) else GREEN if name in PROGRAMS else BLUE
        height = 40 if about else 25
        p.box(x - width / 2, y - height / 2, width, height, fill)
        p.text(x, y - 3 if about else y + 4.5, name, 13, bold=bool(about))
        if about:
            p.text(x, y + 13, about, 11, colour="#30363d")
    for n, (fill, words) in enumerate([(BLUE, "library"), (GREEN, "program, library for C"),
                                       (AMBER, "tests, examples, measurements")]):
        p.box((790, 890, 1080)[0], 900 + 26 * n, 26, 16, fill, round=3)
        p.text(826, 913 + 26 * n, words, 12.5, middle=False)
    return p


# ---- bytes


def bits(picture, x, y, name, fields):
    """A word of 16 bits. Each field has its name and its highest and lowest bit."""
    picture.text(x - 12, y + 24, name, 13, end=True)
    for words, high, low, fill in fields:
        left, width = x + 40 * (15 - high), 40 * (high - low + 1)
        picture.box(left, y, width, 38, fill, round=0)
        picture.text(left + width / 2, y + 24, words, 13 if width > 50 else 12)
        picture.text(left + 4, y - 5, str(high), 10.5, middle=False, colour=FAINT)
        if low != high:
            picture.text(left + width - 4, y - 5, str(low), 10.5, end=True, colour=FAINT)


def bytes_of(picture, x, y, fields, fill):
    """48 bytes in rows of eight. Each field has its first byte, its length, its name and its bytes in an example."""
    for row in range(6):
        picture.text(x - 10, y + 50 * row + 30, f"{8 * row}-{8 * row + 7}", 11.5, end=True, colour=FAINT)
    for first, length, words, example in fields:
        left, top = x + 58 * (first % 8), y + 50 * (first // 8)
        picture.box(left, top, 58 * length, 50, fill if words else "#ffffff", round=0)
        if words:
            picture.text(left + 29 * length, top + 20, words, 12 if length > 1 else 11)
        picture.text(left + 29 * length, top + (40 if words else 30), example, 12, mono=True,
                     colour=INK if words else FAINT)


def zeros(first, length):
    return first, length, "", " ".join(["00"] * length)


def messages():
    p = Picture(1100, 885, "A descriptor, an envelope, and the bytes of a Read")
    p.text(30, 34, "A descriptor, an envelope, and the bytes of a Read", 20, bold=True, middle=False)
    p.text(30, 56, "Each word and each number has its low byte first.", 13, middle=False, colour=FAINT)

    p.text(30, 92, "Descriptor: 4 bytes at an even address", 15, bold=True, middle=False)
    bits(p, 130, 116, "word 0", [("address of the message text, bits 15-0", 15, 0, BLUE)])
    bits(p, 130, 180, "word 1", [("OWN", 15, 15, AMBER), ("F", 14, 14, AMBER),
                                 ("address of the message text, bits 29-16", 13, 0, BLUE)])
    p.lines(800, 132, ["OWN 1: the port owns the descriptor.", "OWN 0: the host owns it.",
                       "F 1, written by the host, asks for a", "ring interrupt (compatible profile).",
                       "The port returns it with OWN 0, F 1."], 12.5, 20, middle=False)

    p.text(30, 262, "Packet: the envelope, and the message text above it in memory", 15, bold=True, middle=False)
    bits(p, 130, 286, "text - 4", [("length of the text in bytes", 15, 0, GREEN)])
    bits(p, 130, 350, "text - 2", [("connection", 15, 8, GREEN), ("type", 7, 4, GREEN), ("credits", 3, 0, GREEN)])
    p.box(130, 394, 640, 38, GREY, round=0)
    p.text(450, 418, "message text: up to 48 bytes", 13)
    p.text(118, 418, "text", 13, end=True)
    p.lines(800, 302, ["Connection 0 is MSCP, and type 0", "a sequential message. The port writes",
                       "the credits that it grants. It ignores", "those of a command's envelope.",
                       "The descriptor has the address of the", "text, not that of the envelope."],
            12.5, 20, middle=False)

    p.text(80, 478, "Read, opcode 0x21", 15, bold=True, middle=False)
    p.text(80, 498, "reference 1, unit 0, 512 bytes of lbn 9 to address 0x2000", 12, middle=False, colour=FAINT)
    common = [(0, 4, "reference", "01 00 00 00"), (4, 2, "unit", "00 00"), zeros(6, 2)]
    bytes_of(p, 80, 516, common + [
        (8, 1, "opcode", "21"), zeros(9, 1), (10, 2, "modifiers", "00 00"), (12, 4, "byte count", "00 02 00 00"),
        (16, 4, "address of buffer", "00 20 00 00"), zeros(20, 4),
        zeros(24, 4), (28, 4, "first block (lbn)", "09 00 00 00"), zeros(32, 8), zeros(40, 8)], BLUE)
    p.text(620, 478, "its end message, end code 0xA1", 15, bold=True, middle=False)
    p.text(620, 498, "reference 1, unit 0, status 0x0000, 512 bytes read", 12, middle=False, colour=FAINT)
    bytes_of(p, 620, 516, common + [
        (8, 1, "code", "a1"), zeros(9, 1), (10, 2, "status", "00 00"), (12, 4, "byte count", "00 02 00 00"),
        zeros(16, 8), zeros(24, 8), zeros(32, 8), zeros(40, 8)], AMBER)
    p.lines(30, 848, [
        "The strict profile writes all 48 bytes of an end message. The compatible profile writes bytes 0 to "
        "31 of a Read's, and gives the length 32",
        "in the envelope. The port ignores the bytes of a Read that are white here. Modifiers other than 0 "
        "are invalid in the strict profile only.",
    ], 12.5, 18, middle=False, colour=FAINT)
    return p


def main():
    folder = TOP / "docs/pictures"
    folder.mkdir(exist_ok=True)
    for name, draw in (("overview", overview), ("read", read), ("crates", crates), ("messages", messages)):
        (folder / f"{name}.svg").write_text(draw().svg())


if __name__ == "__main__":
    main()
