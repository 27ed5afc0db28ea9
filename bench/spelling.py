"""How make_ships spells its cases: the files of a ship, a bay plan, a movement instruction and a
steps file, in many of the forms that may be read."""
import os


def write(folder, name, text):
    with open(os.path.join(folder, name), "wb") as file:
        file.write(text if isinstance(text, bytes) else text.encode())


# The profile


def write_profile(case, folder):
    draw = case.draw
    ship = os.path.join(folder, "ship")
    write(ship, "ship.toml", document(case))
    cells = [[spelt_cell(draw, cell), *place] for cell, place in case.cells.items()]
    draw.shuffle(cells)
    write(ship, "cells.csv", table(draw, 5, cells))
    write(ship, "hydro.csv", table(draw, 6, case.hydro))
    write(ship, "kn.csv", table(draw, 14, case.kn))
    write(ship, "bonjean.csv", table(draw, 1 + len(case.stations), case.bonjean))
    write(
        ship,
        "tanks.csv",
        table(draw, 7, [[name, *row] for name, rows in case.tanks.items() for row in rows]),
    )
    if case.least:
        write(ship, "gm.csv", table(draw, 2, case.least))
    elif os.path.exists(os.path.join(ship, "gm.csv")):
        os.remove(os.path.join(ship, "gm.csv"))


NOTES = (
    "# a ship",
    'name = "A # ship"',
    "built = 2026-03-14 05:06:07",
    "'name' = 'x'",
    "yard.name = 1.5e3",
    "",
)


def document(case):
    """ship.toml, its arrays of tables as headers or in line."""
    draw = case.draw
    lines = [f"{key} = {integer(draw, value)}" for key, value in case.keys.items()]
    lines.append(
        "stations_mm = ["
        + draw.choice((" ", "\n  # from aft\n"))
        + ", ".join(map(str, case.stations))
        + draw.choice((",", ""))
        + " ]"
    )
    lines.append(draw.choice(NOTES))
    draw.shuffle(lines)
    places = "x_mm", "y_mm", "z_mm", "half_mm"
    arrays = {
        "blocks": [{"kg": mass, **dict(zip(places, place))} for mass, place in case.blocks],
        "frames": [
            dict(zip(("x_mm", "shear_max_kg", "hog_max_kgmm", "sag_max_kgmm"), (x, *limits)))
            for x, limits in zip(case.frames, case.limits)
        ],
        "fills": [{"tank": name, "kg": mass} for name, mass in case.fills.items()],
    }
    headers = []
    for key, tables in arrays.items():
        if not tables and key == "fills":
            lines += draw.choice(([], ["fills = []"]))
        elif draw.chance(3):
            inline = ["{" + ", ".join(pairs(draw, entries)) + "}" for entries in tables]
            lines.append(f"{key} = [" + ", ".join(inline) + "]")
        else:
            for entries in tables:
                headers += [
                    "",
                    draw.choice((f"[[{key}]]", f"[[ '{key}' ]] # next")),
                    *pairs(draw, entries),
                ]
    end = draw.choice(("\n", "\n", "\r\n"))
    return end.join(lines + headers).replace("\r\n", "\n").replace("\n", end) + draw.choice(
        ("", end)
    )


def pairs(draw, entries):
    spelt = [
        f"{key} = {integer(draw, value) if isinstance(value, int) else string(draw, value)}"
        for key, value in entries.items()
    ]
    draw.shuffle(spelt)
    return spelt


def integer(draw, value):
    kind = draw.randrange(12)
    if kind == 0 and value >= 0:
        return draw.choice((hex, oct, bin))(value)
    if kind == 1 and value >= 0:
        return f"+{value}"
    if kind == 2:
        return f"{value:_}"
    return str(value)


def string(draw, text):
    if "'" not in text and draw.chance(2):
        return f"'{text}'"
    plain = text.replace("\\", "\\\\").replace('"', '\\"')
    if draw.chance(3):
        plain = "".join(
            letter if letter not in "AÖ" else f"\\u{ord(letter):04x}" for letter in plain
        )
    return '"' + plain + '"'


def table(draw, fields, rows):
    """A heading of so many fields and the rows."""
    end = draw.choice((b"\n", b"\n", b"\r\n", b"\r"))
    odd = draw.chance(3)
    lines = [b",".join(b"h%d" % i for i in range(fields))]
    for row in rows:
        lines.append(b",".join(field(draw, value, odd) for value in row))
        if odd and draw.chance(20):
            lines.append(b"")
    return (b"\xef\xbb\xbf" if draw.chance(8) else b"") + end.join(lines) + draw.choice((b"", end))


def field(draw, value, odd):
    if isinstance(value, int):
        text = str(value)
        if odd and draw.chance(4):
            digits = str(abs(value)).rjust(draw.randint(len(str(abs(value))), 18), "0")
            text = (
                " " * draw.randrange(2)
                + ("-" if value < 0 or value == 0 and draw.chance(2) else "")
                + digits
                + " " * draw.randrange(3)
            )
        return b'"%s"' % text.encode() if odd and draw.chance(8) else text.encode()
    text = value if isinstance(value, bytes) else value.encode()
    if any(mark in text for mark in b'",\r\n') or odd and draw.chance(4):
        return b'"' + text.replace(b'"', b'""') + b'"'
    return text


def spelt_cell(draw, cell):
    bay, row, tier = cell
    if bay < 100 and draw.chance(3):
        return b"%02d%02d%02d" % cell
    return b"%03d%02d%02d" % cell


# Messages


class Interchange:
    """Puts segments together, with the characters that the case draws."""

    def __init__(self, case, kind):
        self.draw = draw = case.draw
        self.kind = kind
        self.component, self.element, self.mark, self.release, self.terminator = draw.choice(
            (b":+.?'", b":+.?'", b":+,?'", b"|^;!~", b"\x1d\x1c.\\\x1e", b":+E?'", b"'+.:\"")
        )[:5].decode("latin1")
        self.advised = (
            self.component + self.element + self.mark + self.release + self.terminator != ":+.?'"
        )
        self.blanks = draw.choice(("", "", "\n", "\r\n", " \t"))
        self.segments = []

    def literal(self, text):
        text = text.decode("latin1") if isinstance(text, bytes) else text
        special = self.component + self.element + self.release + self.terminator
        if self.draw.chance(30) and text:
            special += text[-1]
        return "".join(self.release + letter if letter in special else letter for letter in text)

    def add(self, *elements):
        """A segment of elements, each a text or a list of components."""
        spelt = [
            self.component.join(map(self.literal, element))
            if isinstance(element, list)
            else self.literal(element)
            for element in elements
        ]
        self.segments.append(self.element.join(spelt))

    def text(self):
        draw = self.draw
        body = self.segments
        self.segments = []
        reference = draw.choice(("1", "A'+:?", ""))
        control = draw.choice(("7", "SKT2611", "?"))
        self.add("UNB", ["UNOA", "2"], "SHIP", "PLAN", ["260314", "0430"], control)
        self.add(
            "UNH", [reference, "x"], [self.kind, "D", "95B", "UN", *draw.choice(([], ["SMDG20"]))]
        )
        self.segments += body
        self.add("UNT", str(len(body) + 2).rjust(draw.randint(1, 10), "0"), reference)
        self.add("UNZ", draw.choice(("1", "001")), control)
        advice = ""
        if self.advised or draw.chance(3):
            advice = (
                "UNA"
                + self.component
                + self.element
                + self.mark
                + self.release
                + draw.choice(" *x")
                + self.terminator
                + self.blanks
            )
        return (
            self.blanks
            + advice
            + "".join(segment + self.terminator + self.blanks for segment in self.segments)
        ).encode("latin1")

    def location(self, cell):
        self.add(
            "LOC", draw_one(self.draw, "147", ["147", "9"]), [spelt_cell(self.draw, cell), "", "5"]
        )

    def container(self, name):
        self.add(
            "EQD", self.draw.choice(("CN", "")), [name, "x"][: self.draw.choice((1, 1, 2))], "22G1"
        )

    def measure(self, mass):
        """One or both masses; only the verified one counts where it is there, and of several of a
        kind the first."""
        draw = self.draw
        kind = draw.choice(("VGM", "WT", "WT", "both"))
        if kind == "both":
            self.add("MEA", "WT", "", draw_one(draw, ["KGM", "1"], ["LBR", "?"]))
        self.add("MEA", "VGM" if kind == "both" else kind, "", ["KGM", self.mass(mass)])
        if draw.chance(6):
            self.add("MEA", kind if kind != "both" else "VGM", "", ["KGM", "999999"])

    def mass(self, mass):
        draw = self.draw
        mark = draw.choice(".," + self.mark)
        kind = draw.randrange(6)
        if kind == 0 and mass > 0:
            return f"{mass - 1}{mark}{draw.choice(('2', '0001', '999'))}"
        if kind == 1:
            return f"{mass}{mark}{draw.choice(('', '0', '000'))}"
        if kind == 2:
            return str(mass).rjust(draw.randint(6, 35), "0")
        return str(mass)

    def other(self):
        """A segment that nobody looks at."""
        draw = self.draw
        kind = draw.randrange(8)
        if kind == 0:
            self.add("LOC", "9", "NLRTM")
        elif kind == 1:
            self.add("FTX", "AAI", "", "", "CUSTOMS HOLD'RELEASED")
        elif kind == 2:
            self.add("MEA", "AET", "", ["KGM", "x"])

    def item(self, cell, name, mass):
        draw = self.draw
        self.location(cell)
        parts = [lambda: self.measure(mass), self.other]
        if name or draw.chance(2):
            parts.append(lambda: self.container(name))
        draw.shuffle(parts)
        for part in parts:
            part()

    def nothing(self):
        """A group that names neither a container nor a mass."""
        if self.draw.chance(10):
            self.add("LOC", "147", "0990099")
            self.other()


def draw_one(draw, usual, seldom):
    return seldom if draw.chance(10) else usual


def write_messages(case, folder):
    draw = case.draw
    plan = Interchange(case, "BAPLIE")
    plan.other()
    for cell, (name, mass) in case.items.items():
        plan.item(cell, name, mass)
        plan.nothing()
    write(folder, "baplie.edi", plan.text())
    lifts = [step for step in case.steps if step[0] in "LD"]
    if case.with_file:
        draw.shuffle(lifts)
    case.lifts = lifts
    orders = Interchange(case, "MOVINS")
    handling = None
    for lift in lifts:
        if lift[0] != handling or draw.chance(4):
            handling = lift[0]
            orders.add("HAN", "LOA" if handling == "L" else "DIS")
            orders.other()
        write_lift(orders, lift)
        orders.nothing()
    write(folder, "movins.edi", orders.text())


def write_lift(orders, lift):
    if lift[0] == "L":
        orders.item(*lift[1:])
        return
    _, cell, name = lift
    orders.location(cell)
    if name or orders.draw.chance(2):
        orders.container(name)
    else:
        orders.add("MEA", "WT", "", ["TNE", "x"])
    orders.other()


def write_steps(case, folder):
    draw = case.draw
    numbers = {id(lift): number for number, lift in enumerate(case.lifts, 1)}
    rows = []
    for step in case.steps:
        if step[0] in "LD":
            rows.append([b"lift", numbers[id(step)], b"", b""])
        elif step[0] == "T":
            rows.append([b"tank", step[1], step[2], b""])
        else:
            rows.append([b"restow", spelt_cell(draw, step[1]), spelt_cell(draw, step[2]), step[3]])
    write(folder, "steps.csv", table(draw, 4, rows))
