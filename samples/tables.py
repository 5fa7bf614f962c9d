"""Tables of decimal readings and survey text: read, checked and written."""
import re
import struct


class Fault(Exception):
    """What is wrong with the input, in words for whoever typed the command."""


class Table:
    """A survey: its readings by station, and what its head says of them."""

    def __init__(self, number=None):
        self.title, self.number, self.stations, self.area, self.rows, self.places = "", number, None, None, [], 0

    def names(self):
        return self.stations or [str(i) for i in range(len(self.rows))]

    def add(self, words):
        """A station's readings. The finest decimal place written is kept: it is how finely the instrument reads."""
        self.rows.append([float(word) for word in words])
        self.places = min(17, max([self.places] + [places(word) for word in words]))

    def step(self):
        return 10.0 ** -self.places


def places(word):
    """To how many decimal places a number is written."""
    digits, _, power = word.lower().partition("e")
    return len(digits.partition(".")[2]) - int(power or 0)


def areas(line):
    """The numbers of a line `# area ..`, or none where it is a comment that only begins like one."""
    if not re.match(r"# area +[-+.\d]", line):
        return None
    found = [float(word) for word in line.split()[2:]]
    if not all(0 < x < 1e4 for x in found):
        raise ValueError("an area is above 0 and below 10000 m2")
    return found


def read_tables(path):
    tables = [Table()]
    for at, line in enumerate(path.read_text("utf-8").splitlines(), 1):
        table = tables[-1]
        try:
            if found := re.fullmatch(r"# survey (\d+)", line):
                if table.rows:
                    tables.append(table := Table())
                table.number = int(found[1])
            elif re.fullmatch(r"# stations( \d+)+", line):
                table.stations = line.split()[2:]
            elif found := areas(line):
                table.area = found
            elif line.startswith("#"):
                table.title = table.title or line[1:].strip()
            elif line.strip():
                table.add([word.strip() for word in (line.split(",") if "," in line else line.split())])
        except ValueError as error:
            hint = "" if line.startswith("#") else "; a reading that failed is written nan"
            raise Fault(f"{path}, line {at}: {error}{hint}") from None
    for table in tables:
        checked(path, table)
    return tables


def checked(path, table):
    widths = {len(row) for row in table.rows}
    if len(widths) != 1:
        raise Fault(f"{path}: no readings, or lines of different lengths ({sorted(widths)})")
    if not (len(table.rows) <= 48 and widths.pop() <= 48):
        raise Fault(f"{path}: more than 48 stations or passes")
    for given, what in ((table.stations, "station numbers"), (table.area, "areas")):
        if given and len(given) != len(table.rows):
            raise Fault(f"{path}: {len(given)} {what} for {len(table.rows)} rows")


def to_text(tables, first):
    ids = [first + i if first else table.number or i + 1 for i, table in enumerate(tables)]
    if len(tables) > 8 or len(set(ids)) < len(ids) or not all(1 <= i <= 65535 for i in ids):
        raise Fault(f"a survey text has 1 to 8 surveys with ids from 1 to 65535, all different; here {ids}")
    lines = [str(len(tables))] + [f"{i} {len(t.rows)} {len(t.rows[0])}" for i, t in zip(ids, tables)]
    lines += [" ".join(struct.pack(">d", x).hex().upper() for x in row) for t in tables for row in t.rows]
    return "".join(line + "\n" for line in lines)


def from_text(path):
    """The tables of a survey text. Which texts are well formed is for `split` to say: it refuses the others with 9."""
    lines = iter(path.read_text("utf-8").splitlines())
    tables = []
    try:
        heads = [[int(word) for word in next(lines).split(" ")] for _ in range(int(next(lines)))]
        for number, rows, columns in heads:
            tables.append(Table(number))
            if not (1 <= rows <= 48 and 1 <= columns <= 48):
                raise ValueError
            for _ in range(rows):
                words = next(lines).split(" ")
                if len(words) != columns or not all(re.fullmatch("[0-9A-F]{16}", word) for word in words):
                    raise ValueError
                tables[-1].add([repr(struct.unpack(">d", bytes.fromhex(word))[0]).removesuffix(".0") for word in words])
        if next(lines, None) is not None or not 1 <= len(tables) <= 8:
            raise ValueError
    except (ValueError, StopIteration):
        raise Fault(f"{path} is no survey text; the program `split` names the first malformed line") from None
    return tables


def to_decimals(tables):
    return "\n".join(f"# survey {t.number}\n" + "".join(", ".join(map(repr, row)) + "\n" for row in t.rows) for t in tables)


def read(path):
    """The tables of a file, by its ending: survey text is .txt."""
    return from_text(path) if path.suffix == ".txt" else read_tables(path)
