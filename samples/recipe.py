#!/usr/bin/env python3
"""Makes the sample tables of this folder. Each table's head says by which rule its numbers are made; this is that rule.

    python3 samples/recipe.py            writes the six tables anew, the same bytes each time
    python3 samples/recipe.py longest    prints the longest survey text that is well formed
"""
import pathlib
import sys

PLACE = pathlib.Path(__file__).resolve().parent
RULE = """\
# Made by samples/recipe.py, not measured. Reading of station i on pass j, to two decimals as the instrument shows it:
#   velocity[i] * fan[j] * (1 + {error} * ((37ii + 59jj + 83ij + 17i + 29j) mod 101 - 50) / 50)
"""


def readings(velocity, fan, error):
    def noise(i, j):
        return ((37 * i * i + 59 * j * j + 83 * i * j + 17 * i + 29 * j) % 101 - 50) / 50
    return [[f"{v * f * (1 + error * noise(i, j)):.2f}" for j, f in enumerate(fan)] for i, v in enumerate(velocity)]


def listed(name, numbers):
    return f"#   {name} = " + " ".join(f"{x:g}" for x in numbers) + "\n"


def write(name, number, title, story, rule, table):
    head = f"# {title}\n# survey {number}\n" + "".join(f"# {line}\n" for line in story)
    head += f"# {len(table)} stations (lines, from 0) x {len(table[0])} passes (columns, from 0), m/s.\n" + rule
    (PLACE / f"{name}.csv").write_text(head + "".join(", ".join(row) + "\n" for row in table))


def leaking_stopping():
    area = [10.2, 9.8, 10.6, 11.1, 10.4, 9.9, 10.3, 10.8, 11.4, 10.1, 9.7, 10.5]
    fan = [1.03, 1.02, 1, 0.99, 0.98, 0.96]
    velocity = [(25 if i < 6 else 18) / a for i, a in enumerate(area)]
    rule = RULE.format(error=0.03) + listed("fan", fan)
    rule += "#   velocity[i] = quantity / area[i], the areas of the line above in m2;\n"
    rule += "#   the quantity is 25 m3/s at stations 0 to 5 and 18 m3/s from station 6 on\n"
    write("leaking-stopping", 101, "A roadway with a leaking stopping",
          ["A stopping between stations 5 and 6 leaks 7 of 25 m3/s; the air does not come back further in.",
           "The fan falls off by some 7 percent over the six passes. The instrument is good to 3 percent.",
           "area " + " ".join(map(str, area))],
          rule, readings(velocity, fan, 0.03))


def dead_air():
    velocity = [1.1, 1.04, 0.92, 0, 0.71, 0.66, 0.58, 0, 0.43, 0.36]
    fan = [0.97, 0.99, 1, 1.02, 1.03]
    table = readings(velocity, fan, 0.04)
    table[7][1] = table[7][3] = "-0.00"
    rule = RULE.format(error=0.04) + listed("fan", fan) + listed("velocity", velocity)
    rule += "#   and at station 7 on passes 1 and 3 the instrument shows -0.00, a breath of backflow\n"
    write("dead-air", 102, "A roadway with two dead-air stations",
          ["Stations 3 and 7 stand in side cuts where no air moves: 0.00 on every pass. The fan picks up by some 6 percent."],
          rule, table)


def bad_reading():
    velocity = [3.1, 3.4, 2.9, 3.6, 3.3, 2.7, 3, 3.2]
    fan = [1.02, 1.01, 1, 0.99, 0.97]
    table = readings(velocity, fan, 0.03)
    table[5][2] = "nan"
    rule = RULE.format(error=0.03) + listed("fan", fan) + listed("velocity", velocity)
    rule += "#   and the reading of station 5 on pass 2 is nan\n"
    write("bad-reading", 103, "A roadway with a reading that failed",
          ["At station 5 on pass 2 the instrument gave no number (nan). The split refuses the table with number 8:",
           "it names station 5 and pass 2 and says that 1 reading is bad."],
          rule, table)
    kept = [i for i in range(8) if i != 5]
    write("bad-reading-left-out", 104, "The same roadway with station 5 left out",
          ["As bad-reading.csv, without station 5. Beware: row 5 is now station 6, and row 6 is station 7.",
           "stations " + " ".join(map(str, kept))],
          "# Made by samples/recipe.py from the table of bad-reading.csv.\n", [table[i] for i in kept])


def fan_off():
    velocity = [1.9, 2.1, 2, 1.7, 1.8, 1.6, 2.2, 1.5]
    fan = [0, 0.98, 1, 1.01, 1.02]
    rule = RULE.format(error=0.03) + listed("fan", fan) + listed("velocity", velocity)
    write("fan-off", 105, "A first pass walked before the fan ran",
          ["Pass 0 reads 0.00 at every station. The split stops at its limit; without pass 0 it settles."],
          rule, readings(velocity, fan, 0.03))


def calm():
    write("calm", 106, "A calm roadway",
          ["Two dead-air stations and nothing else: 0.00 on every pass. No air moved, so there is nothing to split.",
           "The split is quiet: every coupling is zero, and the limit runs out."],
          "# Made by samples/recipe.py, not measured. Every reading is 0.00,\n"
          "#   and at station 1 on passes 1 and 3 the instrument shows -0.00, a breath of backflow\n",
          [["0.00"] * 5, ["0.00", "-0.00"] * 2 + ["0.00"]])


def longest():
    """The longest well-formed survey text, 313,442 bytes: eight surveys of 48 x 48 with ids of five digits."""
    import tables
    surveys = []
    for k in range(8):
        velocity = [1 + (5 * k + 7) * i % 23 / 10 for i in range(48)]
        fan = [0.95 + (3 * j + k) % 11 / 100 for j in range(48)]
        surveys.append(tables.Table(65528 + k))
        for row in readings(velocity, fan, 0.01 * (k + 1)):
            surveys[k].add(row)
    surveys[3].rows[47][47] = float("nan")
    return tables.to_text(surveys, None)


if __name__ == "__main__" and sys.argv[1:] == ["longest"]:
    print(longest(), end="")
elif __name__ == "__main__":
    for make in (leaking_stopping, dead_air, bad_reading, fan_off, calm):
        make()
