"""What the split says of a survey, in numbers and in sentences: word, strengths, profile, drift, what is left over, leak."""
import math

from drawing import number
from library import WORDS, split
from tables import Fault

# The numbers of a split that a survey can come to: a bad reading, a run that did not settle, a value that is not finite.
BAD, NOT_SETTLED, NOT_FINITE = 8, 12, 13
# What is said of a table of zeros, whatever its run's word.
CALM = "Calm: no air moved at any station. There is nothing to split."


def count(many, thing):
    return f"{many} {thing}" + ("" if many == 1 else "es" if thing.endswith("s") else "s")


def mean(numbers):
    return math.fsum(numbers) / len(numbers)


def root_mean_square(numbers):
    return math.sqrt(mean([x * x for x in numbers]))


def rough(x):
    """A number of which only the size matters."""
    return f"{x:.0f}" if x >= 10 else f"{x:.2g}"


def share_words(percent):
    return f"{percent:.2f} %" if percent >= 0.005 or percent == 0 else "< 0.01 %"


class Finding:
    """What the split says of a table. `values` are the strengths, greatest first, none where they are not final;
    `reached` are these or what a run that stopped or is quiet had come to. Where `shown` holds the strongest part s1 u1
    v1' is to be shown: `profile` is s1 u1 times the mean of v1 in m/s, `drift` is v1 against its mean in percent, `rest`
    is what it leaves of the readings. Else `reason` or `remedy` says why not. `quiet` says that this is the run's word,
    `sure` that the readings confirm all that a quiet run had reached, `calm` that every reading is zero."""

    def __init__(self, table):
        self.table, self.rows, self.names = table, table.rows, table.names()
        self.m, self.n = len(self.rows), len(self.rows[0])
        self.unit = max(abs(x) for row in self.rows for x in row)
        self.answer, self.values, matrix, u, v = split(self.rows)
        self.reached, self.reason, self.quantity, self.leak, self.sure = self.values, "", None, None, False
        self.quiet, self.calm = WORDS[self.answer.word] == "quiet", not any(x for row in self.rows for x in row)
        if self.answer.number not in (0, BAD, NOT_SETTLED, NOT_FINITE):
            raise Fault(f"the library refused the call with number {self.answer.number}")
        if self.answer.number == 0:
            self.take(self.values[0], [row[0] for row in u], [row[0] for row in v])
        if self.answer.number == NOT_SETTLED:
            # No list was written. What the run had reached stands on the diagonal, in no order and of either sign.
            reached = sorted(((matrix[k][k], k) for k in range(min(self.m, self.n))), key=lambda x: -abs(x[0]))
            parts = [(s, [row[k] for row in u], [row[k] for row in v]) for s, k in reached]
            self.reached = [] if self.calm else [abs(s) for s, _ in reached]
            self.take(*parts[0])
            # of a quiet run the others may be shown as well where each of them, too, is a part of the readings
            self.sure = self.quiet and not self.reason and all(self.fits(part, parts[0][0]) for part in parts)
        self.refused = self.answer.number in (BAD, NOT_FINITE)
        self.shown = not self.refused and not self.reason

    def take(self, s, u1, v1):
        """The strongest part, or the reason why it is not shown."""
        huge = self.unit > 1e9
        if huge or not all(map(math.isfinite, [s, *u1, *v1])):
            why = "A reading above 1e9 m/s is no air speed" if huge else "What the method reached is no number"
            self.reason = f"{why}, so neither profile nor drift is shown."
            return
        middle = mean(v1)
        # The sign needs no choosing: s u1 mean(v1) is the same for each way to share signs between the three, and
        # where the readings are positive on the whole so is this.
        self.profile = [s * x * middle for x in u1]
        self.rest = [[x - s * a * b for x, b in zip(row, v1)] for row, a in zip(self.rows, u1)]
        self.reason = self.doubt(s, u1, v1)
        if not self.reason and abs(middle) * 10 < max(map(abs, v1)):
            self.reason = "The passes cancel each other out, so there is no mean pass to scale a profile by."
        if not self.reason:
            self.drift = [100 * (x / middle - 1) for x in v1]
            if self.table.area:
                self.quantity = [speed * area for speed, area in zip(self.profile, self.table.area)]
                self.leak = Leak(self) if self.m > 1 else None

    def doubt(self, s, u1, v1):
        # A run that stopped can have found its strongest part all the same: large tables stop over their smallest
        # values. Or its greatest entry is nothing at all: a first pass of zeros leaves one that is off by much. The
        # word does not tell which, but the table does. (s, u1, v1) is a part of it when T v1 = s u1 and T' u1 = s v1,
        # and then no other part is stronger if all that is left over together is smaller than s. After a run that
        # stopped or is quiet it is shown only when both hold. After settling the first is asked as well, as a check; the
        # list has the order.
        unsettled, size = self.answer.number == NOT_SETTLED, s / (self.unit or 1)
        if s == 0:
            return CALM if self.calm else "Every number it had reached is zero, so there is no profile to show."
        first, name = ([row[0] for row in self.rows], "pass") if self.n <= self.m else (self.rows[0], "station")
        zeros = unsettled and not any(first)
        advice = f" The first {name} reads zero throughout: leave it out and split again." if zeros else ""
        if not self.fits((s, u1, v1), s):
            miss = self.miss(s, u1, v1)
            by = f"{rough(100 * miss / abs(size))} %" if miss < 10 * abs(size) else "more than 1000 %"
            return (f"The greatest number it had reached, {number(abs(s), 3)}, does not fit the readings: it misses by {by}. "
                    f"So neither profile nor drift is shown.{advice}")
        if unsettled and not math.hypot(*(x / self.unit for row in self.rest for x in row)) < abs(size):
            return f"What the strongest part leaves over may hold a stronger one, so no profile is shown.{advice}"
        return ""

    def miss(self, s, u, v):
        """The length of (T v - s u, T' u - s v), T being the readings: next to 0 where (s, u, v) is a part of them. They are
        measured by the greatest of them, so that the squares of tiny ones do not vanish."""
        rows, size = [[x / self.unit for x in row] for row in self.rows], s / self.unit
        off = [math.fsum(x * b for x, b in zip(row, v)) - size * a for row, a in zip(rows, u)]
        off += [math.fsum(x * a for x, a in zip(column, u)) - size * b for column, b in zip(zip(*rows), v)]
        return math.hypot(*off)

    def fits(self, part, strongest):
        """Whether a part is one of the readings, measured by the strongest."""
        return self.miss(*part) <= 1e-10 * abs(strongest / self.unit)

    def verdict(self):
        """The answer in a surveyor's words. `Passes` are his walks, so what the method makes is told as turns."""
        if self.answer.number == BAD:
            station, column, bad = self.names[self.answer.row], self.answer.column, self.answer.bad
            more = f", and {bad - 1} more" if bad > 1 else ""
            return (f"Station {station}, pass {column}: no usable reading{more}. Refused, number 8: {bad} of "
                    f"{count(self.m * self.n, 'reading')} {'is' if bad == 1 else 'are'} infinite or no number.")
        if self.answer.number == NOT_FINITE:
            return ("Refused, number 13: a value is not finite. "
                    f"The largest reading, that of {self.culprit()}, is too large.")
        if self.answer.number == NOT_SETTLED and self.quiet:
            return CALM if self.calm else "Quiet: nothing is left to work out, but the values are not final."
        if self.answer.number == NOT_SETTLED:
            return ("The run stopped: values are not final. The method ran out of turns before it was done "
                    f"({count(self.answer.passes, 'turn')}).")
        return "Settled: the split is final."

    def still(self):
        """Why a run is quiet and not settled."""
        return (f"After {count(self.answer.passes, 'turn')} every coupling that is left is zero: the run is quiet. The "
                "method\u2019s own test does not call it settled: beside zeros its bound is zero, too, and zero is not "
                "below it.")

    def unfinished(self):
        """The sentences for a run that did not settle."""
        if self.calm:
            return [self.still()]
        said = [self.reason or self.confirmed(), self.strengths()]
        return [self.still()] + said + self.idle() if self.quiet else said

    def idle(self):
        """What to do with stations and passes that read zero throughout, where there are some."""
        found = [(sum(not any(line) for line in lines), thing) for lines, thing in
                 ((self.rows, "station"), (zip(*self.rows), "pass"))]
        read, them = ("reads", "it") if sum(many for many, _ in found) == 1 else ("read", "them")
        words = " and ".join(count(many, thing) for many, thing in found if many)
        return [f"{words} {read} zero throughout: leave {them} out and split again."] if words else []

    def culprit(self):
        """The station and pass of the reading that a refusal is about: the first bad one, or else the largest."""
        if self.answer.number == BAD:
            i, j = self.answer.row, self.answer.column
        else:
            every = ((i, j) for i in range(self.m) for j in range(self.n))
            i, j = max(every, key=lambda at: abs(self.rows[at[0]][at[1]]))
        return f"station {self.names[i]} on pass {j}"

    def remedy(self):
        """What to do about a refusal."""
        what = "Nothing was split." if self.answer.number == BAD else "There is no split to show."
        which, left = self.culprit(), "the station or the pass"
        if self.answer.bad > 1:
            which, left = f"{which} and the {count(self.answer.bad - 1, 'other')}", "their stations or passes"
        return f"{what} Read {which} again, or leave {left} out."

    def confirmed(self):
        """Why a run that did not settle is shown."""
        how = "as it stands" if self.quiet else "all the same"
        return (f"The strongest part is shown {how}, because the readings T confirm it: T v1 = s1 u1 and "
                "T\u2032 u1 = s1 v1, and all that is left over together is weaker.")

    def shares(self):
        """The share of each strength, in percent: its square over the sum of the squares of all, which is that of the
        readings too. None where that sum is no number above zero."""
        whole = math.hypot(*self.values)
        return [100 * (s / whole) ** 2 for s in self.values] if 0 < whole < math.inf else []

    def listed(self):
        """The first ten strengths, each with its share, as words."""
        shares = [share_words(share) for share in self.shares()] or [""] * len(self.values)
        return [(number(s, 3), share) for s, share in zip(self.values, shares)][:10]

    def strengths(self):
        """A sentence with the strengths. Of a run that did not settle they are not known."""
        more = f" and {len(self.reached) - 10} smaller" if len(self.reached) > 10 else ""
        if self.values:
            listed = ", ".join(f"{s} ({share})" if share else s for s, share in self.listed())
            return f"Strengths, greatest first, each with its share of the readings\u2019 sum of squares: {listed}{more}."
        which = ("not to be read as strengths" if self.reason else "each confirmed by the readings, but not final" if self.sure
                 else "only the first is known to be a strength")
        listed = ", ".join(number(s, 3) for s in self.reached[:10])
        return f"The numbers it had reached, greatest first, {which}: {listed}{more}."

    def left_over(self):
        """The largest that the strongest part leaves, where it is, and the root mean square."""
        most, i, j = max((abs(x), -i, -j) for i, row in enumerate(self.rest) for j, x in enumerate(row))
        whole = root_mean_square([x for row in self.rest for x in row])
        where = f" (station {self.names[-i]}, pass {-j})" if most >= 0.005 else ""
        return f"Left over: {number(most, 2)} m/s at most{where}, {number(whole, 3)} m/s root mean square."

    def rows_note(self):
        """Which row is which station and pass."""
        moved = next((i for i, name in enumerate(self.names) if name != str(i)), None)
        if moved is None:
            return "Stations and passes count from 0: station i is row i of the table and of U, pass j is row j of V."
        return (f"Stations and passes count from 0: pass j is row j of V. From row {moved} on, row and station differ "
                f"(row {moved} of U is station {self.names[moved]}).")


class Leak:
    """Where the air is lost. Quantity is air speed times cross-section; the speed alone falls in every wide place. The
    stations are divided where the mean quantity falls most from the ones before to the ones behind. The fall is marked
    where it is more than TIMES times what the readings stray from just these two quantities with the fan's drift (root
    mean square, and at least a step of the instrument), and from as many as READINGS readings on: fewer do not tell a
    leak from a misread dial."""
    TIMES, READINGS = 5, 8

    def __init__(self, found):
        quantity, area, self.names = found.quantity, found.table.area, found.names
        self.after = max(range(1, found.m), key=lambda k: mean(quantity[:k]) - mean(quantity[k:]))
        self.means = mean(quantity[:self.after]), mean(quantity[self.after:])
        self.fall = self.means[0] - self.means[1]
        level = [self.means[i >= self.after] for i in range(found.m)]
        stray = [x * a - q * (1 + d / 100) for row, a, q in zip(found.rows, area, level) for x, d in zip(row, found.drift)]
        self.times = self.fall / max(root_mean_square(stray), found.table.step() * mean(area))
        self.enough = len(stray) >= self.READINGS
        self.marked = self.enough and self.means[0] > 0 and self.times > self.TIMES

    def where(self):
        return f"between stations {self.names[self.after - 1]} and {self.names[self.after]}"

    def words(self):
        """What is lost, and its share of the quantity before; none where the air comes from both sides."""
        share = f" ({rough(100 * self.fall / self.means[0])} %)" if self.means[1] >= 0 else ""
        return f"{number(self.fall, 1)} m3/s{share} lost {self.where()}"

    def sides(self):
        """The two mean quantities, each with its stations."""
        def at(names): return f"station {names[0]}" if len(names) == 1 else f"stations {names[0]} to {names[-1]}"
        return [f"{number(q, 1)} m3/s ({at(names)})"
                for q, names in zip(self.means, (self.names[:self.after], self.names[self.after:]))]

    def sentence(self):
        if not self.enough:
            return f"No leak is marked: fewer than {self.READINGS} readings do not tell one from a misread dial."
        if min(self.fall, self.means[0]) <= 0:
            return "No leak is marked: the mean quantity (profile times area) falls nowhere from above zero."
        before, behind = self.sides()
        stray = "times what the readings stray from these two quantities (root mean square)"
        if not self.marked:
            return (f"No leak is marked. The mean quantity (profile times area) falls most {self.where()}, from {before} to "
                    f"{behind}, but only by {rough(self.times)} {stray}; a leak is marked above {self.TIMES} times.")
        return (f"Leak: {self.words()}. The mean quantity (profile times area) falls from {before} to {behind}, more than "
                f"for any other place to divide the stations. That is {rough(self.times)} {stray}; a leak is marked above "
                f"{self.TIMES} times.")
