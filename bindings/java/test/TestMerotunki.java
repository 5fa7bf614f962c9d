// TestMerotunki.java: the classes on known tables, every refusal that they can give, and many calls.
// Prints each check that fails, then `N checks passed`; status 1 where one failed. The last check wants a heap of fixed
// size that is touched at the start, so that Java's own does not grow: -Xms64m -Xmx64m -XX:+AlwaysPreTouch

import java.lang.reflect.Constructor;
import java.lang.reflect.Method;
import java.util.Arrays;
import java.util.concurrent.CyclicBarrier;
import java.util.concurrent.ExecutorService;
import java.util.concurrent.Executors;
import java.util.concurrent.Future;
import java.util.stream.IntStream;
import merotunki.FullSplit;
import merotunki.Instrument;
import merotunki.Merotunki;
import merotunki.OrderedSplit;
import merotunki.Refusal;
import merotunki.Report;
import merotunki.Settings;
import merotunki.Split;

class TestMerotunki extends Checks {
    static final Settings PLAIN = Settings.DEFAULT;

    static void refusedByEach(double[] readings, int stations, int passes, int number, String what) throws Exception {
        refusedByEach(readings, stations, passes, number, 0, 0, 0, what);
    }

    // the refusal of the plain call, or null where it was not refused
    static Refusal refusedByEach(double[] readings, int stations, int passes, int number, int station, int pass,
            int bad, String what) throws Exception {
        double[] were = readings.clone();
        Refusal refusal =
                refused(() -> Merotunki.split(readings, stations, passes, PLAIN), number, station, pass, bad, what);
        refused(() -> Merotunki.splitFull(readings, stations, passes, PLAIN), number, station, pass, bad,
                what + ", full");
        refused(() -> Merotunki.splitInOrder(readings, stations, passes, PLAIN), number, station, pass, bad,
                what + ", in order");
        for (Instrument i : Instrument.values()) {
            String by = what + ", " + i;
            refused(() -> Merotunki.split(readings, stations, passes, i), number, station, pass, bad, by);
            refused(() -> Merotunki.splitFull(readings, stations, passes, i), number, station, pass, bad,
                    by + ", full");
            refused(() -> Merotunki.splitInOrder(readings, stations, passes, i), number, station, pass, bad,
                    by + ", in order");
        }
        same(readings, were, what + " changes nothing");
        return refusal;
    }

    // a table with bad readings of all kinds at these indices, the first of them at that station and pass, is refused
    // with this text
    static void badReadings(int stations, int passes, int station, int pass, String text, int... at) throws Exception {
        double[] readings = drawn(4, stations * passes);
        double[] kinds = {Double.NaN, Double.POSITIVE_INFINITY, Double.NEGATIVE_INFINITY};
        for (int kind = 0; kind < 3; kind++) {
            for (int i = 0; i < at.length; i++) {
                readings[at[i]] = kinds[(kind + i) % 3];
            }
            String what = kinds[kind] + " in " + stations + " x " + passes;
            Refusal said =
                    refusedByEach(readings, stations, passes, Refusal.READING, station, pass, at.length, what);
            check(said != null && said.getMessage().equals(text), what + ": " + text + " is said, not " + said);
        }
    }

    static void knownTables() throws Exception {
        double[] readings = {3.0, 4.0};
        Split split = Merotunki.split(readings, 2, 1, PLAIN);
        reported(split.report, "settled, passes 0", 0, 0, 1, 0);
        same(split.matrix(), new double[] {-5.0, 0.0}, "2 x 1");
        same(split.values(), new double[] {-5.0}, "the value of 2 x 1");
        check(split.stations == 2 && split.passes == 1, "the sizes of 2 x 1");
        same(readings, new double[] {3.0, 4.0}, "the readings stay");

        FullSplit full = Merotunki.splitFull(new double[] {2.0, 0.0, 0.0, 1.0}, 2, 2, PLAIN);
        reported(full.report, "settled, passes 1", 0, 1, 1, 0);
        same(full.matrix(), new double[] {-2.0, 0.0, 0.0, 1.0}, "2 x 2");
        same(full.u(), new double[] {-1.0, 0.0, 0.0, 1.0}, "U of 2 x 2");
        same(full.v(), new double[] {1.0, 0.0, 0.0, 1.0}, "V of 2 x 2");

        split = Merotunki.split(new double[] {0.0, 1.0, 0.0, 1.0}, 2, 2, PLAIN);
        reported(split.report, "stopped, passes 100, range left 2", 100, 0, 2, 200);
        split = Merotunki.split(new double[4], 2, 2, PLAIN.withLimit(3));
        reported(split.report, "quiet, passes 3, range left 2", 3, 0, 2, 6);

        double[] example = {1.2, 1.4, 1.1, 2.4, 2.5, 2.9, 1.9, 2.6, 1.8, 0.7, 0.9, 1.3};
        double[] were = example.clone();
        full = Merotunki.splitFull(example, 4, 3, PLAIN);
        check(full.report.toString().equals("settled, passes 6"), "the example settles in 6 passes");
        near(full.values(), new double[] {6.407820, -0.224449, -0.720736}, "the example's values");
        near(full.station(0), new double[] {-0.333657, 0.321066, -0.254730, 0.848942}, "the example's station 0");
        same(example, were, "the example's readings stay");
        same(full.matrix(), Merotunki.split(example, 4, 3, PLAIN).matrix(), "with and without U and V");
        rowsAndColumns(full);
        FullSplit whole = full;
        Class<IndexOutOfBoundsException> outside = IndexOutOfBoundsException.class;
        thrown(outside, "There is no 4 among 0 to 3.", () -> whole.station(4), "station 4 of 4");
        thrown(outside, "There is no -1 among 0 to 2.", () -> whole.pass(-1), "pass -1");
        thrown(outside, "There is no 3 among 0 to 2.", () -> whole.overPasses(3), "column 3 of 3");
        thrown(outside, "There is no 4 among 0 to 3.", () -> whole.overStations(4), "column 4 of 4");

        full.matrix()[0] = full.u()[0] = full.v()[0] = full.values()[0] = 7.0;
        check(full.matrix()[0] != 7.0 && full.u()[0] != 7.0 && full.v()[0] != 7.0, "a split cannot be changed");
    }

    static void ended(double[] readings, int stations, int passes, Settings settings, String text, int sweeps, int drops,
            int range, int rotations) throws Exception {
        Report plain = Merotunki.split(readings, stations, passes, settings).report;
        Report full = Merotunki.splitFull(readings, stations, passes, settings).report;
        reported(plain, text, sweeps, drops, range, rotations);
        reported(full, text, sweeps, drops, range, rotations);
    }

    // Where the limit runs out: quiet where every coupling of the live corner is +0 or -0, else stopped.
    static void quietOrStopped() throws Exception {
        Settings none = PLAIN.withLimit(0);
        // zeros, of either sign, in either form: a calm roadway
        ended(new double[4], 2, 2, none, "quiet, passes 0, range left 2", 0, 0, 2, 0);
        ended(new double[] {-0.0, -0.0, -0.0, -0.0}, 2, 2, none, "quiet, passes 0, range left 2", 0, 0, 2, 0);
        ended(new double[10], 2, 5, PLAIN, "quiet, passes 100, range left 2", 100, 0, 2, 200);
        // not final: the same table settles at limit 1
        double[] apart = {2.0, 0.0, 0.0, 1.0};
        ended(apart, 2, 2, none, "quiet, passes 0, range left 2", 0, 0, 2, 0);
        ended(apart, 2, 2, PLAIN.withLimit(1), "settled, passes 1", 0, 1, 1, 0);
        // one coupling that is not 0, and be it as small as can be
        double[] first = {1.0, 2.0, 0.0, 0.0, 3.0, 0.0, 0.0, 0.0, 4.0};
        double[] last = {1.0, 0.0, 0.0, 0.0, 2.0, 3.0, 0.0, 0.0, 4.0};
        ended(first, 3, 3, none, "stopped, passes 0, range left 3", 0, 0, 3, 0);
        ended(last, 3, 3, none, "stopped, passes 0, range left 3", 0, 0, 3, 0);
        double least = Double.MIN_VALUE;
        ended(new double[] {1.0, least, 0.0, 1.0}, 2, 2, none, "stopped, passes 0, range left 2", 0, 0, 2, 0);
        ended(new double[] {1.0, 0.0, 0.0, least, 1.0, 0.0}, 2, 3, none, "stopped, passes 0, range left 2", 0, 0, 2, 0);
        // NaN is not 0
        double[] large = {1e160, 1e160, 0.0, 1e160};
        ended(large, 2, 2, PLAIN, "stopped, passes 100, range left 2", 100, 0, 2, 200);
        // behind the corner nothing is asked
        double[] behind = {1.0, 0.0, 0.0, 0.0, 2.0, 1e-13, 0.0, 0.0, 4.0};
        ended(behind, 3, 3, PLAIN.withLimit(1).withCredit(0), "quiet, passes 1, range left 2", 0, 1, 2, 0);
    }

    // From one limit to the next, with the credit 0, the run makes one pass more, until it settles: a sweep over range
    // r adds 2 x (r - 1) rotations, a drop none.
    static void passByPass(double[] readings, int stations, int passes) throws Exception {
        String what = "rotations pass by pass, " + stations + " x " + passes;
        Report last = Merotunki.split(readings, stations, passes, PLAIN.withCredit(0).withLimit(0)).report;
        check(last.rotations == 0 && last.passes == 0, what);
        for (int limit = 1; last.word != Report.Word.SETTLED && limit < 100; limit++) {
            Settings settings = PLAIN.withCredit(0).withLimit(limit);
            Report next = Merotunki.split(readings, stations, passes, settings).report;
            int more = next.sweeps > last.sweeps ? 2 * (last.range - 1) : 0;
            check(next.passes == limit && next.rotations == last.rotations + more, what + " at limit " + limit);
            check(Merotunki.splitFull(readings, stations, passes, settings).report.rotations == next.rotations,
                    what + " with U and V at limit " + limit);
            last = next;
        }
        check(last.word == Report.Word.SETTLED && last.rotations > 0, what + ": it settles");
        check(Merotunki.splitInOrder(readings, stations, passes, PLAIN).report.rotations == last.rotations,
                what + " in order");
    }

    static void rotations() throws Exception {
        int[][] shapes = {{2, 2}, {5, 3}, {3, 5}, {8, 8}};
        for (int i = 0; i < shapes.length; i++) {
            passByPass(drawn(i, shapes[i][0] * shapes[i][1]), shapes[i][0], shapes[i][1]);
        }
        // zeros never drop: every sweep is over the whole diagonal; one value is never swept
        for (int c = 1; c <= Merotunki.MOST; c++) {
            Report r = Merotunki.split(new double[c * c], c, c, PLAIN.withLimit(7)).report;
            check(r.rotations == 2 * (c - 1) * 7, "rotations of " + c + " x " + c + " zeros, not " + r.rotations);
        }
        Settings most = PLAIN.withLimit(100000).withCredit(1000);
        int many = Merotunki.split(new double[9], 3, 3, most).report.rotations;
        check(many == 400000, "400000 rotations of zeros at the greatest limit, not " + many);
    }

    static void rowsAndColumns(FullSplit s) {
        double[] u = s.u();
        double[] v = s.v();
        boolean good = true;
        for (int i = 0; i < s.stations; i++) {
            for (int k = 0; k < s.stations; k++) {
                good &= s.station(i)[k] == u[i * s.stations + k] && s.overStations(k)[i] == u[i * s.stations + k];
            }
        }
        for (int j = 0; j < s.passes; j++) {
            for (int k = 0; k < s.passes; k++) {
                good &= s.pass(j)[k] == v[j * s.passes + k] && s.overPasses(k)[j] == v[j * s.passes + k];
            }
        }
        check(good, "rows and columns of U and V");
    }

    // sizes, passes of the walk, their rotations by the rule (2 x (r - 1) for a sweep over range r), and a sum over the
    // bits of table, U and V; passes and sum as the original method gives them
    static final long[][] ANSWERS = {
        {1, 1, 0, 0, 0x3159F754ACA15057L}, {1, 7, 0, 0, 0x014C4C0133E42B9DL}, {7, 1, 0, 0, 0x881D90FA72676BACL},
        {2, 2, 2, 2, 0xA0D61E8BEA8827CCL}, {3, 5, 5, 10, 0xD8E8EA386B72070BL}, {5, 3, 8, 22, 0x959C80C81842B9B5L},
        {8, 8, 21, 142, 0x010B05660EF4375EL}, {16, 48, 46, 552, 0xF251AC3E5A1E9DE9L},
        {48, 17, 52, 710, 0x3AC4289425D94029L}, {48, 48, 128, 4312, 0xE5CEE60EB3644596L}};

    static void toTheBit() throws Exception {
        for (int i = 0; i < ANSWERS.length; i++) {
            int stations = (int) ANSWERS[i][0];
            int passes = (int) ANSWERS[i][1];
            FullSplit s = Merotunki.splitFull(drawn(i, stations * passes), stations, passes, PLAIN);
            long sum = 0xCBF29CE484222325L;
            for (double[] part : new double[][] {s.matrix(), s.u(), s.v()}) {
                for (double x : part) {
                    sum = (sum ^ Double.doubleToRawLongBits(x)) * 0x100000001B3L;
                }
            }
            String what = stations + " x " + passes;
            check(s.report.passes == ANSWERS[i][2] && sum == ANSWERS[i][4], "each bit of " + what);
            check(s.report.rotations == ANSWERS[i][3], "rotations of " + what + ", not " + s.report.rotations);
        }
    }

    // What stood at position i of the diagonal goes to k, the number of positions that come before i: those of a larger
    // magnitude, and of an equal one the lower. U's column is negated where the sign bit was set.
    static void putInOrder(double[] readings, int stations, int passes, String what) throws Exception {
        FullSplit run = Merotunki.splitFull(readings, stations, passes, PLAIN);
        OrderedSplit split = Merotunki.splitInOrder(readings, stations, passes, PLAIN);
        double[] diagonal = run.values();
        double[] values = new double[diagonal.length];
        double[] u = run.u();
        double[] v = run.v();
        for (int i = 0; i < diagonal.length; i++) {
            int k = 0;
            for (int j = 0; j < diagonal.length; j++) {
                double here = Math.abs(diagonal[i]);
                double there = Math.abs(diagonal[j]);
                k += there > here || (there == here && j < i) ? 1 : 0;
            }
            boolean negative = Double.doubleToRawLongBits(diagonal[i]) < 0;
            values[k] = Math.abs(diagonal[i]);
            for (int row = 0; row < stations; row++) {
                u[row * stations + k] = negative ? -run.u()[row * stations + i] : run.u()[row * stations + i];
            }
            for (int row = 0; row < passes; row++) {
                v[row * passes + k] = run.v()[row * passes + i];
            }
        }
        same(split.values(), values, "the values in order, " + what);
        same(split.u(), u, "U in order, " + what);
        same(split.v(), v, "V in order, " + what);
        same(split.matrix(), run.matrix(), "the matrix is the run's, " + what);
        Report r = run.report;
        reported(split.report, r.toString(), r.sweeps, r.drops, r.range, r.rotations);
    }

    static void ranAndRefused(double[] readings, int stations, int passes, Settings settings, int number, String text)
            throws Exception {
        String what = stations + " x " + passes + " in order";
        double[] were = readings.clone();
        Refusal refusal =
                refused(() -> Merotunki.splitInOrder(readings, stations, passes, settings), number, what);
        same(readings, were, "the readings stay, " + what);
        if (refusal == null || refusal.run == null) {
            return; // that has failed already
        }
        FullSplit wanted = Merotunki.splitFull(readings, stations, passes, settings);
        Report r = wanted.report;
        reported(refusal.run.report, text, r.sweeps, r.drops, r.range, r.rotations);
        same(refusal.run.matrix(), wanted.matrix(), "the run's matrix, " + what);
        same(refusal.run.u(), wanted.u(), "the run's U, " + what);
        same(refusal.run.v(), wanted.v(), "the run's V, " + what);
    }

    static void inOrder() throws Exception {
        OrderedSplit split = Merotunki.splitInOrder(new double[] {1.0, 0.0, 0.0, 2.0}, 2, 2, PLAIN);
        same(split.values(), new double[] {2.0, 1.0}, "the diagonal -1, 2 in order");
        near(split.matrix(), new double[] {-1.0, 0.0, 0.0, 2.0}, "the matrix of -1, 2");
        near(split.u(), new double[] {0.0, 1.0, 1.0, 0.0}, "U of -1, 2 in order");
        near(split.v(), new double[] {0.0, 1.0, 1.0, 0.0}, "V of -1, 2 in order");
        split.values()[0] = 7.0;
        check(split.values()[0] == 2.0, "a split in order cannot be changed");
        for (int i = 0; i < ANSWERS.length; i++) {
            int stations = (int) ANSWERS[i][0];
            int passes = (int) ANSWERS[i][1];
            putInOrder(drawn(i, stations * passes), stations, passes, stations + " x " + passes);
        }
        putInOrder(new double[] {-0.0, 0.0, 0.0, 3.0}, 2, 2, "-0 and 3");
        putInOrder(new double[] {1.0, 0.0, 0.0, 1.0}, 2, 2, "two equal ones");
        double most = Double.MAX_VALUE;
        int unsettled = Refusal.NOT_SETTLED;
        double[] noFirst = {0.0, 1.0, 0.0, 1.0};
        ranAndRefused(noFirst, 2, 2, PLAIN.withLimit(3), unsettled, "stopped, passes 3, range left 2");
        ranAndRefused(new double[4], 2, 2, PLAIN.withLimit(3), unsettled, "quiet, passes 3, range left 2");
        ranAndRefused(new double[6], 2, 3, PLAIN.withLimit(3), unsettled, "quiet, passes 3, range left 2");
        Refusal said = refused(() -> Merotunki.splitInOrder(noFirst, 2, 2, PLAIN), unsettled, "12");
        check(said != null && said.getMessage().equals("The run did not settle: its values are not final."), "12's text");
        ranAndRefused(new double[] {most, most}, 1, 2, PLAIN, Refusal.VALUE, "settled, passes 0");
        ranAndRefused(new double[] {most, most}, 2, 1, PLAIN, Refusal.VALUE, "settled, passes 0");
    }

    static void refusals() throws Exception {
        double[] twelve = drawn(1, 12);
        refusedByEach(new double[0], 0, 3, 1, "no stations");
        refusedByEach(twelve, 4, 0, 1, "no passes");
        refusedByEach(twelve, 0, 49, 1, "no stations and 49 passes");
        refusedByEach(drawn(2, 147), 49, 3, 2, "49 stations");
        refusedByEach(drawn(2, 147), 3, 49, 2, "49 passes");
        refusedByEach(twelve, -4, 3, 2, "-4 stations");
        refusedByEach(twelve, 4, -3, 2, "-3 passes");
        refusedByEach(twelve, -4, -3, 2, "-4 stations and -3 passes");
        refusedByEach(twelve, Integer.MIN_VALUE, Integer.MAX_VALUE, 2, "the smallest and the largest int");
        refusedByEach(twelve, 46341, 46341, 2, "sizes whose square is no int");
        refusedByEach(drawn(3, 11), 4, 3, 3, "11 readings for 4 x 3");
        refusedByEach(drawn(3, 13), 4, 3, 3, "13 readings for 4 x 3");
        refusedByEach(new double[0], 4, 3, 3, "no readings for 4 x 3");
        double[] odd = twelve.clone();
        odd[5] = odd[7] = Double.NaN; // told with 8 alone
        refusedByEach(odd, 12, 0, 1, "no passes, and bad readings");
        refusedByEach(odd, 49, 3, 2, "49 stations, and bad readings");
        refusedByEach(odd, 4, 4, 3, "12 readings for 4 x 4, and bad ones");
        badReadings(4, 3, 1, 2, "Station 1, pass 2: no usable reading.", 5);
        badReadings(2, 6, 0, 5, "Station 0, pass 5: no usable reading.", 5);
        badReadings(4, 3, 3, 2, "Station 3, pass 2: no usable reading.", 11);
        badReadings(4, 3, 2, 1, "Station 2, pass 1: no usable reading, and 1 more.", 7, 11);
        badReadings(3, 4, 1, 3, "Station 1, pass 3: no usable reading, and 3 more.", 7, 8, 9, 10);
        badReadings(48, 48, 47, 47, "Station 47, pass 47: no usable reading.", 2303);
        badReadings(48, 48, 0, 0, "Station 0, pass 0: no usable reading, and 2303 more.",
                IntStream.range(0, 2304).toArray());
        thrown(NullPointerException.class, "readings", () -> Merotunki.split(null, 4, 3, PLAIN), "no array");
        thrown(NullPointerException.class, "readings", () -> Merotunki.splitFull(null, 4, 3, PLAIN), "no array, full");
        thrown(NullPointerException.class, "readings", () -> Merotunki.splitInOrder(null, 4, 3, PLAIN), "none, order");
        Settings none = null;
        thrown(NullPointerException.class, "settings", () -> Merotunki.split(twelve, 4, 3, none), "no settings");
        thrown(NullPointerException.class, "settings", () -> Merotunki.splitFull(twelve, 4, 3, none), "none, full");
        thrown(NullPointerException.class, "settings", () -> Merotunki.splitInOrder(twelve, 4, 3, none), "none, order");
        Class<NullPointerException> no = NullPointerException.class;
        Instrument bare = null;
        thrown(no, "instrument", () -> Merotunki.split(twelve, 4, 3, bare), "no instrument");
        thrown(no, "instrument", () -> Merotunki.splitFull(twelve, 4, 3, bare), "no instrument, full");
        thrown(no, "instrument", () -> Merotunki.splitInOrder(twelve, 4, 3, bare), "no instrument, order");
        thrown(no, "readings", () -> Merotunki.split(null, 4, 3, Instrument.VANE), "no array by instrument");
    }

    static void settings() throws Exception {
        check(PLAIN.limit == 100 && PLAIN.credit == 50 && PLAIN.tolerance == 1e-10 && PLAIN.absolute == 1e-12
                && PLAIN.floor == 1e-21, "the defaults");
        for (int bad : new int[] {100001, -1, Integer.MAX_VALUE, Integer.MIN_VALUE}) {
            refused(() -> PLAIN.withLimit(bad), 6, "limit " + bad);
        }
        for (int bad : new int[] {1001, -1, Integer.MAX_VALUE, Integer.MIN_VALUE}) {
            refused(() -> PLAIN.withCredit(bad), 6, "credit " + bad);
        }
        for (double bad : new double[] {-Double.MIN_VALUE, -1.0, 1 / 0.0, -1 / 0.0, Double.NaN}) {
            refused(() -> PLAIN.withTolerance(bad), 7, "tolerance " + bad);
            refused(() -> PLAIN.withAbsolute(bad), 7, "absolute " + bad);
            refused(() -> PLAIN.withFloor(bad), 7, "floor " + bad);
        }
        refused(() -> PLAIN.withFloor(0.0), 7, "floor 0");
        refused(() -> PLAIN.withFloor(-0.0), 7, "floor -0");
        Settings s = PLAIN.withLimit(100000).withCredit(1000).withTolerance(-0.0).withAbsolute(Double.MAX_VALUE)
                .withFloor(Double.MIN_VALUE);
        check(s.limit == 100000 && s.credit == 1000 && s.tolerance == 0.0 && s.absolute == Double.MAX_VALUE
                && s.floor == Double.MIN_VALUE, "the bounds are allowed");
    }

    static void areSettings(Settings s, int limit, int credit, double tolerance, double absolute, String what) {
        check(s.limit == limit && s.credit == credit, "limit and credit of " + what);
        same(new double[] {s.tolerance, s.absolute, s.floor}, new double[] {tolerance, absolute, 1e-21},
                "the bounds of " + what);
    }

    static void sameReport(Report a, Report b, String what) {
        reported(a, b.toString(), b.sweeps, b.drops, b.range, b.rotations);
        check(a.word == b.word && a.passes == b.passes, "the report by instrument, " + what);
    }

    static void sameSplit(FullSplit a, FullSplit b, String what) {
        sameReport(a.report, b.report, what);
        same(a.matrix(), b.matrix(), "the matrix by instrument, " + what);
        same(a.u(), b.u(), "U by instrument, " + what);
        same(a.v(), b.v(), "V by instrument, " + what);
        same(a.values(), b.values(), "the values by instrument, " + what);
    }

    // By instrument each split is the one with its settings. Answers how it ended: 0 settled, 1 stopped, 2 quiet, 3
    // settled with a value that is none.
    static int byInstrument(double[] readings, int stations, int passes, Instrument i, String what) throws Exception {
        Split plain = Merotunki.split(readings, stations, passes, i);
        Split with = Merotunki.split(readings, stations, passes, i.settings());
        sameReport(plain.report, with.report, what);
        same(plain.matrix(), with.matrix(), "the matrix alone by instrument, " + what);
        sameSplit(Merotunki.splitFull(readings, stations, passes, i),
                Merotunki.splitFull(readings, stations, passes, i.settings()), what);
        OrderedSplit ordered;
        try {
            ordered = Merotunki.splitInOrder(readings, stations, passes, i.settings());
        } catch (Refusal wanted) {
            Refusal said = refused(() -> Merotunki.splitInOrder(readings, stations, passes, i), wanted.number, what);
            if (said != null && said.run != null) {
                sameSplit(said.run, wanted.run, what + ", refused by " + wanted.number);
            }
            return wanted.number == Refusal.VALUE ? 3 : with.report.word.ordinal();
        }
        sameSplit(Merotunki.splitInOrder(readings, stations, passes, i), ordered, what + ", in order");
        return with.report.word.ordinal();
    }

    static void instruments() throws Exception {
        Instrument[] all = Instrument.values();
        check(Arrays.toString(all).equals("[vane, hot wire, ultrasonic, smoke tube]"), "the instruments' names");
        for (int i = 0; i < all.length; i++) {
            check(all[i].number == i + 1, all[i] + " has the number " + (i + 1));
        }
        areSettings(Instrument.VANE.settings(), 100, 50, 1e-10, 1e-12, "the vane");
        areSettings(Instrument.HOT_WIRE.settings(), 200, 50, 1e-12, 1e-13, "the hot wire");
        areSettings(Instrument.ULTRASONIC.settings(), 400, 100, 1e-13, 1e-14, "the ultrasonic one");
        areSettings(Instrument.SMOKE_TUBE.settings(), 50, 25, 1e-6, 1e-8, "the smoke tube");
        areSettings(PLAIN, 100, 50, 1e-10, 1e-12, "the defaults, which are the vane's");
        double[] large = {Double.MAX_VALUE, Double.MAX_VALUE};
        for (Instrument i : all) {
            boolean[] met = new boolean[4];
            for (int seed = 0; seed < 120; seed++) {
                int stations = 1 + seed / 2 % 6;
                int passes = 1 + seed / 12 % 6;
                double[] readings = drawn(seed, stations * passes);
                if (seed % 2 == 1) {
                    Arrays.setAll(readings, k -> readings[k] < 5.0 ? 0.0 : readings[k]);
                }
                met[byInstrument(readings, stations, passes, i, i + ", seed " + seed)] = true;
            }
            met[byInstrument(drawn(7, 48 * 48), 48, 48, i, i + ", 48 x 48")] = true;
            met[byInstrument(new double[] {0.0, 1.0, 0.0, 1.0}, 2, 2, i, i + ", no first")] = true;
            met[byInstrument(large, 1, 2, i, i + ", large")] = true;
            check(met[0] && met[1] && met[2] && met[3], i + " ends in every way");
            // zeros make as many passes as the limit says
            Report calm = Merotunki.split(new double[48 * 48], 48, 48, i).report;
            int limit = i.settings().limit;
            reported(calm, "quiet, passes " + limit + ", range left 48", limit, 0, 48, 2 * 47 * limit);
        }
    }

    // A number that no instrument has, which these classes cannot hand in: the calls beneath them refuse it.
    static void noSuchProfile() throws Exception {
        Class<?> calls = Class.forName("merotunki.Native");
        Method profile = calls.getDeclaredMethod("profile", double[].class, int.class);
        Method split = calls.getDeclaredMethod("profileSvd", long[].class, double[].class, int.class, int.class,
                int.class);
        profile.setAccessible(true);
        split.setAccessible(true);
        for (int number : new int[] {0, 5, -1, Integer.MAX_VALUE, Integer.MIN_VALUE}) {
            double[] choice = {9.0, 9.0, 9.0, 9.0, 9.0};
            check(Integer.valueOf(Refusal.PROFILE).equals(profile.invoke(null, choice, number)), "profile " + number);
            same(choice, new double[5], "no settings of profile " + number);
            double[] table = {3.0, 4.0};
            long[] answer = new long[10];
            Arrays.fill(answer, 99);
            split.invoke(null, answer, table, 2, 1, number);
            check(Arrays.equals(answer, new long[] {10, 0, 0, 0, 0, 0, 0, 0, 0, 0}), "10 for profile " + number);
            same(table, new double[] {3.0, 4.0}, "nothing is written by profile " + number);
        }
        Constructor<Refusal> made = Refusal.class.getDeclaredConstructor(int.class);
        made.setAccessible(true);
        Refusal refusal = made.newInstance(Refusal.PROFILE);
        check(refusal.number == 10 && refusal.getMessage().equals("There is no such profile."), "the text of 10");
    }

    static void roots() {
        check(Double.doubleToRawLongBits(Merotunki.squareRoot(2.0)) == 0x3FF6A09E667F3BCDL, "the root of 2");
        check(Double.isNaN(Merotunki.squareRoot(-1.0)), "the root of -1");
        check(Double.isNaN(Merotunki.squareRoot(Double.NaN)), "the root of NaN");
        same(new double[] {Merotunki.squareRoot(-0.0)}, new double[] {-0.0}, "the root of -0");
        boolean good = true;
        for (double x : drawn(5, 1000)) {
            good &= Merotunki.squareRoot(Math.abs(x)) == Math.sqrt(Math.abs(x));
        }
        check(good, "1000 roots are the machine's");
    }

    static void twoThreads() throws Exception {
        ExecutorService threads = Executors.newFixedThreadPool(2);
        CyclicBarrier line = new CyclicBarrier(2);
        Future<?>[] jobs = new Future<?>[2];
        for (int n = 0; n < 2; n++) {
            int stations = n == 0 ? 48 : 29;
            double[] readings = drawn(6 + n, stations * 31);
            double[] wanted = Merotunki.splitFull(readings, stations, 31, PLAIN).u();
            jobs[n] = threads.submit(() -> {
                line.await();
                boolean good = true;
                for (int i = 0; i < 40; i++) {
                    good &= Arrays.equals(Merotunki.splitFull(readings, stations, 31, PLAIN).u(), wanted);
                }
                return good;
            });
        }
        check((boolean) jobs[0].get() && (boolean) jobs[1].get(), "two threads at once");
        threads.shutdown();
    }

    // A call that kept its copies, 37 doubles, would hold 28 MB more after 100,000.
    static void manyCalls() throws Exception {
        double[] readings = drawn(8, 12);
        double[] odd = readings.clone();
        odd[7] = Double.NaN;
        long before = 0;
        boolean good = true;
        for (int i = -20000; i < 100000; i++) {
            if (i == 0) {
                before = held();
            }
            FullSplit split = i % 2 == 0
                    ? i % 4 == 0 ? Merotunki.splitFull(readings, 4, 3, PLAIN)
                                 : Merotunki.splitFull(readings, 4, 3, Instrument.HOT_WIRE)
                    : (i & 3) == 1 ? Merotunki.splitInOrder(readings, 4, 3, PLAIN)
                                   : Merotunki.splitInOrder(readings, 4, 3, Instrument.ULTRASONIC);
            good &= split.report.word == Report.Word.SETTLED;
            if (i % 10 == 0) {
                try {
                    Merotunki.splitInOrder(odd, 4, 3, PLAIN);
                    good = false;
                } catch (Refusal refusal) {
                    good &= refusal.number == 8;
                }
            }
        }
        long more = held() - before;
        check(good, "100,000 splits");
        check(more < 12000, "100,000 splits hold no more memory, but " + more + " KB");
    }

    public static void main(String[] words) throws Exception {
        knownTables();
        quietOrStopped();
        rotations();
        toTheBit();
        inOrder();
        refusals();
        settings();
        instruments();
        noSuchProfile();
        roots();
        twoThreads();
        manyCalls();
        end();
    }
}
