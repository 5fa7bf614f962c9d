// Merotunki.java: the proved singular value split of a survey's table, for Java and Kotlin.
package merotunki;

import java.util.Objects;

/**
 * The proved singular value split of a survey's table of readings.
 *
 * <p>Stations are the rows, passes are the columns. The split tells the roadway's own profile from the fan's drift: U
 * goes with the stations (row 4 of U is station 4), V with the passes.
 *
 * <p>The surveyor picks the {@link Instrument}, and the library has the settings for it. Where others are wanted, each
 * split is there with {@link Settings}, too.
 *
 * <p>Every check of sizes, lengths, settings and readings is the proved library's own; these classes ask it and do no
 * arithmetic on readings. They have no state, so tables may be split on several threads at once.
 */
public final class Merotunki {
    /** The most stations and the most passes that a table may have. */
    public static final int MOST = 48;

    private Merotunki() {}

    /**
     * Splits a copy of the readings, which stay as they are.
     *
     * @param readings station by station: that of station i in pass j stands at {@code i * passes + j}
     * @param stations 1 to 48
     * @param passes 1 to 48
     * @param settings {@link Settings#DEFAULT} or others
     * @return the report and what the method leaves of the table
     * @throws Refusal by 1, 2, 3 or 8
     */
    public static Split split(double[] readings, int stations, int passes, Settings settings) throws Refusal {
        Objects.requireNonNull(readings, "readings");
        Objects.requireNonNull(settings, "settings");
        double[] table = readings.clone();
        Report report = Native.split(table, stations, passes, settings);
        return new Split(report, table, stations, passes);
    }

    /**
     * Splits a copy of the readings by instrument: as with {@link Instrument#settings}.
     *
     * @param readings station by station: that of station i in pass j stands at {@code i * passes + j}
     * @param stations 1 to 48
     * @param passes 1 to 48
     * @param instrument the one that the readings were taken with
     * @return the report and what the method leaves of the table
     * @throws Refusal by 1, 2, 3 or 8
     */
    public static Split split(double[] readings, int stations, int passes, Instrument instrument) throws Refusal {
        Objects.requireNonNull(readings, "readings");
        Objects.requireNonNull(instrument, "instrument");
        double[] table = readings.clone();
        Report report = Native.split(table, stations, passes, instrument);
        return new Split(report, table, stations, passes);
    }

    /**
     * The same split with U and V, which begin as the library's identity. Report and table are those of {@link #split}.
     *
     * @param readings station by station: that of station i in pass j stands at {@code i * passes + j}
     * @param stations 1 to 48
     * @param passes 1 to 48
     * @param settings {@link Settings#DEFAULT} or others
     * @return the report, what the method leaves of the table, U and V
     * @throws Refusal by 1, 2, 3 or 8
     */
    public static FullSplit splitFull(double[] readings, int stations, int passes, Settings settings) throws Refusal {
        Objects.requireNonNull(readings, "readings");
        Objects.requireNonNull(settings, "settings");
        double[] table = readings.clone();
        Native.askSizes(table, stations, passes); // before U and V are made by them
        double[] u = new double[stations * stations];
        double[] v = new double[passes * passes];
        Report report = Native.splitFull(table, u, v, stations, passes, settings);
        return new FullSplit(report, table, u, v, stations, passes);
    }

    /**
     * The same split with U and V by instrument: as with {@link Instrument#settings}.
     *
     * @param readings station by station: that of station i in pass j stands at {@code i * passes + j}
     * @param stations 1 to 48
     * @param passes 1 to 48
     * @param instrument the one that the readings were taken with
     * @return the report, what the method leaves of the table, U and V
     * @throws Refusal by 1, 2, 3 or 8
     */
    public static FullSplit splitFull(double[] readings, int stations, int passes, Instrument instrument)
            throws Refusal {
        Objects.requireNonNull(readings, "readings");
        Objects.requireNonNull(instrument, "instrument");
        double[] table = readings.clone();
        Native.askSizes(table, stations, passes); // before U and V are made by them
        double[] u = new double[stations * stations];
        double[] v = new double[passes * passes];
        Report report = Native.splitFull(table, u, v, stations, passes, instrument);
        return new FullSplit(report, table, u, v, stations, passes);
    }

    /**
     * The split of {@link #splitFull} with its values in order of size, largest first, and the columns of U and V moved
     * with them.
     *
     * @param readings station by station: that of station i in pass j stands at {@code i * passes + j}
     * @param stations 1 to 48
     * @param passes 1 to 48
     * @param settings {@link Settings#DEFAULT} or others
     * @return the report, what the method leaves of the table, the values, U and V
     * @throws Refusal by 1, 2, 3 or 8; and by 12 or 13 after the run, with {@link Refusal#run}
     */
    public static OrderedSplit splitInOrder(double[] readings, int stations, int passes, Settings settings)
            throws Refusal {
        Objects.requireNonNull(readings, "readings");
        Objects.requireNonNull(settings, "settings");
        double[] table = readings.clone();
        Native.askSizes(table, stations, passes); // before U, V and the list are made by them
        double[] u = new double[stations * stations];
        double[] v = new double[passes * passes];
        double[] values = new double[Math.min(stations, passes)];
        Report report = Native.splitInOrder(table, u, v, values, stations, passes, settings);
        return new OrderedSplit(report, table, u, v, values, stations, passes);
    }

    /**
     * The split in order by instrument: as with {@link Instrument#settings}.
     *
     * @param readings station by station: that of station i in pass j stands at {@code i * passes + j}
     * @param stations 1 to 48
     * @param passes 1 to 48
     * @param instrument the one that the readings were taken with
     * @return the report, what the method leaves of the table, the values, U and V
     * @throws Refusal by 1, 2, 3 or 8; and by 12 or 13 after the run, with {@link Refusal#run}
     */
    public static OrderedSplit splitInOrder(double[] readings, int stations, int passes, Instrument instrument)
            throws Refusal {
        Objects.requireNonNull(readings, "readings");
        Objects.requireNonNull(instrument, "instrument");
        double[] table = readings.clone();
        Native.askSizes(table, stations, passes); // before U, V and the list are made by them
        double[] u = new double[stations * stations];
        double[] v = new double[passes * passes];
        double[] values = new double[Math.min(stations, passes)];
        Report report = Native.splitInOrder(table, u, v, values, stations, passes, instrument);
        return new OrderedSplit(report, table, u, v, values, stations, passes);
    }

    /**
     * The double nearest to the root of x.
     *
     * @param x any number; -0, +0 and infinity stay
     * @return the root; NaN for NaN and below zero
     */
    public static double squareRoot(double x) {
        return Native.squareRoot(x);
    }
}
