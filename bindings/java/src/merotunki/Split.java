// Split.java: what a split hands out.
package merotunki;

/** The report of a split and what the method leaves of the table. Arrays are handed out as copies: it cannot change. */
public class Split {
    /** How the split ended. Look at its word before the values are shown. */
    public final Report report;
    /** The survey's stations. */
    public final int stations;
    /** The survey's passes. */
    public final int passes;
    private final double[] matrix;

    Split(Report report, double[] matrix, int stations, int passes) {
        this.report = report;
        this.matrix = matrix;
        this.stations = stations;
        this.passes = passes;
    }

    /**
     * The values, as the method leaves them on the diagonal.
     *
     * @return as many as the smaller of stations and passes; in no order and of either sign
     */
    public double[] values() {
        double[] values = new double[Math.min(stations, passes)];
        for (int k = 0; k < values.length; k++) {
            values[k] = matrix[k * passes + k];
        }
        return values;
    }

    /**
     * All that the method leaves of the table. Beside the diagonal may stay what the method found negligible and, where
     * it did not settle, what it did not.
     *
     * @return a copy, station by station
     */
    public double[] matrix() {
        return matrix.clone();
    }
}
