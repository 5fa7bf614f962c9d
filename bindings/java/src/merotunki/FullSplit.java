// FullSplit.java: what a split with U and V hands out.
package merotunki;

import java.util.Arrays;

/**
 * A split with its U (stations x stations) and V (passes x passes). As {@link Merotunki#splitFull} hands them out, the
 * readings were U x matrix x (V transposed), but for rounding.
 *
 * <p>A station's row of U and a pass's row of V are {@link #station} and {@link #pass}. What belongs to value k are the
 * columns k: {@link #overStations} and {@link #overPasses}. All are copies.
 */
public class FullSplit extends Split {
    private final double[] u;
    private final double[] v;

    FullSplit(Report report, double[] matrix, double[] u, double[] v, int stations, int passes) {
        super(report, matrix, stations, passes);
        this.u = u;
        this.v = v;
    }

    /**
     * U.
     *
     * @return a copy, row by row: row i goes with station i
     */
    public double[] u() {
        return u.clone();
    }

    /**
     * V.
     *
     * @return a copy, row by row: row j goes with pass j
     */
    public double[] v() {
        return v.clone();
    }

    /**
     * A station's row of U.
     *
     * @param station from 0
     * @return a copy
     * @throws IndexOutOfBoundsException where there is no such station
     */
    public double[] station(int station) {
        return row(u, stations, station);
    }

    /**
     * A pass's row of V.
     *
     * @param pass from 0
     * @return a copy
     * @throws IndexOutOfBoundsException where there is no such pass
     */
    public double[] pass(int pass) {
        return row(v, passes, pass);
    }

    /**
     * Column k of U, one entry for each station: times value k and the mean of {@link #overPasses} it is the profile
     * that value k holds.
     *
     * @param k from 0; U has as many columns as there are stations, and those past the values belong to none
     * @return a copy
     * @throws IndexOutOfBoundsException where U has no such column
     */
    public double[] overStations(int k) {
        return column(u, stations, k);
    }

    /**
     * Column k of V, one entry for each pass: against its mean it is the drift that value k holds.
     *
     * @param k from 0; V has as many columns as there are passes
     * @return a copy
     * @throws IndexOutOfBoundsException where V has no such column
     */
    public double[] overPasses(int k) {
        return column(v, passes, k);
    }

    private static double[] row(double[] square, int n, int i) {
        check(i, n);
        return Arrays.copyOfRange(square, i * n, i * n + n);
    }

    private static double[] column(double[] square, int n, int k) {
        check(k, n);
        double[] column = new double[n];
        for (int i = 0; i < n; i++) {
            column[i] = square[i * n + k];
        }
        return column;
    }

    private static void check(int i, int n) {
        if (i < 0 || i >= n) {
            throw new IndexOutOfBoundsException("There is no " + i + " among 0 to " + (n - 1) + ".");
        }
    }
}
