// OrderedSplit.java: what a split in order of size hands out.
package merotunki;

/**
 * A split with its values in order of size. The columns of U and V have moved with them: column k of U, value k and
 * column k of V belong together. Where a value was below zero or -0, its column of U is negated.
 *
 * <p>The {@link #matrix} is that of {@link Merotunki#splitFull}: its diagonal is in no order and of either sign.
 */
public final class OrderedSplit extends FullSplit {
    private final double[] values;

    OrderedSplit(Report report, double[] matrix, double[] u, double[] v, double[] values, int stations, int passes) {
        super(report, matrix, u, v, stations, passes);
        this.values = values;
    }

    /**
     * The magnitudes of the values.
     *
     * @return a copy, as many as the smaller of stations and passes; largest first, equal ones in the diagonal's order
     */
    @Override
    public double[] values() {
        return values.clone();
    }
}
