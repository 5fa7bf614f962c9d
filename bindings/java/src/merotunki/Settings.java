// Settings.java: the settings of a split.
package merotunki;

/**
 * Settings that the library allows: there are no others. They start as {@link #DEFAULT}; each change is checked by the
 * library, by name, and gives new settings. An app whose surveyors pick an {@link Instrument} needs none.
 */
public final class Settings {
    /** The library's own: limit 100, credit 50, tolerance 1e-10, absolute 1e-12, floor 1e-21. */
    public static final Settings DEFAULT = defaults();

    /** The walk stops when its counter, one a pass, gets there. */
    public final int limit;
    /** What a drop takes off the counter. */
    public final int credit;
    /** A coupling is negligible only below this share of its neighbours on the diagonal. */
    public final double tolerance;
    /** A coupling is negligible only below this, too. */
    public final double absolute;
    /** What is smaller is not reflected. */
    public final double floor;

    private Settings(int limit, int credit, double tolerance, double absolute, double floor) {
        this.limit = limit;
        this.credit = credit;
        this.tolerance = tolerance;
        this.absolute = absolute;
        this.floor = floor;
    }

    private static Settings defaults() {
        double[] choice = new double[5];
        Native.defaults(choice);
        return of(choice);
    }

    private static Settings of(double[] choice) {
        return new Settings((int) choice[0], (int) choice[1], choice[2], choice[3], choice[4]);
    }

    /** The library's own for a profile that there is. */
    static Settings ofProfile(int profile) {
        double[] choice = new double[5];
        if (Native.profile(choice, profile) != 0) {
            throw new IllegalArgumentException("The library has no profile " + profile + ".");
        }
        return of(choice);
    }

    // The library checks the settings when it splits, so it is given a table of one zero to split.
    private Settings checked() throws Refusal {
        Native.split(new double[1], 1, 1, this);
        return this;
    }

    /**
     * With another limit.
     *
     * @param limit 0 to 100,000
     * @return new settings
     * @throws Refusal by 6
     */
    public Settings withLimit(int limit) throws Refusal {
        return new Settings(limit, credit, tolerance, absolute, floor).checked();
    }

    /**
     * With another credit.
     *
     * @param credit 0 to 1,000
     * @return new settings
     * @throws Refusal by 6
     */
    public Settings withCredit(int credit) throws Refusal {
        return new Settings(limit, credit, tolerance, absolute, floor).checked();
    }

    /**
     * With another tolerance.
     *
     * @param tolerance finite and not below zero
     * @return new settings
     * @throws Refusal by 7
     */
    public Settings withTolerance(double tolerance) throws Refusal {
        return new Settings(limit, credit, tolerance, absolute, floor).checked();
    }

    /**
     * With another absolute bound.
     *
     * @param absolute finite and not below zero
     * @return new settings
     * @throws Refusal by 7
     */
    public Settings withAbsolute(double absolute) throws Refusal {
        return new Settings(limit, credit, tolerance, absolute, floor).checked();
    }

    /**
     * With another floor.
     *
     * @param floor finite and above zero
     * @return new settings
     * @throws Refusal by 7
     */
    public Settings withFloor(double floor) throws Refusal {
        return new Settings(limit, credit, tolerance, absolute, floor).checked();
    }
}
