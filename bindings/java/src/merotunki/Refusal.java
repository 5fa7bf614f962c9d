// Refusal.java: why a call was refused.
package merotunki;

/**
 * Why a call was refused, first reason first. Nothing has been written then, but for 12 and 13, which
 * {@link Merotunki#splitInOrder} alone gives, after its run.
 */
public final class Refusal extends Exception {
    /** The number of a reading that is infinite or NaN. */
    public static final int READING = 8;
    /** The number of a profile that there is not. */
    public static final int PROFILE = 10;
    /** The number of a run that did not settle, so that its values are not final: it stopped or is quiet. */
    public static final int NOT_SETTLED = 12;
    /** The number of a run that settled with a value that is infinite or NaN. */
    public static final int VALUE = 13;

    private static final long serialVersionUID = 1L;

    /**
     * The library's number: 1 no stations or no passes; 2 sizes above 48 or negative; 3 the number of readings is not
     * stations times passes; 6 a limit above 100,000, a credit above 1,000, or a negative one; 7 a tolerance, absolute
     * bound or floor that is not allowed; {@link #READING}, {@link #NOT_SETTLED}, {@link #VALUE}. There are 4, 5 and 11
     * too, for U, V and a list of values of a wrong length: these classes make all three and never give these numbers.
     * Nor do they give {@link #PROFILE}, which calls by profile number have in the place of 6 and 7: every
     * {@link Instrument} has a profile.
     */
    public final int number;
    /** For number 8 the station of the first reading that is infinite or NaN, counted from 0; else 0. */
    public final int station;
    /** For number 8 its pass, counted from 0; else 0. */
    public final int pass;
    /** For number 8 how many such readings the whole table has, the first one too; else 0. */
    public final int bad;
    /**
     * For numbers 12 and 13 what {@link Merotunki#splitFull} would have handed out: report, matrix, U and V of the run;
     * else null. It is not serialized.
     */
    public final transient FullSplit run;

    /** By any number but 8, before a run. */
    Refusal(int number) {
        this(number, 0, 0, 0, null);
    }

    /** By 8. */
    Refusal(int station, int pass, int bad) {
        this(READING, station, pass, bad, null);
    }

    /** By 12 or 13, after the run. */
    Refusal(int number, FullSplit run) {
        this(number, 0, 0, 0, run);
    }

    private Refusal(int number, int station, int pass, int bad, FullSplit run) {
        super(text(number, station, pass, bad));
        this.number = number;
        this.station = station;
        this.pass = pass;
        this.bad = bad;
        this.run = run;
    }

    private static String text(int number, int station, int pass, int bad) {
        switch (number) {
            case 1:
                return "The table has no stations or no passes.";
            case 2:
                return "The table has more than 48 stations or more than 48 passes, or a negative number of them.";
            case 3:
                return "The readings do not fill the table's stations and passes.";
            case 4:
                return "The factors are for a table with another number of stations.";
            case 5:
                return "The factors are for a table with another number of passes.";
            case 11:
                return "The list of values is for a table with another number of values.";
            case 6:
                return "The limit is above 100000 or the credit is above 1000, or one of them is negative.";
            case 7:
                return "A bound is below zero or no number, or the floor is not above zero.";
            case PROFILE:
                return "There is no such profile.";
            case READING:
                String more = bad > 1 ? ", and " + (bad - 1) + " more." : ".";
                return "Station " + station + ", pass " + pass + ": no usable reading" + more;
            case NOT_SETTLED:
                return "The run did not settle: its values are not final.";
            case VALUE:
                return "A value of the split is not a usable number.";
            default:
                throw new IllegalArgumentException("The library has no number " + number + ".");
        }
    }
}
