// Native.java: the library's calls. No other class has native methods, and no other code calls these.
package merotunki;

/** The library's calls by way of jni/merotunki_jni.c, and what their answers mean. Arrays are never null here. */
final class Native {
    // The library checks sizes and length before the limit, so with a limit that it refuses, 6 says that they are fit.
    private static final int UNFIT_LIMIT = -1;
    private static final int SIZES_ARE_FIT = 6;

    /** The words of an answer, in the order of merotunki.h's struct: the one list of them in Java. */
    enum Answer {
        NUMBER, ROW, COLUMN, BAD, WORD, PASSES, SWEEPS, DROPS, RANGE, ROTATIONS;

        private static final int COUNT = values().length;

        /** This word of an answer. All that the library answers fits an int: rotations are at most 13,724,000. */
        int in(long[] answer) {
            return (int) answer[ordinal()];
        }
    }

    static {
        System.loadLibrary("merotunki_jni");
        checkLayout(Answer.COUNT);
    }

    private Native() {}

    /** Splits the table where it stands; refused, it is as it was. */
    static Report split(double[] table, int stations, int passes, Settings s) throws Refusal {
        long[] answer = new long[Answer.COUNT];
        svd(answer, table, stations, passes, s.limit, s.credit, s.tolerance, s.absolute, s.floor);
        return outcome(answer);
    }

    /** The same by instrument. */
    static Report split(double[] table, int stations, int passes, Instrument i) throws Refusal {
        long[] answer = new long[Answer.COUNT];
        profileSvd(answer, table, stations, passes, i.number);
        return outcome(answer);
    }

    /** The same, with U and V filled from the library's identity. */
    static Report splitFull(double[] table, double[] u, double[] v, int stations, int passes, Settings s)
            throws Refusal {
        long[] answer = new long[Answer.COUNT];
        fullSvd(answer, table, u, v, stations, passes, s.limit, s.credit, s.tolerance, s.absolute, s.floor);
        return outcome(answer);
    }

    /** That by instrument. */
    static Report splitFull(double[] table, double[] u, double[] v, int stations, int passes, Instrument i)
            throws Refusal {
        long[] answer = new long[Answer.COUNT];
        profileFullSvd(answer, table, u, v, stations, passes, i.number);
        return outcome(answer);
    }

    /** The same in order, with the values in the list. Refused by 12 or 13, the refusal has what the run left. */
    static Report splitInOrder(double[] table, double[] u, double[] v, double[] values, int stations, int passes,
            Settings s) throws Refusal {
        long[] answer = new long[Answer.COUNT];
        orderedSvd(answer, table, u, v, values, stations, passes, s.limit, s.credit, s.tolerance, s.absolute, s.floor);
        return ordered(answer, table, u, v, stations, passes);
    }

    /** That by instrument. */
    static Report splitInOrder(double[] table, double[] u, double[] v, double[] values, int stations, int passes,
            Instrument i) throws Refusal {
        long[] answer = new long[Answer.COUNT];
        profileOrderedSvd(answer, table, u, v, values, stations, passes, i.number);
        return ordered(answer, table, u, v, stations, passes);
    }

    private static Report ordered(long[] answer, double[] table, double[] u, double[] v, int stations, int passes)
            throws Refusal {
        int number = Answer.NUMBER.in(answer);
        if (number == Refusal.NOT_SETTLED || number == Refusal.VALUE) {
            throw new Refusal(number, new FullSplit(new Report(answer), table, u, v, stations, passes));
        }
        return outcome(answer);
    }

    /** Refuses by 1, 2 or 3 where the table does not fit its sizes. Writes nothing. */
    static void askSizes(double[] table, int stations, int passes) throws Refusal {
        long[] answer = new long[Answer.COUNT];
        svd(answer, table, stations, passes, UNFIT_LIMIT, 0, 0.0, 0.0, 1.0);
        int number = Answer.NUMBER.in(answer);
        if (number != SIZES_ARE_FIT) {
            throw new Refusal(number);
        }
    }

    private static Report outcome(long[] answer) throws Refusal {
        int number = Answer.NUMBER.in(answer);
        if (number == Refusal.READING) {
            throw new Refusal(Answer.ROW.in(answer), Answer.COLUMN.in(answer), Answer.BAD.in(answer));
        }
        if (number != 0) {
            throw new Refusal(number);
        }
        return new Report(answer);
    }

    /** Throws where the JNI source was compiled for another library than is linked, or for other words of an answer. */
    private static native void checkLayout(int words);

    private static native void svd(long[] answer, double[] table, int stations, int passes, int limit, int credit,
            double tolerance, double absolute, double floor);

    private static native void fullSvd(long[] answer, double[] table, double[] u, double[] v, int stations, int passes,
            int limit, int credit, double tolerance, double absolute, double floor);

    private static native void orderedSvd(long[] answer, double[] table, double[] u, double[] v, double[] values,
            int stations, int passes, int limit, int credit, double tolerance, double absolute, double floor);

    private static native void profileSvd(long[] answer, double[] table, int stations, int passes, int profile);

    private static native void profileFullSvd(long[] answer, double[] table, double[] u, double[] v, int stations,
            int passes, int profile);

    private static native void profileOrderedSvd(long[] answer, double[] table, double[] u, double[] v,
            double[] values, int stations, int passes, int profile);

    /** Writes limit, credit, tolerance, absolute and floor. */
    static native void defaults(double[] choice);

    /** Writes the same of a profile and answers 0; zeros and 10 where there is no such profile. */
    static native int profile(double[] choice, int profile);

    static native double squareRoot(double x);
}
