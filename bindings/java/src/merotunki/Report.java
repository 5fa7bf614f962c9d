// Report.java: how a split's run ended.
package merotunki;

/** How a split's run ended. The passes are those of the method's walk, not the survey's. */
public final class Report {
    /** Whether the method came to its end. */
    public enum Word {
        /** Every coupling was found negligible. The answer is the same at every greater limit. */
        SETTLED("settled"),
        /**
         * The limit ran out before, and a coupling that is left is not 0. Tables near rank 1 often end so. Show the
         * values with that in mind.
         */
        STOPPED("stopped"),
        /**
         * The limit ran out before, and every coupling that is left is +0 or -0: nothing was left to work out, but the
         * method's own test did not call it done. It is no failure, and not final: at a greater limit the answer can be
         * another. A table of zeros ends so: show "Calm: no air moved at any station. There is nothing to split." Of
         * another one show "Quiet: nothing is left to work out, but the values are not final."
         */
        QUIET("quiet");

        private final String text;

        Word(String text) {
            this.text = text;
        }

        /** The word by the library's number for it. Only an answer to a run has one: 0 is none. */
        static Word of(int number) {
            switch (number) {
                case 1:
                    return SETTLED;
                case 2:
                    return STOPPED;
                case 3:
                    return QUIET;
                default:
                    throw new IllegalArgumentException("The library has no word " + number + " for a run.");
            }
        }
    }

    /** Settled, stopped or quiet. */
    public final Word word;
    /** Passes of the walk; each is a sweep or a drop. */
    public final int passes;
    /** Passes that did work. */
    public final int sweeps;
    /** Passes that left a value behind as found. */
    public final int drops;
    /** How much of the diagonal is still live: 1 where settled, above 1 where stopped or quiet. */
    public final int range;
    /**
     * Rotations computed by the sweeps: 2 x (r - 1) by a sweep over a range of r values, none by a drop. A call's time
     * goes with them rather than with its passes. One counts once, with U and V or without. At most 2 x (c - 1) x sweeps, c
     * being the smaller of the survey's stations and passes; never above 13,724,000.
     */
    public final int rotations;

    /** The report of an answer that has a word. */
    Report(long[] answer) {
        word = Word.of(Native.Answer.WORD.in(answer));
        passes = Native.Answer.PASSES.in(answer);
        sweeps = Native.Answer.SWEEPS.in(answer);
        drops = Native.Answer.DROPS.in(answer);
        range = Native.Answer.RANGE.in(answer);
        rotations = Native.Answer.ROTATIONS.in(answer);
    }

    /** {@code settled, passes 6}; {@code stopped, passes 100, range left 3}; {@code quiet, passes 3, range left 2}. */
    @Override
    public String toString() {
        return word.text + ", passes " + passes + (word == Word.SETTLED ? "" : ", range left " + range);
    }
}
