// Instrument.java: the instruments of a survey, each with a profile of its own in the library.
package merotunki;

/**
 * The instrument that the readings were taken with. The surveyor picks it, and the split is made with the settings that
 * the library has for it: nobody sees tolerances. All have the default floor, 1e-21.
 */
public enum Instrument {
    /**
     * Limit 100, credit 50, tolerance 1e-10, absolute 1e-12: {@link Settings#DEFAULT}. At most 2,400 passes and 225,600
     * rotations in a table of 48 x 48.
     */
    VANE(1, "vane"),
    /** Limit 200, credit 50, tolerance 1e-12, absolute 1e-13. At most 2,500 passes and 235,000 rotations. */
    HOT_WIRE(2, "hot wire"),
    /** Limit 400, credit 100, tolerance 1e-13, absolute 1e-14. At most 5,000 passes and 470,000 rotations. */
    ULTRASONIC(3, "ultrasonic"),
    /** Limit 50, credit 25, tolerance 1e-6, absolute 1e-8. At most 1,200 passes and 112,800 rotations. */
    SMOKE_TUBE(4, "smoke tube");

    /** The number of its profile: 1 to 4. */
    public final int number;
    private final String text;

    Instrument(int number, String text) {
        this.number = number;
        this.text = text;
    }

    /**
     * The library's own settings for it. A split by the instrument is the split with these.
     *
     * @return new settings
     */
    public Settings settings() {
        return Settings.ofProfile(number);
    }

    /** What it is called: {@code vane}, {@code hot wire}, {@code ultrasonic}, {@code smoke tube}. */
    @Override
    public String toString() {
        return text;
    }
}
