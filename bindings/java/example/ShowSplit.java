// ShowSplit.java: splits a table of 4 stations and 3 passes and prints what an app would show.
import java.util.Arrays;
import java.util.Locale;
import merotunki.FullSplit;
import merotunki.Instrument;
import merotunki.Merotunki;
import merotunki.Refusal;

class ShowSplit {
    public static void main(String[] words) throws Refusal {
        double[] readings = {1.2, 1.4, 1.1, 2.4, 2.5, 2.9, 1.9, 2.6, 1.8, 0.7, 0.9, 1.3};
        FullSplit split = Merotunki.splitFull(readings, 4, 3, Instrument.VANE);
        System.out.println(split.report);
        System.out.println("values " + shown(split.values()));
        System.out.println("station 0 " + shown(split.station(0)));
    }

    static String shown(double[] numbers) {
        return Arrays.toString(Arrays.stream(numbers).mapToObj(x -> String.format(Locale.ROOT, "%.6f", x)).toArray());
    }
}
