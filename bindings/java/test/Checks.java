// Checks.java: what the tests of the classes share.

import java.io.IOException;
import java.nio.file.Files;
import java.nio.file.Path;
import java.nio.file.Paths;
import java.util.Arrays;
import java.util.Locale;
import java.util.concurrent.Callable;
import merotunki.Refusal;
import merotunki.Report;

class Checks {
    private static int passed;
    private static int failed;

    static void check(boolean good, String what) {
        if (good) {
            passed++;
        } else {
            failed++;
            System.out.println("does not hold: " + what);
        }
    }

    // to the bit, so that 0 and -0 differ
    static void same(double[] a, double[] b, String what) {
        check(Arrays.equals(a, b), what + ": " + Arrays.toString(a));
    }

    // to the sixth decimal, as the examples print
    static void near(double[] a, double[] b, String what) {
        boolean good = a.length == b.length;
        for (int i = 0; good && i < a.length; i++) {
            good = Math.abs(a[i] - b[i]) <= 5e-7;
        }
        check(good, what + ": " + Arrays.toString(a));
    }

    static void reported(Report r, String text, int sweeps, int drops, int range, int rotations) {
        check(r.toString().equals(text) && r.sweeps == sweeps && r.drops == drops && r.range == range
                && r.passes == sweeps + drops, "the report is " + text + ", not " + r);
        check(r.rotations == rotations, rotations + " rotations of " + text + ", not " + r.rotations);
        check(text.startsWith(r.word.name().toLowerCase(Locale.ROOT) + ","), "the word of " + text + ", not " + r.word);
    }

    // by any number but 8: no reading is named
    static Refusal refused(Callable<?> call, int number, String what) throws Exception {
        return refused(call, number, 0, 0, 0, what);
    }

    // the refusal, or null where it was not refused
    static Refusal refused(Callable<?> call, int number, int station, int pass, int bad, String what)
            throws Exception {
        try {
            call.call();
            check(false, what + " is refused");
            return null;
        } catch (Refusal r) {
            boolean ran = number == Refusal.NOT_SETTLED || number == Refusal.VALUE;
            check(r.number == number && r.station == station && r.pass == pass && r.bad == bad
                            && r.getMessage().endsWith(".") && (r.run != null) == ran,
                    what + " is refused by " + at(number, station, pass, bad) + ", not by "
                            + at(r.number, r.station, r.pass, r.bad));
            return r;
        }
    }

    private static String at(int number, int station, int pass, int bad) {
        return number + " at " + station + ", " + pass + " with " + bad + " bad";
    }

    static <T extends RuntimeException> void thrown(Class<T> type, String text, Callable<?> call, String what)
            throws Exception {
        try {
            call.call();
            check(false, what + " throws");
        } catch (RuntimeException e) {
            check(type.isInstance(e) && text.equals(e.getMessage()), what + " throws " + text + ", not " + e);
        }
    }

    // the same numbers for the same seed, between -8 and 8
    static double[] drawn(long seed, int length) {
        double[] a = new double[length];
        for (int i = 0; i < length; i++) {
            seed = seed * 6364136223846793005L + 1442695040888963407L;
            a[i] = (seed >>> 11) / 562949953421312.0 - 8.0;
        }
        return a;
    }

    // what the process holds of the machine's memory, in KB
    static long held() throws IOException {
        Path status = Paths.get("/proc/self/status");
        for (String line : Files.readAllLines(status)) {
            if (line.startsWith("VmRSS:")) {
                return Long.parseLong(line.replaceAll("[^0-9]", ""));
            }
        }
        throw new IOException("no VmRSS in " + status);
    }

    static void end() {
        if (failed > 0) {
            System.out.println(failed + " checks failed");
            System.exit(1);
        }
        System.out.println(passed + " checks passed");
    }
}
