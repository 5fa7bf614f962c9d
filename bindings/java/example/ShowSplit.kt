// ShowSplit.kt: splits a table of 4 stations and 3 passes and prints what an app would show.
import java.util.Locale
import merotunki.Instrument
import merotunki.Merotunki
import merotunki.Refusal

fun main() {
    val readings = doubleArrayOf(1.2, 1.4, 1.1, 2.4, 2.5, 2.9, 1.9, 2.6, 1.8, 0.7, 0.9, 1.3)
    try {
        val split = Merotunki.splitFull(readings, 4, 3, Instrument.VANE)
        println(split.report)
        println("values " + shown(split.values()))
        println("station 0 " + shown(split.station(0)))
    } catch (refusal: Refusal) {
        println("refused by ${refusal.number}: ${refusal.message}")
    }
}

fun shown(numbers: DoubleArray) = numbers.map { String.format(Locale.ROOT, "%.6f", it) }.toString()
