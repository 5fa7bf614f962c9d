// split.swift: splits a table of 4 stations and 3 passes, read with a vane, and prints what an app would show.
import Foundation
import Merotunki

precondition(merotunki_fits() == 1, "the library linked is not the header's")
var table = [1.2, 1.4, 1.1, 2.4, 2.5, 2.9, 1.9, 2.6, 1.8, 0.7, 0.9, 1.3]
var u = [Double](repeating: 0, count: 16)
var v = [Double](repeating: 0, count: 9)
var a = merotunki_answer()
merotunki_identity(&u, 16, 4)
merotunki_identity(&v, 9, 3)
merotunki_profile_full_svd(&a, &table, 12, &u, 16, &v, 9, 4, 3, Int(MEROTUNKI_VANE)) // the surveyor's instrument
if a.number == 8 { // a reading is infinite or NaN
    print("Station \(a.row), pass \(a.column): no usable reading" + (a.bad > 1 ? ", and \(a.bad - 1) more." : "."))
    exit(1)
}
if a.number != 0 {
    print("refused by \(a.number)")
    exit(1)
}
let word = a.word == UInt64(MEROTUNKI_SETTLED) ? "settled" : a.word == UInt64(MEROTUNKI_QUIET) ? "quiet" : "stopped"
print("\(word), passes \(a.passes)")
print(String(format: "values [%f, %f, %f]", table[0], table[4], table[8]))
print(String(format: "station 0 [%f, %f, %f, %f]", u[0], u[1], u[2], u[3]))
