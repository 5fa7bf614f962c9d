/* merotunki_jni.c: the library's calls for src/merotunki/Native.java. ../CMakeLists.txt builds it.
 *
 * Arrays are copied in, and copied back where the call has written: the library never works on memory that a garbage
 * collection moves, and no collection waits for a split. The lengths that the library is told are the arrays' own, so
 * every check is the library's. Native.java hands in no null.
 *
 * Sizes, limit, credit and profile come as Java's int. As size_t a negative one is a number near 2 to the 64th, which
 * the library refuses: sizes by 2, limit and credit by 6, profile by 10.
 */
#include "merotunki.h"

#include <jni.h>
#include <stdio.h>
#include <stdlib.h>
#include <string.h>

/* How many words an answer has: all of them have 64 bits. Their names and order are merotunki.h's. */
#define WORDS (sizeof(merotunki_answer) / sizeof(jlong))

static void throw_new(JNIEnv *env, const char *name, const char *text) {
    jclass type = (*env)->FindClass(env, name);
    if (type != NULL) (*env)->ThrowNew(env, type, text); /* where it is NULL, FindClass has thrown */
}

/* Room for that many entries, all 0; NULL, with an exception thrown, where there is none. */
static double *room(JNIEnv *env, size_t entries) {
    double *a = calloc(entries + 1, sizeof *a); /* one more, so that NULL never means 0 entries */
    if (a == NULL) throw_new(env, "java/lang/OutOfMemoryError", "merotunki: no memory for a copy of the table");
    return a;
}

static void hand_back(JNIEnv *env, jdoubleArray to, const double *from) {
    if (!(*env)->ExceptionCheck(env)) (*env)->SetDoubleArrayRegion(env, to, 0, (*env)->GetArrayLength(env, to), from);
}

static void tell(JNIEnv *env, jlongArray answer, const merotunki_answer *a) {
    jlong told[WORDS];
    memcpy(told, a, sizeof told);
    if (!(*env)->ExceptionCheck(env)) (*env)->SetLongArrayRegion(env, answer, 0, (jsize)WORDS, told);
}

JNIEXPORT void JNICALL Java_merotunki_Native_checkLayout(JNIEnv *env, jclass self, jint words) {
    char text[160];
    (void)self;
    if (words != (jint)WORDS) {
        snprintf(text, sizeof text,
                 "Native.java has %d words of an answer, merotunki_jni has %d. Build both from one package.", (int)words,
                 (int)WORDS);
        throw_new(env, "java/lang/UnsatisfiedLinkError", text);
        return;
    }
    if (merotunki_fits()) return;
    snprintf(text, sizeof text,
             "merotunki_jni was compiled for layout %d of the library and linked with one of layout %llu. "
             "Build it anew from one package.",
             MEROTUNKI_LAYOUT, (unsigned long long)merotunki_layout());
    throw_new(env, "java/lang/UnsatisfiedLinkError", text);
}

/* How a split is told its settings: by the number of a profile where `by_profile` is not 0, else by themselves. */
typedef struct settings {
    int by_profile;
    size_t profile, limit, credit;
    double tolerance, absolute, floor;
} settings;

static settings of_settings(jint limit, jint credit, jdouble tolerance, jdouble absolute, jdouble floor) {
    const settings s = {0, 0, (size_t)limit, (size_t)credit, tolerance, absolute, floor};
    return s;
}

static settings of_profile(jint profile) {
    const settings s = {1, (size_t)profile, 0, 0, 0, 0, 0};
    return s;
}

/* The split alone. */
static void split(JNIEnv *env, jlongArray answer, jdoubleArray table, jint stations, jint passes, settings s) {
    const jsize length = (*env)->GetArrayLength(env, table);
    double *const t = room(env, (size_t)length);
    merotunki_answer a;
    if (t == NULL) return;
    (*env)->GetDoubleArrayRegion(env, table, 0, length, t);
    if (!(*env)->ExceptionCheck(env)) {
        if (s.by_profile)
            merotunki_profile_svd(&a, t, (size_t)length, (size_t)stations, (size_t)passes, s.profile);
        else
            merotunki_svd(&a, t, (size_t)length, (size_t)stations, (size_t)passes, s.limit, s.credit, s.tolerance,
                          s.absolute, s.floor);
        if (a.number == 0) hand_back(env, table, t);
        tell(env, answer, &a);
    }
    free(t);
}

/* The split with U and V, which begin as the identity; where `values` is not NULL, the split in order. */
static void split_kept(JNIEnv *env, jlongArray answer, jdoubleArray table, jdoubleArray u, jdoubleArray v,
                       jdoubleArray values, jint stations, jint passes, settings s) {
    const jsize length = (*env)->GetArrayLength(env, table);
    const size_t u_length = (size_t)(*env)->GetArrayLength(env, u), v_length = (size_t)(*env)->GetArrayLength(env, v);
    const size_t values_length = values == NULL ? 0 : (size_t)(*env)->GetArrayLength(env, values);
    double *const t = room(env, (size_t)length + u_length + v_length + values_length);
    merotunki_answer a;
    if (t == NULL) return;
    (*env)->GetDoubleArrayRegion(env, table, 0, length, t);
    if (!(*env)->ExceptionCheck(env)) {
        double *const tu = t + length, *const tv = tu + u_length, *const listed = tv + v_length;
        /* what the identity refuses, the split refuses too */
        merotunki_identity(tu, u_length, (size_t)stations);
        merotunki_identity(tv, v_length, (size_t)passes);
        if (values == NULL && s.by_profile)
            merotunki_profile_full_svd(&a, t, (size_t)length, tu, u_length, tv, v_length, (size_t)stations,
                                       (size_t)passes, s.profile);
        else if (values == NULL)
            merotunki_full_svd(&a, t, (size_t)length, tu, u_length, tv, v_length, (size_t)stations, (size_t)passes,
                               s.limit, s.credit, s.tolerance, s.absolute, s.floor);
        else if (s.by_profile)
            merotunki_profile_ordered_svd(&a, t, (size_t)length, tu, u_length, tv, v_length, listed, values_length,
                                          (size_t)stations, (size_t)passes, s.profile);
        else
            merotunki_ordered_svd(&a, t, (size_t)length, tu, u_length, tv, v_length, listed, values_length,
                                  (size_t)stations, (size_t)passes, s.limit, s.credit, s.tolerance, s.absolute,
                                  s.floor);
        if (a.word != MEROTUNKI_NONE) { /* there was a run */
            hand_back(env, table, t);
            hand_back(env, u, tu);
            hand_back(env, v, tv);
        }
        if (a.number == 0 && values != NULL) hand_back(env, values, listed);
        tell(env, answer, &a);
    }
    free(t);
}

JNIEXPORT void JNICALL Java_merotunki_Native_svd(JNIEnv *env, jclass self, jlongArray answer, jdoubleArray table,
                                                 jint stations, jint passes, jint limit, jint credit,
                                                 jdouble tolerance, jdouble absolute, jdouble floor) {
    (void)self;
    split(env, answer, table, stations, passes, of_settings(limit, credit, tolerance, absolute, floor));
}

JNIEXPORT void JNICALL Java_merotunki_Native_profileSvd(JNIEnv *env, jclass self, jlongArray answer,
                                                        jdoubleArray table, jint stations, jint passes, jint profile) {
    (void)self;
    split(env, answer, table, stations, passes, of_profile(profile));
}

JNIEXPORT void JNICALL Java_merotunki_Native_fullSvd(JNIEnv *env, jclass self, jlongArray answer, jdoubleArray table,
                                                     jdoubleArray u, jdoubleArray v, jint stations, jint passes,
                                                     jint limit, jint credit, jdouble tolerance, jdouble absolute,
                                                     jdouble floor) {
    (void)self;
    split_kept(env, answer, table, u, v, NULL, stations, passes,
               of_settings(limit, credit, tolerance, absolute, floor));
}

JNIEXPORT void JNICALL Java_merotunki_Native_profileFullSvd(JNIEnv *env, jclass self, jlongArray answer,
                                                            jdoubleArray table, jdoubleArray u, jdoubleArray v,
                                                            jint stations, jint passes, jint profile) {
    (void)self;
    split_kept(env, answer, table, u, v, NULL, stations, passes, of_profile(profile));
}

JNIEXPORT void JNICALL Java_merotunki_Native_orderedSvd(JNIEnv *env, jclass self, jlongArray answer,
                                                        jdoubleArray table, jdoubleArray u, jdoubleArray v,
                                                        jdoubleArray values, jint stations, jint passes, jint limit,
                                                        jint credit, jdouble tolerance, jdouble absolute,
                                                        jdouble floor) {
    (void)self;
    split_kept(env, answer, table, u, v, values, stations, passes,
               of_settings(limit, credit, tolerance, absolute, floor));
}

JNIEXPORT void JNICALL Java_merotunki_Native_profileOrderedSvd(JNIEnv *env, jclass self, jlongArray answer,
                                                               jdoubleArray table, jdoubleArray u, jdoubleArray v,
                                                               jdoubleArray values, jint stations, jint passes,
                                                               jint profile) {
    (void)self;
    split_kept(env, answer, table, u, v, values, stations, passes, of_profile(profile));
}

JNIEXPORT void JNICALL Java_merotunki_Native_defaults(JNIEnv *env, jclass self, jdoubleArray choice) {
    merotunki_choice c;
    (void)self;
    merotunki_defaults(&c);
    {
        const double list[5] = {(double)c.limit, (double)c.credit, c.tolerance, c.absolute, c.floor};
        (*env)->SetDoubleArrayRegion(env, choice, 0, 5, list);
    }
}

JNIEXPORT jint JNICALL Java_merotunki_Native_profile(JNIEnv *env, jclass self, jdoubleArray choice, jint profile) {
    merotunki_profile_answer p;
    (void)self;
    merotunki_profile(&p, (size_t)profile);
    {
        const double list[5] = {(double)p.limit, (double)p.credit, p.tolerance, p.absolute, p.floor};
        (*env)->SetDoubleArrayRegion(env, choice, 0, 5, list);
    }
    return (jint)p.number;
}

JNIEXPORT jdouble JNICALL Java_merotunki_Native_squareRoot(JNIEnv *env, jclass self, jdouble x) {
    (void)env, (void)self;
    return merotunki_square_root(x);
}
