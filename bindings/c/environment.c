/*
 * Sees that haul_keeps_binary32 tells what was done to floats: small ones taken for 0, and each other way of rounding. The
 * word `fast` says that the program was linked with -Ofast, which sets the processor before main begins.
 */
#include <fenv.h>
#include <haul.h>
#include <stdio.h>
#include <string.h>
#include <xmmintrin.h>

static const unsigned FLUSH_TO_ZERO = 0x8000, DENORMALS_ARE_ZERO = 0x0040;

static int failures = 0;

/* The answer in this environment is the one that is wanted. */
static void want(const char *environment, uint32_t wanted) {
    uint32_t told = haul_keeps_binary32(1.0f, 1e-45f);
    if (told != wanted) {
        printf("%s: told %u\n", environment, (unsigned)told);
        failures++;
    }
}

static void with_flags(const char *name, unsigned flags) {
    unsigned before = _mm_getcsr();
    _mm_setcsr(before | flags);
    want(name, 0);
    _mm_setcsr(before);
}

static void with_rounding(const char *name, int mode) {
    fesetround(mode);
    want(name, 0);
    fesetround(FE_TONEAREST);
}

int main(int count, char **words) {
    if (count > 1 && strcmp(words[1], "fast") == 0) {
        want("linked with -Ofast", 0);
        return failures;
    }
    want("as the program began", 1);
    with_flags("small results as 0", FLUSH_TO_ZERO);
    with_flags("small numbers as 0", DENORMALS_ARE_ZERO);
    with_rounding("rounded up", FE_UPWARD);
    with_rounding("rounded down", FE_DOWNWARD);
    with_rounding("rounded to 0", FE_TOWARDZERO);
    want("put back", 1);
    return failures;
}
