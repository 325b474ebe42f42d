/* What the C tests share: a number that was found, against the one wanted. */

#include <stdint.h>
#include <stdio.h>

static int failures;

/* The place that is lent to each call, and the one that it must tell: 0 but on a damaged card. */
static uint64_t place = 99;
static uint64_t wanted_place;

static void expect(const char *what, uint64_t found, uint64_t wanted) {
    if (found != wanted) {
        printf("%s: %llu, not %llu\n", what, (unsigned long long)found, (unsigned long long)wanted);
        failures++;
    }
}

/* A call's answer, and the place beside it. */
static void expect_answer(const char *what, uint8_t found, uint8_t wanted) {
    expect(what, found, wanted);
    expect(what, place, wanted_place);
    place = 99;
}
