/* What the tests in C share: a claim that is counted, and named if it fails, and room that is filled. */
#ifndef EXPECT_H
#define EXPECT_H

#include <stdbool.h>
#include <stdio.h>

static long claims, failures;

/* The first failures are printed, since one wrong answer makes many. */
#define EXPECT(claim)                                                                          \
    do {                                                                                       \
        claims++;                                                                              \
        if (!(claim) && ++failures <= 20) printf("%s:%d: not so: %s\n", __FILE__, __LINE__, #claim); \
    } while (0)

/* The last line of a test, and its status. */
static int tested(const char *name) {
    printf("%s: %ld claims, %ld failed\n", name, claims, failures);
    return failures != 0;
}

/* A question of `world`, or by the reader `asker` if that isn't null. */
#define ASKED(call, ...) (asker ? pw_reader_##call(asker, __VA_ARGS__) : pw_##call(&world, __VA_ARGS__))

/* Room for answers is filled first, so that what a call leaves as it was can be told. */
enum { FILL = 0xa5 };

static inline bool is_filled(const void *from, size_t bytes) {
    const unsigned char *byte = (const unsigned char *)from;
    for (size_t k = 0; k < bytes; k++)
        if (byte[k] != FILL) return false;
    return true;
}

#endif
