/* What the C tests share: a count of what was compared, and how a difference is told. */
#ifndef CHECK_H
#define CHECK_H

#include <stdio.h>
#include <string.h>

#include "layout.h"
#include "pollencart.h"

#define GUARD 64
#define UNSET 0xDEADBEEFu
#define LENGTH(a) (sizeof(a) / sizeof(a)[0])

static unsigned long checks, failures;

static inline void expect(int right, const char *what, const char *about) {
    checks++;
    if (!right) {
        failures++;
        if (failures <= 20) printf("FAILED: %s: %s\n", what, about);
    }
}

/* The last line of a test, and its status. */
static inline int told(const char *what) {
    printf("%s from C: %lu checks, %lu failed\n", what, checks, failures);
    return failures != 0;
}

#endif
