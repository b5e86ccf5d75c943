/* A test ends with status 1 at the first thing that is not as expected, and says where. */
#ifndef EXPECT_H
#define EXPECT_H

#include <stdio.h>
#include <stdlib.h>
#include <string.h>

#include "vcm.h"

#define expect(condition) ((condition) ? (void)0 : expected(#condition, __FILE__, __LINE__))

static inline void expected(const char *what, const char *file, int line) {
    fprintf(stderr, "%s:%d: not so: %s\n", file, line, what);
    exit(1);
}

#endif
