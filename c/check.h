/* SPDX-License-Identifier: MIT OR Apache-2.0 */
/* What the tests here check with: where it doesn't hold, the program says so and ends with status 1. */
#ifndef GORSEPLUMB_CHECK_H
#define GORSEPLUMB_CHECK_H

#include <stdio.h>
#include <stdlib.h>

#define CHECK(holds) \
    do { \
        if (!(holds)) { \
            fprintf(stderr, "%s:%d: %s\n", __FILE__, __LINE__, #holds); \
            exit(1); \
        } \
    } while (0)

#endif
