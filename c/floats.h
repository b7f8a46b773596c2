/* SPDX-License-Identifier: MIT OR Apache-2.0 */
/* What code that is compiled for general registers alone asks for by these names, in place of floating point. */
#ifndef GORSEPLUMB_FLOATS_H
#define GORSEPLUMB_FLOATS_H

#include <stdint.h>

uint64_t __adddf3(uint64_t a, uint64_t b);
uint64_t __subdf3(uint64_t a, uint64_t b);
uint64_t __muldf3(uint64_t a, uint64_t b);
uint64_t __divdf3(uint64_t a, uint64_t b);
uint64_t __floatdidf(int64_t number);
uint64_t __floatundidf(uint64_t number);
int __unorddf2(uint64_t a, uint64_t b);
int __eqdf2(uint64_t a, uint64_t b);
int __nedf2(uint64_t a, uint64_t b);
int __ltdf2(uint64_t a, uint64_t b);
int __ledf2(uint64_t a, uint64_t b);
int __gtdf2(uint64_t a, uint64_t b);
int __gedf2(uint64_t a, uint64_t b);

#endif
