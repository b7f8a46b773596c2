/* SPDX-License-Identifier: MIT OR Apache-2.0 */
#include "psci.h"
#include "processor.h"

#define CPU_ON UINT64_C(0xC4000003)

void second_start(void);

bool start_processor(uint64_t number) {
    register uint64_t function __asm__("x0") = CPU_ON;
    register uint64_t processor __asm__("x1") = number;
    register uint64_t entry __asm__("x2") = (uintptr_t)second_start;
    register uint64_t unused __asm__("x3") = 0;
    DO("dsb ish");
    __asm__ volatile("smc #0" : "+r"(function), "+r"(processor), "+r"(entry), "+r"(unused) : : "memory");
    return function == 0;
}
