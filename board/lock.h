/* SPDX-License-Identifier: MIT OR Apache-2.0 */
/* A lock of several processors: 1 where one of them has it. */
#ifndef BOARD_LOCK_H
#define BOARD_LOCK_H

#include <stdbool.h>
#include <stdint.h>

static inline bool try_lock(uint32_t *of) { return __atomic_exchange_n(of, 1, __ATOMIC_SEQ_CST) == 0; }

static inline void take_lock(uint32_t *of) {
    while (!try_lock(of)) continue;
}

static inline void release_lock(uint32_t *of) { __atomic_store_n(of, 0, __ATOMIC_SEQ_CST); }

#endif
