/* SPDX-License-Identifier: MIT OR Apache-2.0 */
/* Instructions that come back, by themselves or by an exception, and of which an exception's syndrome tells the whole word. */
#ifndef BOARD_WORDS_H
#define BOARD_WORDS_H

#include <stdint.h>

#define WORD_RET UINT32_C(0xD65F03C0)
#define WORD_SVC(immediate) (0xD4000001 | (uint32_t)(immediate) << 5)
#define WORD_HVC(immediate) (0xD4000002 | (uint32_t)(immediate) << 5)
#define WORD_SMC(immediate) (0xD4000003 | (uint32_t)(immediate) << 5)
#define WORD_BRK(immediate) (0xD4200000 | (uint32_t)(immediate) << 5)

#endif
