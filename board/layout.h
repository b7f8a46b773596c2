/* SPDX-License-Identifier: MIT OR Apache-2.0 */
/* Numbers that the firmware's C, its assembly and the program of the endpoints agree on. */
#ifndef BOARD_LAYOUT_H
#define BOARD_LAYOUT_H

/* Where QEMU's machine `virt` has what is used of it, and where the firmware has what it needs. The machine's RAM begins with the
 * board's, or where run.sh says; the firmware and the two texts that run.sh loads stand behind the 64 MiB that a machine has at most. */
#ifndef UART_BASE
#define UART_BASE 0x09000000
#endif
#ifndef RAM_BASE
#define RAM_BASE 0x40000000
#endif
#ifndef TABLES_AT
#define TABLES_AT RAM_BASE /* where the endpoints' tables begin */
#endif
#ifndef FIRMWARE_BASE
#define FIRMWARE_BASE 0x44000000 /* board.ld has it too */
#endif
#define MANIFEST_TEXT 0x48000000
#define SCENE_TEXT 0x49000000

#define STACK_BYTES 0x100000
#define SECOND_STACK_BYTES 0x10000

/* The immediates of the hypercalls by which an endpoint's program and the firmware work together. 0 is FF-A's. A word that a
 * scene fetches may be a hypercall with an immediate from FIRST_FETCHED on. */
#define HVC_FFA 0
#define HVC_NEXT 1      /* what is to be done next? x16 answers with a place in the program's table, x0 to x7 with operands */
#define HVC_SEEN 2      /* x0 to x7 are what the program saw when it ran again */
#define HVC_TOLD 3      /* the access was done, and x0 is what was loaded */
#define HVC_EXCEPTION 4 /* an exception was taken at EL1: x9 ESR_EL1, x10 FAR_EL1, x11 ELR_EL1 */
#define HVC_MADE 5      /* the generator made up an operation: x0 to x7 of a call, x8 its kind, x9 address, x10 size, x11 value */
#define HVC_ASK 6       /* a question of the generator: x0 is one of those below */
#define HVC_LOOPED 7    /* the program went round until there was an end */
#define FIRST_FETCHED 256

/* Places in the program's table. A load or a store of 2^n bytes is at its place plus n. */
#define DO_LOAD 0
#define DO_STORE 4
#define DO_FETCH 8
#define DO_SMC 9
#define DO_HVC 10
#define DO_GENERATE 11
#define DO_LOOP 12

/* What the stack pointer counts in each round of a loop. */
#define LOOP_STACK 16

/* Where the program's table of vectors begins, in its page. */
#define PROGRAM_VECTORS 0x800

/* Questions of a generator, which x0 is: of the machine and of itself; of the page x2 that the endpoint at place x1 had at first; of the
 * notice x1, which x2 to x7 are then; and another in its stead. x0 answers with the seed, and with the page or 0. */
#define ASK_MACHINE 0 /* x1 its place, x2 how many endpoints, x3 RAM's first byte, x4 RAM's pages, x5 the page of its program, x6 that of the
                       * normal world's on another processor */
#define ASK_PAGE 1
#define ASK_NOTICE 2
#define TELL_NOTICE 3
#define ASK_BUFFERS 4  /* may the endpoint use TX now? x0 answers 0, 1, or 2 where another processor's normal world did meanwhile */
#define TELL_BUFFERS 5 /* it uses TX no more */
#define MOST_NOTICES 48
#define NOTICE_WORDS 6

/* Where a program that awaits a word stores how often it looked, so many bytes behind its page's start. */
#define PROGRAM_SCRATCH 0xFF8

/* Where an endpoint that has a generator has it: its code, and its variables with its stack above them, so many bytes before the program. */
#define GENERATOR_CODE 0x5000
#define GENERATOR_VARIABLES 0x3000

/* Places of a struct generator, and of a struct operation. */
#define GENERATOR_ANSWERED 64
#define OPERATION_ADDRESS 8
#define OPERATION_SIZE 16
#define OPERATION_VALUE 24
#define OPERATION_X 32

/* Places of a struct context. */
#define CONTEXT_PC 248
#define CONTEXT_FPCR 264
#define CONTEXT_Q 288

#endif
