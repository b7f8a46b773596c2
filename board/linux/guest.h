/* SPDX-License-Identifier: MIT OR Apache-2.0 */
/* Endpoints that run by themselves: Linux as 0000, and partitions. What board/ has of the processor and of the core's answers is used as it is. */
#ifndef BOARD_LINUX_GUEST_H
#define BOARD_LINUX_GUEST_H

#include "board.h"

/* The list of endpoints, which run.sh writes and has QEMU load here (place.c). */
#define ENDPOINT_LIST 0x49000000

/* Has each endpoint of the list begin where that says, in its image. */
void place_endpoints(struct board *board, const char *list);

/* Makes the processor ready for Linux and for partitions. */
void begin_guests(struct board *board);

/* Runs endpoints until Linux turns the board off. */
_Noreturn void run_guests(struct board *board);

/* A call of who runs: FF-A's go to the core, the others are answered by the firmware. */
void serve_trap(struct board *board);
uint64_t all_calls(void);       /* that reached the core */
uint64_t all_interrupts(void);  /* that stopped a partition */
void serve_power_call(struct board *board, struct context *context);

/* notify.c: answers a call of the normal world's that asks for an interrupt by which it hears of notifications, if it is one: whether it was. From then
 * on they are sent behind each call, where something is due. */
bool serve_feature(struct context *context);
void notify(const struct gorseplumb_machine *machine);

/* An abort that EL2 takes. Linux's access to a device is done for it; any other abort of Linux's is handed to it as an external one. */
void serve_abort(struct board *board, uint64_t syndrome);

/* Whether the instruction that had a translation fault is to be tried again (again.c), and how many were. */
bool is_tried_again(struct board *board, uint64_t address);
uint64_t all_tried_again(void);

/* Does the access to a device that an abort is about, if it is one: whether it was. */
bool serve_device(struct context *context, uint64_t syndrome, uint64_t address);

/* What the core does is printed as a trace with its outcomes, between the lines of Linux: what a call reads in TX, the call, what it answers, and
 * what it wrote to RX. */
void record_call(struct board *board, const struct gorseplumb_registers *registers);
void record_answer(struct board *board, const struct gorseplumb_registers *registers, const struct gorseplumb_outcome *outcome);
void record_interrupt(const struct gorseplumb_outcome *outcome);
void record_store(uint64_t address, unsigned size, uint64_t value);

/* A line of the firmware's own begins: it ends the line of Linux's that is open. */
void begin_line(void);

/* An exception of an endpoint, as such a line. */
void tell(const struct endpoint *endpoint, const char *what, uint64_t syndrome, uint64_t address);

#endif
