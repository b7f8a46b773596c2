/* SPDX-License-Identifier: MIT OR Apache-2.0 */
/* What the parts of the module share. */
#ifndef FFA_TRY_H
#define FFA_TRY_H

#include <linux/arm_ffa.h>
#include <linux/scatterlist.h>
#include <linux/sizes.h>
#include <linux/types.h>
#include <linux/version.h>

#include "work.h"

/*
 * Of the kernels that it is built for, 6.12 has a driver of FF-A 1.1, and newer ones of 1.2. That of
 * 6.1 is one of 1.0: it offers no indirect messages, no cycles and no notifications, and takes
 * FFA_YIELD for no answer.
 */
#define SPEAKS_1_1 (LINUX_VERSION_CODE >= KERNEL_VERSION(6, 12, 0))
#define SPEAKS_1_2 (LINUX_VERSION_CODE >= KERNEL_VERSION(7, 0, 0))

/* What the core refused a partition, which says so in its answer. */
#define REFUSED_INVALID (-2)
#define REFUSED_BUSY (-4)
#define REFUSED_DENIED (-6)

/* try.c: the partition that the driver is bound to, and one that shares are offered to as well. */
extern struct ffa_device *partner;
extern struct ffa_device second;

/* What the core takes: ranges of one transaction, and open transactions of a sender. */
extern unsigned int ranges, open;

/* Whether Linux is told whom to run: what it notifies the partner of comes back then. */
extern bool schedules;

/* Places that aren't Linux's. */
extern unsigned long table_at, partition_at, firmware_at, device_at, outside_at;

/* What is tried, what came of it, and what is wanted. */
void tell(const char *what, long found, long wanted);

/*
 * A direct request: what the partition answers in x3, which is 0 or what the core refused it, or an
 * error of Linux's.
 */
int ask(struct ffa_device *device, u64 work, struct ffa_send_direct_data *data);
/* The same for who may not wait, where nobody runs the partner. */
int ask_at_once(struct ffa_device *device, u64 work, struct ffa_send_direct_data *data);
int ask_of(u64 work, u64 argument, u64 other);

/* pieces.c: memory in pieces of a page of Linux's each. */
struct pieces {
	unsigned int count;
	struct sg_table table;
	u64 *page[];
};

#define WORDS_OF_PAGE (PAGE_SIZE / sizeof(u64))
#define PAGES_OF_PIECE (PAGE_SIZE / SZ_4K) /* of the core */

struct pieces *take_pieces(unsigned int count);
void give_pieces_back(struct pieces *of);
/* What couldn't be had back from a partition is kept from Linux. */
void give_reclaimed_back(struct pieces *of, int error);

/* Their words, as the partition makes them of a seed: in the order of the pieces. */
void fill_pieces(struct pieces *of, u64 seed);
u64 sum_of(u64 seed, u64 words);
/* How many words aren't those of the seed. */
long other_words(const struct pieces *of, u64 seed);

/* How pieces are sent. */
struct sending {
	bool lend;
	bool own_buffer; /* the descriptor stands in a buffer of its own, and not in TX */
	u32 flags;
	u8 rights; /* of the partner; none where it isn't offered to it */
	u8 second_rights;
};

int send_pieces(struct pieces *of, const struct sending *how, u64 *handle);
/* A page that isn't Linux's: only its address is used. */
int send_place(phys_addr_t at);
int reclaim(u64 handle, u32 flags);

/* What is tried, by file. */
void try_messages(void);
void try_memory(void);
void try_reach(void);
void measure(unsigned int rounds, unsigned int pieces);
void try_works(unsigned int requests);
void try_random(unsigned int rounds, u64 seed);

/*
 * messages.c: FFA_MSG_SEND2, and notifications that the partner may set. Both are -EOPNOTSUPP where
 * Linux doesn't have them.
 */
int send_message(struct ffa_device *device, const void *text, size_t size);
int want_notification(int id, void (*come)(int id, void *data), void *data);
int drop_notification(int id);

/*
 * schedule.c: who runs the partner waits for requests to it, and these for that. Between begin and
 * end of its schedule it is run for notifications that are sent to it.
 */
void begin_request(const struct ffa_device *device);
void end_request(const struct ffa_device *device);
/* So it waits where a message to the partner is taken by a request, from before it is sent on. */
void begin_message(void);
void end_message(void);
void begin_schedule(void);
void end_schedule(void);
int send_notification(int id);

#endif
