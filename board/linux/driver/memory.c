/* SPDX-License-Identifier: MIT OR Apache-2.0 */
/* Shares and lends, what the core refuses of them, and how many transactions may be open. */
#define pr_fmt(fmt) "ffa_try: " fmt

#include <linux/kernel.h>
#include <linux/mm.h>
#include <linux/printk.h>
#include <linux/sizes.h>
#include <linux/slab.h>

#include "try.h"

#define MANY_PIECES 300

/*
 * Linux's TX: a page of its own, or 4 KiB where that is more than the core takes, or where the
 * driver is one of FF-A 1.0.
 */
#define TX_BYTES (SPEAKS_1_1 && PAGE_SIZE == SZ_16K ? SZ_16K : SZ_4K)
/* What stands before the ranges of a descriptor to one receiver. */
#define HEAD_BYTES (SPEAKS_1_2 ? 96 : SPEAKS_1_1 ? 80 : 64)
#define RANGES_OF_TX ((TX_BYTES - HEAD_BYTES) / 16)

/*
 * What comes of a share of so many pieces. What doesn't fit into TX goes in fragments, of which the
 * core takes none, and Linux has an error of its own for that.
 */
static int wanted_of(unsigned int count)
{
	if (count > RANGES_OF_TX)
		return -ENXIO;
	return count > ranges ? -EINVAL : 0;
}

/* A page, or pieces, for the partner to read and write. */
static const struct sending share = { .rights = FFA_MEM_RW };
static const struct sending lend = { .lend = true, .rights = FFA_MEM_RW };

/*
 * The partition reads and fills what it was sent and relinquishes: each side finds the words that
 * the other wrote. Answers what the reclaim came to.
 */
static int try_use(struct pieces *of, const struct sending *how, u64 handle)
{
	u64 words = of->count * WORDS_OF_PAGE;
	struct ffa_send_direct_data data = { .data1 = handle, .data2 = 2 };
	int error;

	tell("the partition retrieves, fills and relinquishes", ask(partner, WORK_FILL, &data), 0);
	tell("so many pages did it find", data.data2, of->count * PAGES_OF_PIECE);
	tell("words of Linux that it found as they were",
	     data.data1 == (how->flags & FFA_MEM_CLEAR ? 0 : sum_of(1, words)), 1);
	error = reclaim(handle, 0);
	tell("reclaim", error, 0);
	if (!error)
		tell("words that aren't the partition's", other_words(of, 2), 0);
	return error;
}

/* What is sent is used and had back, or is refused as it is wanted to be. */
static void try_send(const char *name, unsigned int count, const struct sending *how, int wanted)
{
	struct pieces *of = take_pieces(count);
	u64 handle;
	int error;

	if (!of) {
		tell(name, -ENOMEM, wanted);
		return;
	}
	fill_pieces(of, 1);
	error = send_pieces(of, how, &handle);
	tell(name, error, wanted);
	give_reclaimed_back(of, error ? 0 : try_use(of, how, handle));
}

static void try_count(const struct sending *how, unsigned int count)
{
	char name[32];

	snprintf(name, sizeof(name), "%s %u pieces", how->lend ? "lend" : "share", count);
	try_send(name, count, how, wanted_of(count));
}

static void try_served(void)
{
	struct sending zeroed = lend, both = share, lent_to_both = lend;

	zeroed.flags = FFA_MEM_CLEAR;
	both.second_rights = FFA_MEM_RO;
	lent_to_both.second_rights = FFA_MEM_RO;
	try_send("share a page", 1, &share, 0);
	try_send("lend a page", 1, &lend, 0);
	try_send("lend a page that is zeroed", 1, &zeroed, 0);
	try_send("share a page, offered to both", 1, &both, 0);
	try_send("lend a page, offered to both", 1, &lent_to_both, 0);
	try_count(&share, ranges);
	try_count(&lend, ranges);
}

static void try_refused(void)
{
	struct sending zeroed = share, beside = share, executable = share;

	zeroed.flags = FFA_MEM_CLEAR;
	beside.own_buffer = true;
	executable.rights |= FFA_MEM_EXEC;
	try_count(&share, ranges + 1);
	try_count(&share, MANY_PIECES);
	try_send("share by a buffer beside TX", 1, &beside, -EINVAL);
	try_send("share a page that may be executed", 1, &executable, -EINVAL);
	try_send("share a page that is zeroed", 1, &zeroed, -EINVAL);
	tell("share a partition's page", send_place(partition_at), -EACCES);
	tell("share a table of the core", send_place(table_at), -EACCES);
	tell("share what is outside RAM", send_place(outside_at), -EACCES);
	tell("reclaim what is nothing", reclaim(0x123456, 0), -EINVAL);
}

/* A share that stays open. */
struct kept {
	struct pieces *of;
	u64 handle;
};

static int keep_one(struct kept *kept)
{
	int error;

	kept->of = take_pieces(1);
	if (!kept->of)
		return -ENOSPC;
	error = send_pieces(kept->of, &share, &kept->handle);
	if (error)
		give_pieces_back(kept->of);
	return error;
}

/* How many transactions may be open at a time: what Linux's own drivers have open is among them. */
static void try_many(void)
{
	struct kept *kept = kcalloc(open + 1UL, sizeof(*kept), GFP_KERNEL);
	unsigned int count = 0;
	int error = 0;

	if (!kept) {
		tell("shares that stay open", -ENOSPC, 0);
		return;
	}
	while (count <= open && !error) {
		error = keep_one(&kept[count]);
		count += !error;
	}
	tell("shares that stay open, until there are too many", error, -ENOMEM);
	pr_info("note: %u more could be open\n", count);
	while (count--) {
		error = reclaim(kept[count].handle, 0);
		tell("reclaim of one of them", error, 0);
		give_reclaimed_back(kept[count].of, error);
	}
	kfree(kept);
}

/* A page that the partition keeps can't be reclaimed. */
static void try_held(void)
{
	struct pieces *of = take_pieces(1);
	int error = -ENOMEM;
	u64 handle;

	if (of)
		error = send_pieces(of, &lend, &handle);
	tell("lend a page, which the partition keeps", error, 0);
	if (error) {
		if (of)
			give_pieces_back(of);
		return;
	}
	tell("it retrieves and fills it", ask_of(WORK_HOLD, handle, 4), 0);
	tell("reclaim, too early", reclaim(handle, 0), -EACCES);
	tell("it relinquishes", ask_of(WORK_DROP, handle, 0), 0);
	error = reclaim(handle, 0);
	tell("reclaim", error, 0);
	if (!error)
		tell("words that aren't the partition's", other_words(of, 4), 0);
	give_reclaimed_back(of, error);
}

void try_memory(void)
{
	try_served();
	try_refused();
	try_many();
	try_held();
}
