/* SPDX-License-Identifier: MIT OR Apache-2.0 */
/* How long things take: where the emulator counts instructions as time, these are instructions. */
#define pr_fmt(fmt) "ffa_try: " fmt

#include <linux/ktime.h>
#include <linux/printk.h>

#include "try.h"

/* Of one of the rounds, with what Linux does for it; they end with the first that is refused. */
struct measured {
	unsigned int rounds;
	int error;
	u64 ns;
};

static void measure_requests(struct measured *of)
{
	u64 begin = ktime_get_ns();
	unsigned int i;

	for (i = 0; i < of->rounds && !of->error; i++)
		of->error = ask_of(WORK_ADD, i, 0);
	of->rounds = i;
	of->ns = (ktime_get_ns() - begin) / i;
}

static const struct sending share = { .rights = FFA_MEM_RW };

static int share_once(struct pieces *pieces)
{
	u64 handle;
	int error = send_pieces(pieces, &share, &handle);

	return error ? error : reclaim(handle, 0);
}

static void measure_shares(struct measured *of, unsigned int count)
{
	struct pieces *pieces = take_pieces(count);
	u64 begin = ktime_get_ns();
	unsigned int i;

	if (!pieces) {
		of->error = -ENOMEM;
		return;
	}
	for (i = 0; i < of->rounds && !of->error; i++)
		of->error = share_once(pieces);
	of->rounds = i;
	of->ns = (ktime_get_ns() - begin) / i;
	give_pieces_back(pieces); /* what is refused is no reclaim */
}

void measure(unsigned int rounds, unsigned int pieces)
{
	struct measured request = { .rounds = rounds }, one = request, many = request;

	measure_requests(&request);
	measure_shares(&one, 1);
	measure_shares(&many, pieces);
	pr_info("note: %u rounds: a request and its answer take %llu ns, a share and its reclaim %llu ns, of %u pieces %llu ns; the last of %u and %u shares came to %d and %d\n",
		request.rounds, request.ns, one.ns, pieces, many.ns, one.rounds, many.rounds,
		one.error, many.error);
}
