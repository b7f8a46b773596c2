/* SPDX-License-Identifier: MIT OR Apache-2.0 */
/*
 * Clients that all work at once, each in a thread and with a generator of its own: what each of
 * them does is random, and what comes of it has to be right.
 */
#define pr_fmt(fmt) "ffa_try: " fmt

#include <linux/completion.h>
#include <linux/delay.h>
#include <linux/err.h>
#include <linux/jiffies.h>
#include <linux/kernel.h>
#include <linux/kthread.h>
#include <linux/log2.h>
#include <linux/mm.h>
#include <linux/prandom.h>
#include <linux/printk.h>
#include <linux/rwsem.h>
#include <linux/sched.h>
#include <linux/sizes.h>

#include "try.h"

#define CLIENTS 8
#define MOST_BYTES SZ_1M /* of one share or lend */
#define MOST_TIMES 1000  /* that a request is made again where the partition is busy */
#define NOTIFICATION 8   /* of the first client, each has its own */

struct client {
	struct rnd_state random;
	struct completion done, notified;
	bool has_notification;
	unsigned int number, rounds, round;
	unsigned int requests, shares, lends, reclaims, received, sent, refused, failed;
};

/* The partner, for requests of 32 bits. */
static struct ffa_device narrow;

/*
 * A handle that was reclaimed stays nobody's for as long as this is held for writing: whoever sends
 * holds it for reading.
 */
static DECLARE_RWSEM(senders);

static u32 below(struct client *of, u32 limit)
{
	return prandom_u32_state(&of->random) % limit;
}

static u64 word_of(struct client *of)
{
	u64 high = prandom_u32_state(&of->random);

	return high << 32 | prandom_u32_state(&of->random);
}

/* What came of something. What is wanted to be refused is counted as that. */
static void expect(struct client *of, const char *what, long found, long wanted)
{
	if (found == wanted) {
		of->refused += wanted < 0;
		return;
	}
	of->failed++;
	pr_err("FAILED: random: client %u, round %u: %s: %ld, and not %ld\n",
	       of->number, of->round, what, found, wanted);
}

/* The others go on. */
static void rest(struct client *of)
{
	if (below(of, 4))
		schedule();
	else
		usleep_range(50, 500);
}

/*
 * A request of another client may be with the partition, which has yielded, or its message may be
 * in the partition's RX. Both end by themselves.
 */
static int ask_until(struct client *of, struct ffa_device *device, u64 work,
		     struct ffa_send_direct_data *data)
{
	const struct ffa_send_direct_data asked = *data;
	unsigned int times;
	int answer = 0;

	for (times = 0; times < MOST_TIMES; times++) {
		*data = asked;
		of->requests++;
		answer = ask(device, work, data);
		if (answer != -EBUSY && answer != REFUSED_BUSY)
			break;
		of->refused++;
		usleep_range(200, 2000);
	}
	return answer;
}

static struct ffa_device *partition_of(unsigned int place)
{
	return place ? &second : partner;
}

static void go_wide(struct client *of)
{
	struct ffa_send_direct_data asked = {
		.data1 = word_of(of),
		.data2 = word_of(of),
		.data3 = word_of(of),
		.data4 = word_of(of),
	};
	struct ffa_send_direct_data data = asked;
	int answer = ask_until(of, partition_of(below(of, 2)), WORK_ADD, &data);

	expect(of, "request", answer, 0);
	expect(of, "answers, each one more",
	       data.data1 == asked.data1 + 1 && data.data2 == asked.data2 + 1 &&
	       data.data3 == asked.data3 + 1 && data.data4 == asked.data4 + 1, 1);
}

static void go_narrow(struct client *of)
{
	u32 first = word_of(of) >> 33, last = word_of(of) >> 33;
	struct ffa_send_direct_data data = { .data1 = first, .data4 = last };

	expect(of, "request of 32 bits", ask_until(of, &narrow, WORK_ADD, &data), 0);
	expect(of, "answers of 32 bits, each one more",
	       data.data1 == first + 1 && data.data4 == last + 1, 1);
}

static void go_yielding(struct client *of)
{
	u64 times = 1 + below(of, 3);
	struct ffa_send_direct_data data = { .data1 = times };
	int answer = ask_until(of, partition_of(below(of, 2)), WORK_YIELD, &data);

	expect(of, "request of a partition that yields", answer, 0);
	expect(of, "its answer", data.data1, times);
}

static u64 sum_of_bytes(const u8 *text, size_t size)
{
	u64 sum = 0;

	while (size--)
		sum += text[size];
	return sum;
}

static void send_and_take(struct client *of, const u8 *text, size_t size)
{
	struct ffa_send_direct_data data = {};
	int error;

	expect(of, "the partition listens", ask_until(of, partner, WORK_LISTEN, &data), 0);
	error = send_message(partner, text, size);
	if (error == -EBUSY) {
		of->refused++;
		return;
	}
	expect(of, "indirect message", error, 0);
	if (error)
		return;
	rest(of);
	expect(of, "the partition takes it", ask_until(of, partner, WORK_TAKE, &data), 0);
	expect(of, "its bytes", data.data1 == sum_of_bytes(text, size) && data.data2 == size, 1);
}

/* The partition has one message at a time, and whoever sent it has it taken. */
static void go_message(struct client *of)
{
	u8 text[64];
	size_t size = 1 + below(of, sizeof(text));

	prandom_bytes_state(&of->random, text, size);
	begin_message();
	send_and_take(of, text, size);
	end_message();
}

static void on_notification(int id, void *data)
{
	complete(data);
}

static void expect_notification(struct client *of, const char *what, int error)
{
	expect(of, what, error, 0);
	if (error)
		return;
	expect(of, "it comes", wait_for_completion_timeout(&of->notified, 10 * HZ) != 0, 1);
}

/*
 * The partition sets the client's notification, and it comes, or the client sends it to the
 * partition, and it comes back.
 */
static void go_notified(struct client *of)
{
	const int id = NOTIFICATION + of->number;
	struct ffa_send_direct_data data = { .data1 = BIT(id) };
	int error;

	if (!of->has_notification)
		return;
	reinit_completion(&of->notified);
	if (schedules && below(of, 2)) {
		of->sent++;
		error = send_notification(id);
		expect_notification(of, "notification to the partition", error);
		return;
	}
	of->received++;
	error = ask_until(of, partner, WORK_NOTIFY, &data);
	expect_notification(of, "the partition sets a notification", error);
}

static void go_foreign(struct client *of)
{
	const unsigned long places[] = { table_at, partition_at, outside_at };
	int error = send_place(places[below(of, ARRAY_SIZE(places))]);

	expect(of, "share of what isn't Linux's", error, -EACCES);
	error = reclaim(word_of(of) | BIT_ULL(63), 0);
	expect(of, "reclaim of what is nothing", error, -EINVAL);
}

/* A transaction, and what stands in its pages: the words of a seed, or zeros. */
struct transaction {
	struct client *by;
	struct pieces *of;
	struct sending how;
	u64 handle, seed;
	bool zeros;
	bool held[2];
};

static u8 rights_of(const struct transaction *in, unsigned int place)
{
	return place ? in->how.second_rights : in->how.rights;
}

static struct sending choose(struct client *of, bool lend)
{
	static const u8 rights[] = { FFA_MEM_RW, FFA_MEM_RW, FFA_MEM_RO, 0 };
	struct sending how = { .lend = lend, .rights = rights[below(of, 4)] };

	how.second_rights = how.rights ? rights[1 + below(of, 3)] : FFA_MEM_RW;
	if (how.lend && below(of, 4))
		how.second_rights = how.rights ? 0 : how.second_rights;
	if (below(of, how.lend ? 3 : 16) == 0)
		how.flags = FFA_MEM_CLEAR;
	if (below(of, 32) == 0)
		how.second_rights |= FFA_MEM_EXEC;
	return how;
}

static int wanted_of(const struct sending *how)
{
	if (how->second_rights & FFA_MEM_EXEC)
		return -EINVAL;
	if (!how->lend && how->flags & FFA_MEM_CLEAR)
		return -EINVAL;
	return 0;
}

/* Small counts as often as great ones. */
static unsigned int choose_count(struct client *of)
{
	unsigned int most = min_t(unsigned int, MOST_BYTES / PAGE_SIZE, ranges);

	return 1 + below(of, min(most, 1U << below(of, order_base_2(most) + 1)));
}

static int send(struct transaction *in, u64 *handle)
{
	int error;

	down_read(&senders);
	error = send_pieces(in->of, &in->how, handle);
	up_read(&senders);
	return error;
}

static int send_first(struct transaction *in)
{
	int error;

	fill_pieces(in->of, in->seed);
	error = send(in, &in->handle);
	expect(in->by, in->how.lend ? "lend" : "share", error, wanted_of(&in->how));
	in->zeros = in->how.flags & FFA_MEM_CLEAR;
	return error;
}

/* What is in a transaction is sent once more, which is wrong. */
static void send_again(struct transaction *in)
{
	u64 handle;
	int error = send(in, &handle);

	expect(in->by, "pages that are in a transaction", error, -EACCES);
	if (!error)
		expect(in->by, "reclaim of these", reclaim(handle, 0), 0);
}

/* A receiver finds in the pages what has to stand there, and may leave words of its own. */
static void use(struct transaction *in, unsigned int place, bool keep)
{
	bool reads = rights_of(in, place) == FFA_MEM_RO || below(in->by, 4) == 0;
	u64 seed = word_of(in->by), words = in->of->count * WORDS_OF_PAGE;
	struct ffa_send_direct_data data = {
		.data1 = in->handle,
		.data2 = seed,
		.data3 = reads ? WORK_READS : 0,
	};
	int error = ask_until(in->by, partition_of(place), keep ? WORK_HOLD : WORK_FILL, &data);

	expect(in->by, "retrieve", error, 0);
	if (error)
		return;
	in->held[place] = keep;
	expect(in->by, "pages", data.data2, in->of->count * PAGES_OF_PIECE);
	expect(in->by, "words that it found",
	       data.data1 == (in->zeros ? 0 : sum_of(in->seed, words)), 1);
	if (reads)
		return;
	in->seed = seed;
	in->zeros = false;
}

/* Retrieves that have to be refused: of who wasn't offered it, and of who holds it. */
static void use_wrongly(struct transaction *in, unsigned int place)
{
	struct ffa_send_direct_data data = { .data1 = in->handle };
	int answer = ask_until(in->by, partition_of(place), WORK_HOLD, &data);

	expect(in->by, "retrieve that is wrong", answer,
	       rights_of(in, place) ? REFUSED_DENIED : REFUSED_INVALID);
}

static int relinquish(struct transaction *in, unsigned int place)
{
	struct ffa_send_direct_data data = { .data1 = in->handle };

	return ask_until(in->by, partition_of(place), WORK_DROP, &data);
}

/* Once, or once more, which is wrong. */
static void drop(struct transaction *in, unsigned int place)
{
	int error = relinquish(in, place);

	expect(in->by, "it relinquishes", error, 0);
	in->held[place] = error;
	if (!error && below(in->by, 4) == 0)
		expect(in->by, "and once more", relinquish(in, place), REFUSED_DENIED);
}

static void use_by_each(struct transaction *in)
{
	unsigned int place;

	for (place = 0; place < 2; place++) {
		rest(in->by);
		if (rights_of(in, place) && below(in->by, 4))
			use(in, place, below(in->by, 2));
		if ((in->held[place] || !rights_of(in, place)) && below(in->by, 4) == 0)
			use_wrongly(in, place);
	}
	if (below(in->by, 4) == 0)
		send_again(in);
	if (in->held[0] || in->held[1])
		expect(in->by, "reclaim, too early", reclaim(in->handle, 0), -EACCES);
	for (place = 0; place < 2; place++) {
		rest(in->by);
		if (in->held[place])
			drop(in, place);
	}
}

static long wrong_words(const struct transaction *in)
{
	unsigned int i;
	long wrong = 0;

	if (!in->zeros)
		return other_words(in->of, in->seed);
	for (i = 0; i < in->of->count; i++)
		wrong += memchr_inv(in->of->page[i], 0, PAGE_SIZE) != NULL;
	return wrong;
}

/* Once, or once more, which is wrong. */
static int have_back(struct transaction *in)
{
	u32 flags = below(in->by, 8) ? 0 : FFA_MEM_CLEAR;
	bool twice = below(in->by, 8) == 0;
	int error;

	if (twice)
		down_write(&senders);
	error = reclaim(in->handle, flags);
	if (twice)
		expect(in->by, "reclaim once more", reclaim(in->handle, flags), -EINVAL);
	if (twice)
		up_write(&senders);
	expect(in->by, "reclaim", error, 0);
	in->by->reclaims += !error;
	in->zeros |= !error && flags;
	return error;
}

static void go_memory(struct client *of, bool lend)
{
	struct transaction in = { .by = of, .how = choose(of, lend), .seed = word_of(of) };
	int error;

	in.of = take_pieces(choose_count(of));
	if (!in.of) {
		expect(of, "pages of Linux's", -ENOMEM, 0);
		return;
	}
	if (send_first(&in)) {
		give_pieces_back(in.of);
		return;
	}
	of->lends += lend;
	of->shares += !lend;
	use_by_each(&in);
	if (!lend)
		expect(of, "words that aren't the last, while it is shared", wrong_words(&in), 0);
	error = have_back(&in);
	if (!error)
		expect(of, "words that aren't the last", wrong_words(&in), 0);
	give_reclaimed_back(in.of, error);
}

static void go_share(struct client *of)
{
	go_memory(of, false);
}

static void go_lend(struct client *of)
{
	go_memory(of, true);
}

/* What a client does in a round. The last three aren't for a driver of FF-A 1.0. */
static void (*const ways[])(struct client *of) = {
	go_wide, go_narrow, go_foreign,
	go_share, go_share, go_lend, go_lend,
	go_message, go_yielding, go_notified,
};

#define WAYS (ARRAY_SIZE(ways) - (SPEAKS_1_1 ? 0 : 3))

static int run_client(void *data)
{
	struct client *of = data;

	for (of->round = 0; of->round < of->rounds; of->round++) {
		ways[below(of, WAYS)](of);
		rest(of);
	}
	kthread_complete_and_exit(&of->done, 0);
}

static void begin_client(struct client *of, unsigned int number, unsigned int rounds, u64 seed)
{
	struct ffa_send_direct_data data = { .data1 = BIT(NOTIFICATION + number) };
	struct task_struct *thread;
	int error;

	of->number = number;
	of->rounds = rounds / CLIENTS + (number < rounds % CLIENTS);
	prandom_seed_state(&of->random, seed + number * 0x9E3779B97F4A7C15ULL);
	init_completion(&of->done);
	init_completion(&of->notified);
	error = want_notification(NOTIFICATION + number, on_notification, &of->notified);
	of->has_notification = !error;
	if (error != -EOPNOTSUPP)
		expect(of, "a notification of its own", error, 0);
	if (schedules)
		expect(of, "the partition wants it", ask_until(of, partner, WORK_BIND, &data), 0);
	thread = kthread_run(run_client, of, "client%u", number);
	if (!IS_ERR(thread))
		return;
	expect(of, "a thread of its own", PTR_ERR(thread), 0);
	complete(&of->done);
}

static void count_client(struct client *all, struct client *of)
{
	wait_for_completion(&of->done);
	if (of->has_notification)
		expect(of, "its notification is dropped",
		       drop_notification(NOTIFICATION + of->number), 0);
	all->round += of->round;
	all->requests += of->requests;
	all->shares += of->shares;
	all->lends += of->lends;
	all->reclaims += of->reclaims;
	all->received += of->received;
	all->sent += of->sent;
	all->refused += of->refused;
	all->failed += of->failed;
}

void try_random(unsigned int rounds, u64 seed)
{
	static struct client clients[CLIENTS];
	struct client all = {};
	unsigned int i;

	narrow.vm_id = partner->vm_id;
	narrow.mode_32bit = true;
	narrow.ops = partner->ops;
	memset(clients, 0, sizeof(clients));
	for (i = 0; i < CLIENTS; i++)
		begin_client(&clients[i], i, rounds, seed);
	for (i = 0; i < CLIENTS; i++)
		count_client(&all, &clients[i]);
	pr_info("random: %u rounds by %u threads: %u requests, %u shares, %u lends, %u reclaims, %u notifications to Linux and %u to the partition, %u refused as wanted, %u failed\n",
		all.round, CLIENTS, all.requests, all.shares, all.lends, all.reclaims, all.received,
		all.sent, all.refused, all.failed);
	tell("random rounds that weren't gone", rounds - all.round, 0);
	tell("what failed in random rounds", all.failed, 0);
}
