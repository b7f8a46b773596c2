/* SPDX-License-Identifier: MIT OR Apache-2.0 */
/*
 * A partition that works long for one processor: that one's timer goes on ringing, and the calls of
 * the other processors are served.
 */
#define pr_fmt(fmt) "ffa_try: " fmt

#include <linux/completion.h>
#include <linux/cpumask.h>
#include <linux/err.h>
#include <linux/hrtimer.h>
#include <linux/irqflags.h>
#include <linux/jiffies.h>
#include <linux/kthread.h>
#include <linux/ktime.h>
#include <linux/limits.h>
#include <linux/minmax.h>
#include <linux/printk.h>
#include <linux/sched.h>

#include "try.h"

#define MILLISECONDS 50     /* of a request */
#define MEASURED 2000000    /* rounds, by which it is found how many these are */
#define MEASURES 5
#define MOST_OTHERS 7
#define ASKED_IN 64         /* the partition that works is asked in so many turns */
#define NOTIFICATION 4

static const ktime_t period = NSEC_PER_MSEC;

/* One who works, on processor 0; the others have one each. */
struct worker {
	struct completion done;
	unsigned int processor;
	unsigned int requests, shares, busy, failed;
	unsigned int refused; /* requests to the partition that works */
};

static struct worker first, others[MOST_OTHERS];
static unsigned int wanted, rings, rings_meanwhile;
static u64 rounds, ns;
static bool over, is_sent;
static struct completion back;

static enum hrtimer_restart ring(struct hrtimer *timer)
{
	WRITE_ONCE(rings, rings + 1);
	hrtimer_forward_now(timer, period);
	return HRTIMER_RESTART;
}

/* Its timer is its processor's, so that no other one rings for it. */
static void set_up(struct hrtimer *timer)
{
#if SPEAKS_1_2
	hrtimer_setup(timer, ring, CLOCK_MONOTONIC, HRTIMER_MODE_REL_PINNED);
#else
	hrtimer_init(timer, CLOCK_MONOTONIC, HRTIMER_MODE_REL_PINNED);
	timer->function = ring;
#endif
}

static void on_notification(int id, void *data)
{
	complete(&back);
}

static void note(struct worker *of, unsigned int *good, int error)
{
	*good += !error;
	of->busy += error == -EBUSY;
	of->failed += error && error != -EBUSY;
}

/* Once it was busy for the first of the others, that one notifies it. */
static void ask_the_one_that_works(struct worker *of)
{
	int error = ask_of(WORK_ADD, 1, 0);

	of->refused += error == -EBUSY;
	of->failed += error && error != -EBUSY;
	if (!schedules || of != &others[0] || of->refused != 1 || error != -EBUSY)
		return;
	is_sent = true;
	of->failed += send_notification(NOTIFICATION) != 0;
}

static void share_once(struct worker *of, struct pieces *pieces)
{
	static const struct sending share = { .rights = FFA_MEM_RW };
	u64 handle;
	int error = send_pieces(pieces, &share, &handle);

	note(of, &of->shares, error ? error : reclaim(handle, 0));
}

/* The first of the others has the second partition for itself. */
static int run_other(void *data)
{
	struct worker *of = data;
	struct pieces *pieces = take_pieces(1);
	unsigned int turn;

	for (turn = 0; !READ_ONCE(over); turn++) {
		struct ffa_send_direct_data asked = { .data1 = turn };

		if (of == &others[0])
			note(of, &of->requests, ask(&second, WORK_ADD, &asked));
		if (pieces)
			share_once(of, pieces);
		if (turn % ASKED_IN == 0 || !of->refused)
			ask_the_one_that_works(of);
		cond_resched();
	}
	if (pieces)
		give_pieces_back(pieces);
	kthread_complete_and_exit(&of->done, 0);
}

static int run_first(void *data)
{
	struct hrtimer timer;
	u64 begin;
	int error;

	set_up(&timer);
	hrtimer_start(&timer, period, HRTIMER_MODE_REL_PINNED);
	while (first.requests < wanted && !first.failed) {
		unsigned int before = READ_ONCE(rings);

		begin = ktime_get_ns();
		error = ask_of(WORK_SPIN, rounds, 0);
		first.refused += error == -EBUSY;
		if (error == -EBUSY)
			continue;
		ns += ktime_get_ns() - begin;
		rings_meanwhile += READ_ONCE(rings) - before;
		note(&first, &first.requests, error);
	}
	hrtimer_cancel(&timer);
	kthread_complete_and_exit(&first.done, 0);
}

static void begin_worker(struct worker *of, unsigned int processor, int (*run)(void *data))
{
	struct task_struct *thread = kthread_create(run, of, "works%u", processor);

	of->processor = processor;
	init_completion(&of->done);
	if (IS_ERR(thread)) {
		of->failed++;
		complete(&of->done);
		return;
	}
	kthread_bind(thread, processor);
	wake_up_process(thread);
}

static unsigned int begin_others(void)
{
	unsigned int processor, count = 0;

	for_each_online_cpu(processor) {
		if (processor && count < MOST_OTHERS)
			begin_worker(&others[count++], processor, run_other);
	}
	return count;
}

static void tell_all(unsigned int count)
{
	struct worker all = {};
	unsigned int i;

	for (i = 0; i < count; i++) {
		all.requests += others[i].requests;
		all.shares += others[i].shares;
		all.busy += others[i].busy;
		all.failed += others[i].failed;
		all.refused += others[i].refused;
	}
	pr_info("works: %u requests of %llu ms, with %u timer interrupts on that processor meanwhile; %u others: %u requests and %u shares served, %u busy; the partition that works was busy for them %u times\n",
		first.requests, ns / NSEC_PER_MSEC / max(first.requests, 1U), rings_meanwhile, count,
		all.requests, all.shares, all.busy, all.refused);
	tell("a partition that works, and timers that ring meanwhile", rings_meanwhile >= 10 * wanted, 1);
	tell("others' calls that were busy meanwhile", all.busy, 0);
	tell("calls that failed meanwhile", all.failed + first.failed, 0);
	tell("others were served meanwhile", !count || (all.requests && all.shares), 1);
}

/* What is due doesn't stop the partition then: Linux couldn't take it, and it would go on coming. */
static int ask_with_interrupts_masked(void)
{
	struct ffa_send_direct_data data = { .data1 = rounds / 4 };
	unsigned long flags;
	int error;

	local_irq_save(flags);
	error = ask_at_once(partner, WORK_SPIN, &data);
	local_irq_restore(flags);
	return error;
}

/* A notification that the partition is sent while it works, is run for, and sends back. */
static void begin_notification(void)
{
	int error;

	init_completion(&back);
	if (!schedules)
		return;
	error = want_notification(NOTIFICATION, on_notification, NULL);
	tell("notification for while it works, asked for", error, 0);
	tell("it wants the same", ask_of(WORK_BIND, BIT(NOTIFICATION), 0), 0);
}

static void end_notification(void)
{
	if (!schedules)
		return;
	tell("it was notified while it worked", is_sent, 1);
	tell("it was run for that, and sent it back",
	     wait_for_completion_timeout(&back, 10 * HZ) != 0, 1);
	tell("its notification is dropped", drop_notification(NOTIFICATION), 0);
}

/* Measured by the fastest of some, since the machine may have other work meanwhile. */
static int find_rounds(void)
{
	u64 least = U64_MAX;
	unsigned int i;
	int error = 0;

	for (i = 0; i < MEASURES && !error; i++) {
		u64 begin = ktime_get_ns();

		error = ask_of(WORK_SPIN, MEASURED, 0);
		least = min(least, ktime_get_ns() - begin);
	}
	rounds = div64_u64((u64)MEASURED * MILLISECONDS * NSEC_PER_MSEC, least);
	return error;
}

void try_works(unsigned int requests)
{
	unsigned int i, count;

	tell("a partition that works, alone", find_rounds(), 0);
	tell("a partition that works, with interrupts masked", ask_with_interrupts_masked(), 0);
	begin_notification();
	wanted = requests;
	begin_worker(&first, 0, run_first);
	count = begin_others();
	wait_for_completion(&first.done);
	WRITE_ONCE(over, true);
	for (i = 0; i < count; i++)
		wait_for_completion(&others[i].done);
	tell_all(count);
	end_notification();
}
