/* SPDX-License-Identifier: MIT OR Apache-2.0 */
/* What isn't Linux's, or isn't any more, is out of its reach. */
#define pr_fmt(fmt) "ffa_try: " fmt

#include <linux/delay.h>
#include <linux/err.h>
#include <linux/io.h>
#include <linux/kthread.h>
#include <linux/printk.h>
#include <linux/sched/task.h>

#include "try.h"

static bool loaded;

static int load(void *at)
{
	u64 word = READ_ONCE(*(u64 *)at);

	WRITE_ONCE(loaded, true);
	pr_info("note: a thread loaded %llx\n", word);
	return 0;
}

/* The thread that tries has an external abort, which is its end, and Linux goes on without it. */
static void try_load(const char *what, void *at)
{
	struct task_struct *thread = kthread_create(load, at, "reach");

	pr_info("note: a thread of the kernel reaches for %s\n", what);
	if (IS_ERR(thread)) {
		tell(what, PTR_ERR(thread), 0);
		return;
	}
	WRITE_ONCE(loaded, false);
	get_task_struct(thread);
	wake_up_process(thread);
	while (!READ_ONCE(thread->exit_state))
		msleep(20);
	put_task_struct(thread);
	tell(what, READ_ONCE(loaded), 0);
}

static void try_place(const char *what, phys_addr_t at)
{
	void __iomem *mapped = ioremap(at, PAGE_SIZE);

	if (!mapped) {
		tell(what, -ENOMEM, 0);
		return;
	}
	try_load(what, (void __force *)mapped);
	iounmap(mapped);
}

static void try_lent(void)
{
	static const struct sending lend = { .lend = true, .rights = FFA_MEM_RW };
	struct pieces *of = take_pieces(1);
	int error = -ENOMEM;
	u64 handle;

	if (of)
		error = send_pieces(of, &lend, &handle);
	tell("lend a page, which Linux then reaches for", error, 0);
	if (error) {
		if (of)
			give_pieces_back(of);
		return;
	}
	try_load("a page that is lent", of->page[0]);
	error = reclaim(handle, 0);
	tell("reclaim behind that", error, 0);
	if (!error) {
		WRITE_ONCE(of->page[0][0], 5);
		tell("Linux has its page again", READ_ONCE(of->page[0][0]), 5);
	}
	give_reclaimed_back(of, error);
}

void try_reach(void)
{
	try_lent();
	try_place("a table of the core", table_at);
	try_place("a partition's page", partition_at);
	try_place("the firmware", firmware_at);
	try_place("a device that isn't Linux's", device_at);
}
