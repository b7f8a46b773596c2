/* SPDX-License-Identifier: MIT OR Apache-2.0 */
/* The partner is run where Linux's driver is told that a notification is pending for it. */
#define pr_fmt(fmt) "ffa_try: " fmt

#include <linux/printk.h>
#include <linux/rwsem.h>

#include "try.h"

/*
 * Requests to the partner hold this for reading, and who runs it for writing: whoever runs a
 * partition that was stopped in a request, or has yielded, is given the answer.
 */
static DECLARE_RWSEM(requests);

/*
 * Who sends it a message and has it taken by a request holds this so: behind its cycles the partner
 * has no message any more.
 */
static DECLARE_RWSEM(messages);

void begin_message(void)
{
	if (schedules)
		down_read(&messages);
}

void end_message(void)
{
	if (schedules)
		up_read(&messages);
}

void begin_request(const struct ffa_device *device)
{
	if (schedules && device->vm_id == partner->vm_id)
		down_read(&requests);
}

void end_request(const struct ffa_device *device)
{
	if (schedules && device->vm_id == partner->vm_id)
		up_read(&requests);
}

#if SPEAKS_1_1
static unsigned int runs, failed;

static void run_partner(u16 processor, bool is_of_processor, void *data)
{
	down_write(&messages);
	down_write(&requests);
	runs++;
	failed += partner->ops->cpu_ops->run(partner, 0) != 0;
	up_write(&requests);
	up_write(&messages);
}

int send_notification(int id)
{
	return partner->ops->notifier_ops->notify_send(partner, id, false, 0);
}

void begin_schedule(void)
{
	const struct ffa_notifier_ops *ops = partner->ops->notifier_ops;

	if (!schedules)
		return;
	tell("Linux runs the partition", ops->sched_recv_cb_register(partner, run_partner, NULL),
	     0);
}

void end_schedule(void)
{
	const struct ffa_notifier_ops *ops = partner->ops->notifier_ops;

	if (!schedules)
		return;
	tell("Linux runs it no more", ops->sched_recv_cb_unregister(partner), 0);
	down_write(&requests);
	pr_info("note: Linux ran it %u times\n", runs);
	tell("runs of it that failed", failed, 0);
	up_write(&requests);
}
#else
int send_notification(int id)
{
	return -EOPNOTSUPP;
}

void begin_schedule(void)
{
}

void end_schedule(void)
{
}
#endif
