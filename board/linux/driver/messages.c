/* SPDX-License-Identifier: MIT OR Apache-2.0 */
/* Direct requests, indirect messages and notifications. */
#define pr_fmt(fmt) "ffa_try: " fmt

#include <linux/delay.h>
#include <linux/jiffies.h>
#include <linux/ktime.h>
#include <linux/printk.h>

#include "try.h"

#define NOTIFICATION 3
#define WAITED_FOR 100 /* times 20 ms */

static void try_requests(void)
{
	struct ffa_send_direct_data data = {
		.data1 = 1,
		.data2 = 0xFFFFFFFF,
		.data3 = 0x123456789ABCDEF0,
		.data4 = ~0UL,
	};

	tell("direct request", ask(partner, WORK_ADD, &data), 0);
	tell("its answer, with 64 bits",
	     data.data1 == 2 && data.data2 == 0x100000000 && data.data3 == 0x123456789ABCDEF1 &&
	     data.data4 == 0, 1);
	tell("an answer in the form of 32 bits", ask_of(WORK_NARROW, 1, 0), -EINVAL);
}

static void try_long(void)
{
	ktime_t begin = ktime_get();
	unsigned long ticks = jiffies;

	tell("a partition that works long", ask_of(WORK_SPIN, 20000000, 0), 0);
	pr_info("note: it took %lld ms, with %lu ticks of Linux's\n",
		ktime_ms_delta(ktime_get(), begin), jiffies - ticks);
	msleep(50);
	pr_info("note: and %lld ms and %lu ticks behind a sleep of 50 ms\n",
		ktime_ms_delta(ktime_get(), begin), jiffies - ticks);
}

#if SPEAKS_1_1
int send_message(struct ffa_device *device, const void *text, size_t size)
{
	return device->ops->msg_ops->indirect_send(device, (void *)text, size);
}

int want_notification(int id, void (*come)(int id, void *data), void *data)
{
	return partner->ops->notifier_ops->notify_request(partner, false, come, data, id);
}

int drop_notification(int id)
{
	return partner->ops->notifier_ops->notify_relinquish(partner, id);
}

static void try_cycles(void)
{
	tell("a partition that yields three times first", ask_of(WORK_YIELD, 3, 0), 0);
	begin_request(partner);
	tell("cycles, which the partition gives back", partner->ops->cpu_ops->run(partner, 0), 0);
	end_request(partner);
}

static void try_indirect(void)
{
	static const char message[] = "a message of Linux's";
	struct ffa_send_direct_data data = {};
	u64 sum = 0;
	unsigned int i;

	for (i = 0; i < sizeof(message); i++)
		sum += message[i];
	begin_message();
	tell("the partition listens", ask_of(WORK_LISTEN, 0, 0), 0);
	tell("indirect message", send_message(partner, message, sizeof(message)), 0);
	tell("and another, before it was taken",
	     send_message(partner, message, sizeof(message)), -EBUSY);
	tell("the partition takes it", ask(partner, WORK_TAKE, &data), 0);
	tell("its bytes", data.data1 == sum && data.data2 == sizeof(message), 1);
	end_message();
}

static unsigned int came;

static void on_notification(int id, void *data)
{
	WRITE_ONCE(came, came + (id == NOTIFICATION));
}

/* How often it came, when it has come so often or is waited for no more. */
static unsigned int wait_for(unsigned int times)
{
	unsigned int i;

	for (i = 0; i < WAITED_FOR && READ_ONCE(came) < times; i++)
		msleep(20);
	return READ_ONCE(came);
}

/* What the partition sets comes to Linux, and what it isn't bound to any more doesn't. */
static void try_received(void)
{
	tell("the partition sets it", ask_of(WORK_NOTIFY, BIT(NOTIFICATION), 0), 0);
	tell("so often it came", wait_for(1), 1);
	tell("it isn't wanted any more", drop_notification(NOTIFICATION), 0);
	tell("the partition can't set it now",
	     ask_of(WORK_NOTIFY, BIT(NOTIFICATION), 0), REFUSED_DENIED);
}

static void try_sent(void)
{
	struct ffa_send_direct_data data = {};

	tell("the partition wants one", ask_of(WORK_BIND, BIT(NOTIFICATION), 0), 0);
	tell("notification, sent", send_notification(NOTIFICATION), 0);
	tell("the partition looks", ask(partner, WORK_LOOK, &data), 0);
	tell("the partition has it", data.data1, BIT(NOTIFICATION));
}

/* The partition is run for a message, and takes it then. */
static void try_message_for_run(void)
{
	struct ffa_send_direct_data data = {};
	unsigned int i;

	tell("message, for which the partition is run", send_message(partner, "run", 4), 0);
	for (i = 0; i < WAITED_FOR && !data.data2; i++) {
		msleep(20);
		ask(partner, WORK_TOLD, &data);
	}
	tell("so many bytes did it take then", data.data2, 4);
}

/* The partition waits, and is run for it: it has it, and tells it back. */
static void try_scheduled(void)
{
	struct ffa_send_direct_data data = {};
	int error = want_notification(NOTIFICATION, on_notification, NULL);

	tell("notification, asked for again", error, 0);
	tell("the partition wants one", ask_of(WORK_BIND, BIT(NOTIFICATION), 0), 0);
	tell("it had none before", ask(partner, WORK_TOLD, &data), 0);
	tell("notification, sent", send_notification(NOTIFICATION), 0);
	tell("so often it came, and came back", wait_for(2), 2);
	tell("the partition tells what it had", ask(partner, WORK_TOLD, &data), 0);
	tell("it had it", data.data1, BIT(NOTIFICATION));
	tell("it isn't wanted again", drop_notification(NOTIFICATION), 0);
	try_message_for_run();
}

/* Linux has notifications only where it is told of an interrupt for them. */
static void try_notifications(void)
{
	const struct ffa_notifier_ops *ops = partner->ops->notifier_ops;
	int error = want_notification(NOTIFICATION, on_notification, NULL);

	if (error == -EOPNOTSUPP) {
		pr_info("note: Linux has no notifications here\n");
		return;
	}
	tell("notification, asked for", error, 0);
	try_received();
	tell("notification for one processor",
	     ops->notify_request(partner, true, on_notification, NULL, NOTIFICATION), -EINVAL);
	if (schedules)
		try_scheduled();
	else
		try_sent();
}
#else
int send_message(struct ffa_device *device, const void *text, size_t size)
{
	return -EOPNOTSUPP;
}

int want_notification(int id, void (*come)(int id, void *data), void *data)
{
	return -EOPNOTSUPP;
}

int drop_notification(int id)
{
	return -EOPNOTSUPP;
}

static void try_cycles(void)
{
}

static void try_indirect(void)
{
}

static void try_notifications(void)
{
	pr_info("note: Linux has no notifications here\n");
}
#endif

void try_messages(void)
{
	try_requests();
	try_cycles();
	try_long();
	try_indirect();
	try_notifications();
}
