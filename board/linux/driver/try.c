/* SPDX-License-Identifier: MIT OR Apache-2.0 */
/*
 * A driver on Linux's ffa bus, which asks all that the bus offers of the partition that it is bound
 * to, and says what came of it: a line `ok` or `FAILED` for each thing. What the core refuses is
 * wanted here by its error, too.
 */
#define pr_fmt(fmt) "ffa_try: " fmt

#include <linux/module.h>
#include <linux/moduleparam.h>
#include <linux/printk.h>

#include "try.h"

#define SECOND_UUID "bdcd76d7-825e-4751-963b-86d4f84943ac"

static unsigned int rounds;
module_param(rounds, uint, 0);
MODULE_PARM_DESC(rounds, "how often requests and shares are measured");

static unsigned int pieces = 64;
module_param(pieces, uint, 0);
MODULE_PARM_DESC(pieces, "how many pieces the greater of the measured shares has");

static unsigned int works;
module_param(works, uint, 0);
MODULE_PARM_DESC(works, "how many requests a partition works for a long time, while others call");

bool schedules;
module_param(schedules, bool, 0);
MODULE_PARM_DESC(schedules, "whether Linux is told whom to run");

static unsigned int random;
module_param(random, uint, 0);
MODULE_PARM_DESC(random, "how many rounds the random clients go in all");

static ulong seed = 1;
module_param(seed, ulong, 0);
MODULE_PARM_DESC(seed, "what the random clients are made of");

unsigned int ranges = 64;
module_param(ranges, uint, 0);
MODULE_PARM_DESC(ranges, "how many ranges the core takes in one transaction");

unsigned int open = 16;
module_param(open, uint, 0);
MODULE_PARM_DESC(open, "how many transactions of a sender may be open");

unsigned long table_at = 0x40000000;
module_param(table_at, ulong, 0);
MODULE_PARM_DESC(table_at, "a page of a table of the core");

unsigned long partition_at = 0x43E00000;
module_param(partition_at, ulong, 0);
MODULE_PARM_DESC(partition_at, "a page of a partition");

unsigned long firmware_at = 0x44000000;
module_param(firmware_at, ulong, 0);
MODULE_PARM_DESC(firmware_at, "a page of the firmware");

unsigned long device_at = 0x09010000;
module_param(device_at, ulong, 0);
MODULE_PARM_DESC(device_at, "a page of a device that isn't Linux's");

unsigned long outside_at = 0x50000000;
module_param(outside_at, ulong, 0);
MODULE_PARM_DESC(outside_at, "a page outside the machine's RAM");

struct ffa_device *partner;
struct ffa_device second;
static unsigned int tried, failed;

void tell(const char *what, long found, long wanted)
{
	tried++;
	if (found == wanted) {
		pr_info("ok: %s: %ld\n", what, found);
		return;
	}
	failed++;
	pr_err("FAILED: %s: %ld, and not %ld\n", what, found, wanted);
}

int ask_at_once(struct ffa_device *device, u64 work, struct ffa_send_direct_data *data)
{
	int error;

	data->data0 = work;
	error = device->ops->msg_ops->sync_send_receive(device, data);
	return error ? error : (int)data->data0;
}

int ask(struct ffa_device *device, u64 work, struct ffa_send_direct_data *data)
{
	int answer;

	begin_request(device);
	answer = ask_at_once(device, work, data);
	end_request(device);
	return answer;
}

int ask_of(u64 work, u64 argument, u64 other)
{
	struct ffa_send_direct_data data = { .data1 = argument, .data2 = other };

	return ask(partner, work, &data);
}

static void introduce(const struct ffa_device *device)
{
	u32 version = device->ops->info_ops->api_version_get();

#if SPEAKS_1_1
	pr_info("note: bound to %04x, %pUb, properties %x; the core's version is %x\n",
		device->vm_id, &device->uuid, device->properties, version);
#else
	pr_info("note: bound to %04x, %pUb; the core's version is %x\n",
		device->vm_id, &device->uuid, version);
#endif
}

/*
 * The second partition has a driver of its own. Of its device this needs no more than its
 * identifier, for requests to it.
 */
static int find_second(void)
{
	struct ffa_partition_info info[4] = {};
	int error = partner->ops->info_ops->partition_info_get(SECOND_UUID, info);

	second.vm_id = info[0].id;
	second.ops = partner->ops;
	return error;
}

static int try_all(struct ffa_device *device)
{
	if (partner)
		return -EBUSY;
	if (!ranges)
		return -EINVAL;
	partner = device;
	introduce(device);
	tell("the second partition, by its UUID", find_second(), 0);
	if (rounds)
		measure(rounds, pieces);
	begin_schedule();
	if (works)
		try_works(works);
	if (random)
		try_random(random, seed);
	try_messages();
	try_memory();
	try_reach();
	end_schedule();
	pr_info("%u tried, %u failed\n", tried, failed);
	return 0;
}

static void forget(struct ffa_device *device)
{
	partner = NULL;
}

static const struct ffa_device_id wanted[] = {
	{ UUID_INIT(0x00112233, 0x4455, 0x6677,
		    0x88, 0x99, 0xAA, 0xBB, 0xCC, 0xDD, 0xEE, 0xFF) },
	{}
};

static struct ffa_driver try_driver = {
	.name = "ffa_try",
	.probe = try_all,
	.remove = forget,
	.id_table = wanted,
};
module_ffa_driver(try_driver);

MODULE_LICENSE("Dual MIT/GPL");
MODULE_DESCRIPTION("Asks a partition all that Linux's ffa bus offers");
