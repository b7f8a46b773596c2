/* SPDX-License-Identifier: MIT OR Apache-2.0 */
/* Memory that is sent to partitions, in pieces that need not lie together. */
#include <linux/mm.h>
#include <linux/slab.h>

#include "try.h"

struct pieces *take_pieces(unsigned int count)
{
	struct pieces *of = kzalloc(struct_size(of, page, count), GFP_KERNEL);
	struct scatterlist *sg;
	unsigned int i;

	if (!of)
		return NULL;
	if (sg_alloc_table(&of->table, count, GFP_KERNEL)) {
		kfree(of);
		return NULL;
	}
	for_each_sg(of->table.sgl, sg, count, i) {
		of->page[i] = (u64 *)get_zeroed_page(GFP_KERNEL);
		if (!of->page[i]) {
			give_pieces_back(of);
			return NULL;
		}
		of->count++;
		sg_set_page(sg, virt_to_page(of->page[i]), PAGE_SIZE, 0);
	}
	return of;
}

void give_pieces_back(struct pieces *of)
{
	unsigned int i;

	for (i = 0; i < of->count; i++)
		free_page((unsigned long)of->page[i]);
	sg_free_table(&of->table);
	kfree(of);
}

void give_reclaimed_back(struct pieces *of, int error)
{
	if (!error)
		give_pieces_back(of);
}

void fill_pieces(struct pieces *of, u64 seed)
{
	unsigned int i, at;

	for (i = 0; i < of->count; i++)
		for (at = 0; at < WORDS_OF_PAGE; at++)
			of->page[i][at] = WORK_WORD(seed, i * WORDS_OF_PAGE + at);
}

u64 sum_of(u64 seed, u64 words)
{
	u64 sum = 0, place;

	for (place = 0; place < words; place++)
		sum += WORK_WORD(seed, place);
	return sum;
}

long other_words(const struct pieces *of, u64 seed)
{
	unsigned int i, at;
	long others = 0;

	for (i = 0; i < of->count; i++)
		for (at = 0; at < WORDS_OF_PAGE; at++)
			others += of->page[i][at] != WORK_WORD(seed, i * WORDS_OF_PAGE + at);
	return others;
}

static int send(struct ffa_mem_ops_args *args, bool lend)
{
	const struct ffa_mem_ops *ops = partner->ops->mem_ops;

	return lend ? ops->memory_lend(args) : ops->memory_share(args);
}

static struct ffa_mem_region_attributes receiver_of(const struct ffa_device *device, u8 rights)
{
	return (struct ffa_mem_region_attributes){ .receiver = device->vm_id, .attrs = rights };
}

int send_pieces(struct pieces *of, const struct sending *how, u64 *handle)
{
	struct ffa_mem_region_attributes receivers[2] = {};
	struct ffa_mem_ops_args args = {
		.use_txbuf = !how->own_buffer,
		.flags = how->flags,
		.sg = of->table.sgl,
		.attrs = receivers,
	};
	int error;

	if (how->rights)
		receivers[args.nattrs++] = receiver_of(partner, how->rights);
	if (how->second_rights)
		receivers[args.nattrs++] = receiver_of(&second, how->second_rights);
	error = send(&args, how->lend);
	*handle = args.g_handle;
	return error;
}

int send_place(phys_addr_t at)
{
	struct ffa_mem_region_attributes receiver = receiver_of(partner, FFA_MEM_RW);
	struct scatterlist sg;
	struct ffa_mem_ops_args args = {
		.use_txbuf = true,
		.sg = &sg,
		.attrs = &receiver,
		.nattrs = 1,
	};
	int error;

	sg_init_table(&sg, 1);
	sg_set_page(&sg, pfn_to_page(PHYS_PFN(at)), PAGE_SIZE, 0);
	error = send(&args, false);
	if (!error)
		reclaim(args.g_handle, 0);
	return error;
}

int reclaim(u64 handle, u32 flags)
{
	return partner->ops->mem_ops->memory_reclaim(handle, flags);
}
