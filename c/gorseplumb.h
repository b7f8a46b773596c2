/* SPDX-License-Identifier: MIT OR Apache-2.0 */
/* Gorseplumb in C: the core of a partition manager for Arm FF-A 1.1 and 1.2. You need this header if your firmware,
 * test bench or other C program runs a machine. A machine has RAM, endpoints, stage 2 tables and a state, and does one
 * operation at a time. docs/EMBEDDING.md has the steps of the work. example.c is the shortest program.
 *
 * How to link it: link libgorseplumb.a. Your program must also have these functions:
 *
 * - rattle_alloc, rattle_realloc and rattle_dealloc, which are declared below. Link heap.c, which has them, or write
 *   your own.
 * - memcpy, memmove and memset, as in C.
 * - gorseplumb_settle, which is declared below. If no processor walks the tables, link unsettled.c, which has it.
 *   Otherwise write your own.
 *
 * The proof: each function of this header keeps the contract of its namesake in crates/ffa_c/src. The proof ends there.
 * Only tests show that the declarations below agree with the crate. Only tests show what this header says about pieces
 * of memory, and what it says that a question does not write. If `c/archive --unproved` made the archive, no proof
 * covers its code, and gorseplumb_version says so.
 *
 * Language: the headers compile as C99 and C++11, and as later versions. array.c needs C11 for _Alignas. So does a
 * program that has its own pages, such as freestanding.c.
 *
 * Names: every name begins with gorseplumb_ or GORSEPLUMB_. The exceptions are the three functions of memory, whose
 * names come from the toolchain. The header does not use the standard's names of calls and error codes, because
 * firmware has headers with these names. If you have no such header, include gorseplumb_ffa.h, which has the names with
 * this prefix.
 *
 * Your C code must keep the following rules. Nothing checks them. If your code breaks a rule, no promise of this header
 * holds any longer.
 *
 * - Pointers. No pointer is null. A pointer points to memory of its type that C may write, and no other parameter of
 *   the call points to this memory. For a pointer to const, C need only be allowed to read this memory. For a text, C
 *   must be allowed to read `size` bytes. An array has the number of places that you pass. Otherwise a call reads or
 *   writes memory that is not for it.
 * - Structs for a machine, a list or pages. Such a struct begins as { 0 }, and in C++ as {}. After that, C writes no
 *   field of it, and does not follow `at`. Only for a slot and a span, C may write the fields, as described below.
 *   Otherwise the library takes a wrong address for a machine, a list or a page.
 * - Moves of such a struct. C may move the struct by copying it, if C uses only the copy from then on. Otherwise two
 *   structs hold the same thing, and each of them can end it.
 * - One call at a time. While a call with a machine, a list, a slot or a span is in progress, C makes no other call
 *   with it. This includes calls on other processors, and calls in handlers of signals and interrupts. Two questions
 *   may not overlap either. Otherwise the tables may give access that nobody granted, and nothing notices.
 * - Lent memory. From the time when you lend memory until you take it back, C neither reads nor writes it, through any
 *   mapping. Endpoints that a processor runs access it, each within the access that the machine gives to it. During a
 *   call, they may write the pages of the caller's TX, because the call first copies the bytes of TX that it reads. The
 *   page docs/CONCURRENCY.md says what else they may write then. The page docs/SECURITY.md says which part of this has
 *   no proof. Otherwise bytes and tables of the machine are not what the contracts say.
 * - Unaligned accesses. The processor must do unaligned accesses to the library's memory and to the stack. On AArch64,
 *   both must be normal memory, with SCTLR_ELx.A clear. If the MMU is off, memory is device memory, and these accesses
 *   fault.
 * - Enums. An enum of this header is 32 bits wide. Compilers make it so without the option -fshort-enums. Otherwise C
 *   and the library disagree about the size of an answer.
 */
#ifndef GORSEPLUMB_H
#define GORSEPLUMB_H

#include <stdbool.h>
#include <stddef.h>
#include <stdint.h>

#ifdef __cplusplus
extern "C" {
#endif

/* The number of these declarations. Each change that a caller must know about raises it. */
#define GORSEPLUMB_DECLARATIONS 13

/* Returns the number of the declarations by which the library was built. If your program loads the library while it
 * runs, compare this number with GORSEPLUMB_DECLARATIONS. */
uint32_t gorseplumb_declarations(void);

/* Returns the version of the library as text: "0.1.0". If the library was compiled without proofs
 * (`c/archive --unproved`), the text ends in " (not proved)". Such a library is other code. It keeps each check that a
 * proof makes needless. So it is slower and takes more stack, and it stops the program if such a check fails. */
const char *gorseplumb_version(void);

/* The size of a page in bytes. */
#define GORSEPLUMB_PAGE_SIZE 4096

/* A machine, or no machine. { 0 } has no machine. */
struct gorseplumb_machine {
    bool live;
    void *at;
};

/* A list of lent pages, or no list. { 0 } has no list. */
struct gorseplumb_lent {
    bool live;
    void *at;
};

/* The memory of one page, which is 4096 bytes, or no page. { 0 } has no page. C puts a page into the slot by writing
 * both fields: true to `live`, and the address to `at`. The library does not require any alignment, so the page may
 * begin at any byte. But if a processor walks the tables, the page must begin at a multiple of 4096. The reason is that
 * page i of the list must be at RAM's base + 4096 * i. */
struct gorseplumb_slot {
    bool live;
    void *at;
};

/* The memory of adjacent pages, 4096 bytes each, or no page. { 0 } has no page. C puts pages into the span by writing
 * both fields: the address of the first page to `at`, and the number of pages to `pages`. If this number is 0, the
 * library does not look at `at`. The alignment is as in struct gorseplumb_slot. */
struct gorseplumb_span {
    void *at;
    size_t pages;
};

/* A block of memory for the library, or no memory. The library takes all its memory by the next three functions, and
 * your program defines them. heap.c has them over malloc, and array.c has them over an array. The library calls them
 * while a call of the library is in progress, and they may not call the library. If calls on two machines overlap,
 * calls of these functions can overlap too. heap.c is then as safe as malloc, and array.c is not safe. */
struct gorseplumb_block {
    bool ok;  /* whether there is memory */
    void *at; /* the address of the memory, which is never null. If there is no memory, nobody follows this address */
};

/* Returns a new block of at least `size` bytes at a multiple of `align`. If there is no memory, `ok` is false. `size`
 * may be 0. `align` is a power of two, and is at most 16. The block overlaps no other block that exists. Only the
 * library uses it until the library gives it back. */
struct gorseplumb_block rattle_alloc(size_t size, size_t align);

/* Replaces a block that rattle_alloc or rattle_realloc returned, and returns a block of at least `size` bytes. The new
 * block is at the same place or elsewhere, and is otherwise as rattle_alloc returns one. Both blocks have at least
 * `kept` bytes, and the first `kept` bytes stay the same. The old block no longer exists. But if there is no memory,
 * `ok` is false, and the old block stays as it was. */
struct gorseplumb_block rattle_realloc(void *block, size_t kept, size_t size, size_t align);

/* Takes back a block that rattle_alloc or rattle_realloc returned. */
void rattle_dealloc(void *block);

/* Settles writes of the library. Your program defines this function, and without it your program does not link. The
 * library passes the identifier of an endpoint, the address of the first page, and the size of all pages in bytes. The
 * size is 0 if the library has filled the page at this address with zeros. Only a machine in lent RAM calls the
 * function. This happens while an operation, a boot or a copy is in progress, under the lock of that call. The function
 * may not call the library. docs/CONCURRENCY.md says when the library calls it.
 *
 * If no processor walks the tables, the function may do nothing, as in unsettled.c. Otherwise the function is your
 * firmware's own, and two things must be true when it returns. First, every processor and every walk of tables sees all
 * that the library has stored so far. Second, for the addresses of these pages, no processor holds a translation that
 * results from this endpoint's tables as they were before.
 *
 * On AArch64, execute DSB ISHST. Then, with the endpoint's VMID in VTTBR_EL2, execute TLBI IPAS2E1IS for each page, DSB
 * ISH, and TLBI VMALLE1IS. Last, execute DSB ISH and ISB. If the size is 0, only the first DSB is necessary. At the end
 * of each boot, the library passes RAM's address and a size of 2^32. With these two, the request is for all
 * translations that result from this endpoint's tables: execute TLBI VMALLS12E1IS. */
void gorseplumb_settle(uint16_t endpoint, uint64_t address, uint64_t size);

/* Registers x0 to x7. */
struct gorseplumb_registers {
    uint64_t x[8];
};

/* The kind of an outcome. */
enum gorseplumb_kind {
    GORSEPLUMB_KIND_REGISTERS = 0,  /* `runner` runs next and sees the registers `x` */
    GORSEPLUMB_KIND_DATA = 1,       /* `value` has the bytes that the access loaded or fetched, the lowest byte first */
    GORSEPLUMB_KIND_DONE = 2,       /* a store was done; or, for gorseplumb_interrupt, nothing has changed */
    GORSEPLUMB_KIND_FAULT = 3,      /* `value` is an enum gorseplumb_fault */
    GORSEPLUMB_KIND_NO_MACHINE = 4, /* there is no machine, and nothing was done */
    GORSEPLUMB_KIND_BAD_SIZE = 5,   /* the size is not 1, 2, 4 or 8, or gorseplumb_run does not know the kind, and nothing
                                     * was done. This is the answer with a machine and without one */
    GORSEPLUMB_KIND_RESUMED = 7     /* `runner` runs next and continues where an interrupt stopped it, with its own
                                     * registers. `x` is zeros, and is not for the runner */
};

/* The fault of an access. */
enum gorseplumb_fault {
    GORSEPLUMB_FAULT_TRANSLATION = 1, /* no descriptor maps the address */
    GORSEPLUMB_FAULT_PERMISSION = 2,  /* the descriptor lacks the right */
    GORSEPLUMB_FAULT_ALIGNMENT = 3,   /* the address is not a multiple of the size of the access */
    GORSEPLUMB_FAULT_ACCESS_FLAG = 4, /* the access flag of the descriptor is 0 */
    GORSEPLUMB_FAULT_OUTSIDE_RAM = 5  /* the walk or the access leaves RAM */
};

/* The outcome of an operation or of an interrupt. A field that the kind does not name is zero. */
struct gorseplumb_outcome {
    uint32_t kind;   /* an enum gorseplumb_kind, which names the other fields that have a meaning */
    uint32_t runner; /* the identifier of the endpoint that runs next */
    uint64_t value;
    uint64_t x[8];
};

/* The bytes of a page. */
struct gorseplumb_page {
    uint8_t bytes[GORSEPLUMB_PAGE_SIZE];
};

/* Adjacent pages that an endpoint owns from the start. */
struct gorseplumb_region {
    uint32_t base;   /* the address of the first byte */
    uint32_t pages;  /* the number of pages */
    uint32_t rights; /* the right to each page: GORSEPLUMB_READ or GORSEPLUMB_WRITE, with or without GORSEPLUMB_EXECUTE */
};

/* Rights. GORSEPLUMB_WRITE has two bits, because an endpoint that may write may also read. So the test
 * `access & GORSEPLUMB_WRITE` on an answer of gorseplumb_access is true for a page that may only be read, and for
 * GORSEPLUMB_NOTHING. Compare the answer with GORSEPLUMB_NOTHING first, and then test
 * `(access & GORSEPLUMB_WRITE) == GORSEPLUMB_WRITE`. */
#define GORSEPLUMB_READ 1
#define GORSEPLUMB_WRITE 3
#define GORSEPLUMB_EXECUTE 4

/* The most regions of an endpoint in a manifest, and the most endpoints of a machine. */
#define GORSEPLUMB_MOST_REGIONS 16
#define GORSEPLUMB_MOST_ENDPOINTS 8

/* The most blocks of RAM, and the most bytes of RAM. In a text, RAM's base must be a multiple of this number of bytes.
 * A library for larger machines is the same with another number of blocks, a power of two up to 512 (MOST_BLOCKS in
 * crates/ffa_model/src/limits.rt). */
#define GORSEPLUMB_MOST_BLOCKS 32
#define GORSEPLUMB_MOST_RAM (UINT32_C(0x200000) * GORSEPLUMB_MOST_BLOCKS)

/* An endpoint of a machine. The first endpoint is the normal world, and its UUID is zeros. */
struct gorseplumb_endpoint {
    uint32_t version;    /* the form of its descriptors: 0 for FF-A 1.1, 1 for the compact form, and 2 for FF-A 1.2. 2 needs
                          * `ffa` 1. With `ffa` 1, an endpoint can change its form by FFA_VERSION */
    uint32_t properties; /* as in a manifest's text: 1 receives direct requests, 2 sends them, 4 sends and receives
                          * indirect messages, 8 receives notifications. A partition with `version` 2 may also have
                          * 0x200, which receives second direct requests, and 0x400, which sends them */
    uint8_t uuid[16];
    uint32_t region_count; /* the number of `regions`, from the first on. The library does not read the places after them */
    struct gorseplumb_region regions[GORSEPLUMB_MOST_REGIONS];
};

/* The version of FF-A that a machine serves from its boot on. */
enum gorseplumb_ffa {
    GORSEPLUMB_FFA_1_1 = 0,
    GORSEPLUMB_FFA_1_2 = 1
};

/* A manifest as numbers. */
struct gorseplumb_manifest {
    uint32_t ram_base;       /* the address of RAM's first byte: a multiple of 0x200000, but not 0 */
    uint32_t ram_blocks;     /* the number of blocks of 2 MiB, from 1 to GORSEPLUMB_MOST_BLOCKS. All blocks are in one GiB:
                              * no multiple of 2^30 is inside RAM */
    uint32_t endpoint_count; /* the number of `endpoints`, from the first on. The library does not read the places after them */
    struct gorseplumb_endpoint endpoints[GORSEPLUMB_MOST_ENDPOINTS];
    uint32_t ffa; /* an enum gorseplumb_ffa. 0 is FF-A 1.1, and all memory is alike. 1 is FF-A 1.2: memory of the first
                   * endpoint's regions is non-secure, and all other memory is secure (docs/MEMORY.md). A text has no key
                   * for this number. A text that you boot or read is for FF-A 1.1, so no endpoint has version 2 there */
    uint32_t tables; /* the first page of the endpoints' tables. RAM's first page is 0. From this page on, each endpoint has
                      * 2 + ram_blocks pages, one endpoint after the other. Regions may be before and after them. A text
                      * has no key for this number */
};

/* The answer of a boot, a copy, an end, an audit, a function that reads or explains a manifest, or a function of lists.
 * No answer is an error code of FF-A: a call has its error code in its registers. */
enum gorseplumb_answer {
    GORSEPLUMB_OK = 0,        /* it was done */
    GORSEPLUMB_NO_MEMORY = 1, /* an allocation was refused */

    /* The library rejects the manifest, and this is the first cause that applies. docs/MANIFEST.md has these causes by
     * their numbers: M2 to M14, and M25 for the last one below. */
    GORSEPLUMB_MANIFEST_TOML = 2,            /* the text is not TOML, or not UTF-8 */
    GORSEPLUMB_MANIFEST_UNKNOWN_KEY = 3,     /* a table has a key that is not one of its keys */
    GORSEPLUMB_MANIFEST_MISSING_KEY = 4,     /* a table lacks one of its keys */
    GORSEPLUMB_MANIFEST_WRONG_KIND = 5,      /* a value of another kind, unknown rights, or `ffa` that is neither 0 nor 1 */
    GORSEPLUMB_MANIFEST_RAM_BASE = 6,        /* 0, or not a multiple of 0x200000. In a text, also not a multiple of GORSEPLUMB_MOST_RAM, or without room for that number of bytes below 4 GiB */
    GORSEPLUMB_MANIFEST_RAM_BLOCKS = 7,      /* not from 1 to GORSEPLUMB_MOST_BLOCKS, or not in one GiB */
    GORSEPLUMB_MANIFEST_ENDPOINT_COUNT = 8,  /* not from 1 to 8 */
    GORSEPLUMB_MANIFEST_UUID = 9,            /* not a UUID, zeros for a partition, or other than zeros for the normal world */
    GORSEPLUMB_MANIFEST_PROPERTY = 10,       /* a bit that the endpoint may not have. The normal world may not have bit 0 or bit 3, by which an endpoint receives */
    GORSEPLUMB_MANIFEST_REGION_COUNT = 11,   /* not from 1 to 16 */
    GORSEPLUMB_MANIFEST_REGION_OUTSIDE = 12, /* a region that is not whole pages in RAM, has a page of the tables, or has no page */
    GORSEPLUMB_MANIFEST_REGION_OVERLAP = 13, /* a region that has a page of an earlier region */
    GORSEPLUMB_MANIFEST_VERSION = 14,        /* an unknown version, or the version of FF-A 1.2 on a machine of FF-A 1.1 */

    GORSEPLUMB_OCCUPIED = 15,   /* there is already a machine, a list or a page */
    GORSEPLUMB_NO_LIST = 16,    /* there is no list */
    GORSEPLUMB_NO_PAGE = 17,    /* there is no page in the slot, in the span or in the list */
    GORSEPLUMB_HAS_PAGES = 18,  /* the list has pages still */
    GORSEPLUMB_NO_MACHINE = 19, /* there is no machine */
    GORSEPLUMB_WRONG_COUNT = 20, /* the list has more pages than the machine's RAM, or fewer */
    GORSEPLUMB_NOT_CERTIFIED = 21, /* the tables don't give what the runs say */
    GORSEPLUMB_LENT = 22,          /* the machine's RAM is lent: gorseplumb_end gives it back */
    GORSEPLUMB_BAD_BASE = 23,      /* RAM of this size cannot begin at this address */
    GORSEPLUMB_BAD_ROOTS = 24,     /* there are more roots than endpoints of a machine, or a root is not a page of RAM */

    GORSEPLUMB_MANIFEST_TABLES_OUTSIDE = 25 /* RAM does not have all tables from the page `tables` on */
};

/* The answer of a question for a number if there is no machine. gorseplumb_owner also returns it if there is no such
 * page, and gorseplumb_root if there is no such endpoint. */
#define GORSEPLUMB_NOTHING UINT32_C(0xFFFFFFFF)

/* Boots the machine that a manifest's text of `size` bytes describes, with RAM from the heap. Returns GORSEPLUMB_OK if
 * there was no machine, the text describes a machine, and `machine` now has it in its first state. Returns
 * GORSEPLUMB_OCCUPIED if there is a machine. Otherwise it returns the cause for which the library rejects the text,
 * which is the first one in the order of reading, or GORSEPLUMB_NO_MEMORY. If the answer is not GORSEPLUMB_OK, nothing
 * has changed. */
enum gorseplumb_answer gorseplumb_boot(struct gorseplumb_machine *machine, const uint8_t *text, size_t size);

/* Boots the machine of a manifest as numbers, with RAM from the heap. The boot takes memory only for the machine and
 * its RAM. Returns GORSEPLUMB_OK if there was no machine, the numbers describe a machine, and `machine` now has it in
 * its first state. Returns GORSEPLUMB_OCCUPIED if there is a machine. Otherwise it returns GORSEPLUMB_NO_MEMORY, or the
 * first cause that applies in this order. First, there may not be more endpoints than places
 * (GORSEPLUMB_MANIFEST_ENDPOINT_COUNT). Then each endpoint in turn must have a known version
 * (GORSEPLUMB_MANIFEST_VERSION), not more regions than places (GORSEPLUMB_MANIFEST_REGION_COUNT), and known rights
 * (GORSEPLUMB_MANIFEST_WRONG_KIND). Then `ffa` must be 0 or 1 (GORSEPLUMB_MANIFEST_WRONG_KIND). Then come the causes of
 * a text, in the order in which gorseplumb_boot would read it. Among these, GORSEPLUMB_MANIFEST_TABLES_OUTSIDE comes
 * after the count of endpoints. An endpoint with `version` 2 has the cause GORSEPLUMB_MANIFEST_VERSION there if `ffa`
 * is 0. If the answer is not GORSEPLUMB_OK, nothing has changed. */
enum gorseplumb_answer gorseplumb_boot_manifest(struct gorseplumb_machine *machine,
                                                const struct gorseplumb_manifest *manifest);

/* Boots the machine that a manifest's text of `size` bytes describes, in lent RAM: the pages of the list, in order. It
 * clears all pages except the pages of the tables. It takes memory while it reads the text, and gives this memory back.
 * The list has the memory for the machine. Returns GORSEPLUMB_OK if there was no machine, `machine` now has the machine
 * in its first state, and the list is empty. Returns GORSEPLUMB_OCCUPIED if there is a machine, and then
 * GORSEPLUMB_NO_LIST if there is no list. Otherwise it returns the cause for which gorseplumb_boot rejects the text, or
 * GORSEPLUMB_WRONG_COUNT if the manifest's RAM has more pages than the list, or fewer. RAM has 512 pages for each
 * block. Or it returns GORSEPLUMB_NO_MEMORY: while it reads the text, or if the list lacks memory as in
 * gorseplumb_boot_lent_manifest. If the answer is not GORSEPLUMB_OK, nothing has changed. */
enum gorseplumb_answer gorseplumb_boot_lent(struct gorseplumb_machine *machine, struct gorseplumb_lent *lent,
                                            const uint8_t *text, size_t size);

/* Boots the machine of a manifest as numbers in lent RAM, like gorseplumb_boot_lent for a text. It takes no memory if
 * the list has the memory for the machine. Returns GORSEPLUMB_OK as gorseplumb_boot_lent does. Returns
 * GORSEPLUMB_OCCUPIED if there is a machine, and then GORSEPLUMB_NO_LIST if there is no list. Otherwise it returns a
 * cause of gorseplumb_boot_manifest, GORSEPLUMB_WRONG_COUNT as gorseplumb_boot_lent does, or GORSEPLUMB_NO_MEMORY. It
 * returns GORSEPLUMB_NO_MEMORY only if the list lacks memory. Then the list has more pages than it was begun for, or
 * another machine that was booted in the list has this memory. If the answer is not GORSEPLUMB_OK, nothing has
 * changed. */
enum gorseplumb_answer gorseplumb_boot_lent_manifest(struct gorseplumb_machine *machine, struct gorseplumb_lent *lent,
                                                     const struct gorseplumb_manifest *manifest);

/* Boots the machine that a manifest's text describes in lent RAM, like gorseplumb_boot_lent, but keeps the bytes of
 * pages in the manifest's regions. So an image of a partition or of a kernel that you put there is there before the
 * first operation. A region that nobody may write to can have any bytes. All other pages are zeros, except the pages of
 * the tables. The tables replace all bytes that were in their pages. Returns what gorseplumb_boot_lent returns, in the
 * same order. If the answer is not GORSEPLUMB_OK, nothing has changed, and no byte of a page has changed. */
enum gorseplumb_answer gorseplumb_boot_preloaded(struct gorseplumb_machine *machine, struct gorseplumb_lent *lent,
                                            const uint8_t *text, size_t size);

/* Boots the machine of a manifest as numbers in lent RAM, and keeps the bytes of pages in the manifest's regions, like
 * gorseplumb_boot_preloaded for a text. Returns what gorseplumb_boot_lent_manifest returns, in the same order and with
 * GORSEPLUMB_NO_MEMORY only as there. If the answer is not GORSEPLUMB_OK, nothing has changed, and no byte of a page
 * has changed. */
enum gorseplumb_answer gorseplumb_boot_preloaded_manifest(struct gorseplumb_machine *machine, struct gorseplumb_lent *lent,
                                                     const struct gorseplumb_manifest *manifest);

/* Copies the machine of `original` to `machine`, with RAM from the heap, whichever RAM `original` has. Use the copy as
 * a checkpoint, or in a test that tries several operations from one state. Returns GORSEPLUMB_OK if `machine` had no
 * machine, and now has the copy. Each operation then gives in the copy what it gives in `original`, because all is the
 * same. This includes the state, every byte of RAM, the runner of each processor, the selected processor, the report of
 * changed access, and the notifications that the normal world already knows. From then on, neither machine changes the
 * other. Otherwise it returns the first answer that applies: GORSEPLUMB_OCCUPIED if `machine` has a machine,
 * GORSEPLUMB_NO_MACHINE if `original` has no machine, or GORSEPLUMB_NO_MEMORY. Then nothing has changed. For `original`
 * the copy is a question. If its RAM is lent, nobody may write there during the copy. Otherwise this header does not
 * say which of these bytes the copy has. */
enum gorseplumb_answer gorseplumb_copy(struct gorseplumb_machine *machine, const struct gorseplumb_machine *original);

/* Copies the machine of `original` to `machine`, like gorseplumb_copy, but into lent RAM: the pages of the list, in
 * order. It writes every byte of these pages, and settles as a boot does. Returns GORSEPLUMB_OK as gorseplumb_copy
 * does, and the list is empty then. Otherwise it returns the first answer that applies: GORSEPLUMB_OCCUPIED if
 * `machine` has a machine, GORSEPLUMB_NO_LIST, GORSEPLUMB_NO_MACHINE if `original` has no machine,
 * GORSEPLUMB_WRONG_COUNT, or GORSEPLUMB_NO_MEMORY. GORSEPLUMB_WRONG_COUNT means that the RAM of `original` has more
 * pages than the list, or fewer. RAM has 512 pages for each block, and gorseplumb_ram_blocks returns the number of
 * blocks. GORSEPLUMB_NO_MEMORY comes only if a boot from numbers in this list may return it. If the answer is not
 * GORSEPLUMB_OK, nothing has changed. To bring a machine back to where it came from, copy its copy into the pages that
 * gorseplumb_end gave back. The tables of a copy have the addresses of its RAM, which are the addresses of the RAM of
 * `original`. So if the pages of the copy are elsewhere, no processor walks its tables. */
enum gorseplumb_answer gorseplumb_copy_lent(struct gorseplumb_machine *machine, struct gorseplumb_lent *lent,
                                            const struct gorseplumb_machine *original);

/* Reads a manifest's text of `size` bytes into numbers from which you can boot. So you can lend RAM of the size that
 * the text describes. It takes memory while it reads, and gives all of it back. Returns GORSEPLUMB_OK if `manifest` now
 * gives what the text describes. `ffa` and `tables` are 0 then, and all is zeros after the endpoints and the regions
 * that are counted. Otherwise it returns GORSEPLUMB_NO_MEMORY, or the cause for which gorseplumb_boot would reject the
 * text. Then `manifest` stays as it was. */
enum gorseplumb_answer gorseplumb_read_manifest(const uint8_t *text, size_t size, struct gorseplumb_manifest *manifest);

/* Why the library rejects a manifest, and where. There is no padding between the fields. */
struct gorseplumb_refusal {
    uint32_t cause;    /* an enum gorseplumb_answer: GORSEPLUMB_MANIFEST_TOML and so on */
    uint32_t endpoint; /* the identifier of the endpoint at fault; GORSEPLUMB_NOTHING if the fault is elsewhere */
    uint64_t region;   /* the endpoint's region at fault, counted from 1; 0 if the fault is not in a region */
    uint64_t line;     /* for a text that is not UTF-8 or not TOML: the line where it ceases to be, counted from 1; otherwise 0 */
    uint64_t column;   /* the character in this line, counted from 1; otherwise 0 */
    uint64_t words;    /* the number of bytes of the words, without the NUL; 0 for numbers */
};

/* Explains why a boot rejects a manifest's text of `size` bytes: where, and in words. The words are the words of the
 * program with --verbose, such as which key has which value, and which values are allowed. The function takes memory,
 * and gives all of it back. Returns GORSEPLUMB_OK if the text describes a machine, or GORSEPLUMB_NO_MEMORY. With either
 * answer, it writes nothing. Otherwise it returns the cause, and writes the cause and the place to `refusal`. `words`
 * is an array of `room` bytes. The function writes the words there in UTF-8, with a NUL after them. If there is too
 * little room, it writes only their first bytes, and the NUL last. The bytes of `words` after the NUL stay as they
 * were. */
enum gorseplumb_answer gorseplumb_why_text(const uint8_t *text, size_t size, struct gorseplumb_refusal *refusal,
                                           uint8_t *words, size_t room);

/* Explains why a boot rejects a manifest as numbers, and where, without words. It takes no memory. Returns
 * GORSEPLUMB_OK if the numbers describe a machine, and leaves `refusal` as it was. Otherwise it returns the cause for
 * which gorseplumb_boot_manifest rejects the numbers, and writes the cause and the place to `refusal`. */
enum gorseplumb_answer gorseplumb_why_manifest(const struct gorseplumb_manifest *manifest, struct gorseplumb_refusal *refusal);

/* Does a call of the runner, which is the endpoint that runs on the selected processor, with eight registers. The
 * outcome and the machine's next state are as in the definition of the machine. Every promise that the machine's own
 * operations make also holds (docs/THEOREMS.md). Returns GORSEPLUMB_KIND_REGISTERS, also if the answer is FFA_ERROR.
 * Returns GORSEPLUMB_KIND_RESUMED if the call is FFA_RUN of a partition that an interrupt stopped, and the partition
 * continues. Returns GORSEPLUMB_KIND_NO_MACHINE if there is no machine, and nothing was done. A call with the answer
 * FFA_ERROR changes nothing. */
struct gorseplumb_outcome gorseplumb_call(struct gorseplumb_machine *machine, const struct gorseplumb_registers *registers);

/* Does a load of the runner, of 1, 2, 4 or 8 bytes, with the promises of gorseplumb_call. Returns GORSEPLUMB_KIND_DATA
 * with the bytes, or GORSEPLUMB_KIND_FAULT. Returns GORSEPLUMB_KIND_BAD_SIZE for another size, with a machine or
 * without one. Then it returns GORSEPLUMB_KIND_NO_MACHINE if there is no machine. With these two answers, nothing was
 * done. A load that faults changes nothing. */
struct gorseplumb_outcome gorseplumb_load(struct gorseplumb_machine *machine, uint64_t address, uint32_t size);

/* Does a store of the runner, with the promises of gorseplumb_call. It stores the lowest 1, 2, 4 or 8 bytes of the
 * value, as `size` says. Returns GORSEPLUMB_KIND_DONE or GORSEPLUMB_KIND_FAULT. Returns GORSEPLUMB_KIND_BAD_SIZE for
 * another size, with a machine or without one. Then it returns GORSEPLUMB_KIND_NO_MACHINE if there is no machine. With
 * these two answers, nothing was done. A store that faults changes nothing. */
struct gorseplumb_outcome gorseplumb_store(struct gorseplumb_machine *machine, uint64_t address, uint32_t size, uint64_t value);

/* Does a fetch of one instruction by the runner, with the promises of gorseplumb_call. Returns GORSEPLUMB_KIND_DATA
 * with the instruction, or GORSEPLUMB_KIND_FAULT. Returns GORSEPLUMB_KIND_NO_MACHINE if there is no machine, and
 * nothing was done. A fetch that faults changes nothing. */
struct gorseplumb_outcome gorseplumb_fetch(struct gorseplumb_machine *machine, uint64_t address);

/* The kind of an operation in a list. */
enum gorseplumb_operation_kind {
    GORSEPLUMB_OPERATION_CALL = 0,
    GORSEPLUMB_OPERATION_LOAD = 1,
    GORSEPLUMB_OPERATION_STORE = 2,
    GORSEPLUMB_OPERATION_FETCH = 3
};

/* An operation in a list. The library does not read a field that the kind does not use. */
struct gorseplumb_operation {
    uint32_t kind;    /* enum gorseplumb_operation_kind */
    uint32_t size;    /* of a load and of a store */
    uint64_t address; /* of a load, a store and a fetch */
    uint64_t value;   /* of a store */
    uint64_t x[8];    /* of a call */
};

/* Does operations one after another, each for the endpoint that runs at that time on the selected processor. The number
 * of operations is the lesser of `count` and `places`. Each operation does what its own function above does, and has
 * the same outcome, so every promise of that function holds. Returns the number of operations, and writes their
 * outcomes to `outcomes`. For an unknown kind, the outcome is as for an unknown size, GORSEPLUMB_KIND_BAD_SIZE, and the
 * next operation is done. The other places of `outcomes` stay as they were. */
size_t gorseplumb_run(struct gorseplumb_machine *machine, const struct gorseplumb_operation *operations, size_t count,
                      struct gorseplumb_outcome *outcomes, size_t places);

/* The number of processors that may run endpoints of a machine. Their numbers are 0 to 7. */
#define GORSEPLUMB_MOST_PROCESSORS 8

/* Selects a processor. From then on, until you select another processor, operations and interrupts are of the runner
 * there, and questions are about the machine as this processor sees it. After a boot, processor 0 is selected, and the
 * normal world runs on all processors. So with one processor you do not need this function. On each processor runs the
 * normal world or a partition, and a partition runs on at most one processor. An operation is done in the machine as
 * the selected processor sees it. There, a partition that another processor runs is busy. The normal world is on each
 * processor, and may call on each. Returns true if the processor is selected. Returns false if there is no such
 * processor or no machine, and then nothing has changed. */
bool gorseplumb_select(struct gorseplumb_machine *machine, uint32_t processor);

/* Does what an interrupt does that the selected processor takes, and that the normal world must handle. Returns
 * GORSEPLUMB_KIND_REGISTERS if a partition ran there. The partition stops where it is, and is preempted. The normal
 * world runs there and sees FFA_INTERRUPT, which names the partition. Firmware keeps the partition's registers until
 * the partition continues. Returns GORSEPLUMB_KIND_DONE if the normal world runs there. The normal world takes the
 * interrupt by itself, and nothing changes. Returns GORSEPLUMB_KIND_NO_MACHINE if there is no machine, and nothing was
 * done. */
struct gorseplumb_outcome gorseplumb_interrupt(struct gorseplumb_machine *machine);

/* Adjacent pages. */
struct gorseplumb_range {
    uint64_t address; /* of the first byte */
    uint64_t size;    /* of all pages, in bytes */
};

/* The most ranges of a transaction, and of a report of changed access. */
#define GORSEPLUMB_MOST_RANGES 64

/* A report of changed access: an endpoint, and pages. The endpoint had no access to each of these pages before, or has
 * no access to it now. */
struct gorseplumb_change {
    uint32_t endpoint;
    uint32_t range_count; /* the number of `ranges`, from the first on. The places after them are zeros */
    struct gorseplumb_range ranges[GORSEPLUMB_MOST_RANGES];
};

/* Reports once whose access the last successful call on memory has changed, and to which pages. Call it after each
 * operation, for example to update an SMMU's tables. It then reports all that this operation changed: no other access
 * changed. gorseplumb_access returns the new access. Returns true, and writes the report to `change`. Returns false if
 * that call changed nobody's access, as a share does, if its report was already read, if there was no such call, or if
 * there is no machine. Then `change` stays as it was. */
bool gorseplumb_take_change(struct gorseplumb_machine *machine, struct gorseplumb_change *change);

/* Questions: the functions from here to gorseplumb_read_page change nothing, and write nothing to the machine. */

/* Returns the identifier of the endpoint that runs on the selected processor, or GORSEPLUMB_NOTHING if there is no
 * machine. */
uint32_t gorseplumb_runner(const struct gorseplumb_machine *machine);

/* Returns the number of endpoints, or GORSEPLUMB_NOTHING if there is no machine. */
uint32_t gorseplumb_endpoints(const struct gorseplumb_machine *machine);

/* Returns the address of RAM's first byte, or GORSEPLUMB_NOTHING if there is no machine. */
uint32_t gorseplumb_ram_base(const struct gorseplumb_machine *machine);

/* Returns the number of RAM's blocks of 2 MiB, or GORSEPLUMB_NOTHING if there is no machine. */
uint32_t gorseplumb_ram_blocks(const struct gorseplumb_machine *machine);

/* Returns the address of an endpoint's level 1 table, which VTTBR_EL2 needs while the endpoint runs. The address stays
 * the same as long as there is the machine. Returns GORSEPLUMB_NOTHING if there is no machine, or if the machine has no
 * such endpoint. */
uint32_t gorseplumb_root(const struct gorseplumb_machine *machine, uint16_t endpoint);

/* Returns the owner of a page, counted from RAM's first page, which is 0: the identifier of an endpoint, or 0x8000 for
 * the manager. Returns GORSEPLUMB_NOTHING if there is no machine, or if the machine has no such page. The answer does
 * not show which of the two it is. */
uint32_t gorseplumb_owner(const struct gorseplumb_machine *machine, uint32_t page);

/* Returns what an endpoint may do with a page: 0 for nothing, 1 for reading, 3 for reading and writing, and 4 more for
 * executing. Returns 0 if the machine has no such endpoint or page. Returns GORSEPLUMB_NOTHING if there is no machine.
 * This number has all bits, so compare the answer with it before you look at a bit. */
uint32_t gorseplumb_access(const struct gorseplumb_machine *machine, uint16_t endpoint, uint32_t page);

/* The ground on which an endpoint has its access to a page. */
enum gorseplumb_grant_kind {
    GORSEPLUMB_GRANT_NONE = 0,   /* the endpoint has no access */
    GORSEPLUMB_GRANT_OWN = 1,    /* the endpoint owns the page, and no open transaction names the page */
    GORSEPLUMB_GRANT_SHARED = 2, /* the endpoint owns the page, and shares it by the open transaction `handle` */
    GORSEPLUMB_GRANT_HELD = 3    /* the endpoint holds the open transaction `handle`, which names the page */
};

/* The ground on which an endpoint has its access to a page, with the transaction. */
struct gorseplumb_grant {
    uint32_t kind;   /* enum gorseplumb_grant_kind */
    uint64_t handle; /* 0 if the kind does not name a handle */
};

/* Returns the ground on which an endpoint has its access to a page. Returns GORSEPLUMB_GRANT_NONE exactly if
 * gorseplumb_access returns 0 or GORSEPLUMB_NOTHING, so also if there is no machine. */
struct gorseplumb_grant gorseplumb_granted(const struct gorseplumb_machine *machine, uint16_t endpoint, uint32_t page);

/* A run of a machine's certificate: adjacent pages with the same owner, the same open transaction or no transaction,
 * and the same access of each endpoint. It is the longest such run from its first page on. */
struct gorseplumb_cert_run {
    uint32_t first;      /* the first page; RAM's first page is 0 */
    uint32_t last;       /* the last page */
    uint32_t owner;      /* 0x8000 is the manager */
    uint32_t has_handle; /* 1 if the pages are in the open transaction `handle`; otherwise 0, and `handle` is 0 */
    uint64_t handle;
    uint32_t access[GORSEPLUMB_MOST_ENDPOINTS]; /* by place in the manifest, as gorseplumb_access returns it; otherwise 0 */
};

/* Finds the run from a page on. The runs from page 0 on, each after the last page of the run before, are the machine's
 * certificate. Returns true, and writes the run to `run`. Returns false if there is no machine, or if the machine has
 * no such page. Then `run` stays as it was. */
bool gorseplumb_cert_run(const struct gorseplumb_machine *machine, uint32_t page, struct gorseplumb_cert_run *run);

/* Returns true if an endpoint has a pending notification, which its next FFA_NOTIFICATION_GET of all classes would
 * return. Use it to send the endpoint's notification pending interrupt, without a look at each call. Returns false if
 * no notification is pending, if there is no such endpoint, or if there is no machine. */
bool gorseplumb_npi_pending(const struct gorseplumb_machine *machine, uint16_t endpoint);

/* Returns true if the normal world's schedule receiver interrupt must be pending: its next FFA_NOTIFICATION_INFO_GET
 * would name an endpoint. Returns false if that call would name no endpoint, on each machine of FF-A 1.1, which does
 * not serve that call, and if there is no machine. */
bool gorseplumb_sri_pending(const struct gorseplumb_machine *machine);

/* Copies the bytes of a page of RAM. Returns true, and writes the bytes to `bytes`. Returns false if there is no
 * machine, or if the machine has no such page, and the answer does not show which of the two it is. Then `bytes` stays
 * as it was. */
bool gorseplumb_read_page(const struct gorseplumb_machine *machine, uint32_t page, struct gorseplumb_page *bytes);

/* The checks of the calls. Each comment says what is wrong if the check fails, in the words of gorseplumb_check_name.
 * Calls that check the same share a check. gorseplumb_check_number returns its number in the list of a call. */
enum gorseplumb_check {
    GORSEPLUMB_CHECK_FUNCTION_UNKNOWN = 1, /* the function is not supported */
    GORSEPLUMB_CHECK_BUFFERS_MISSING = 2, /* the caller has no RX and TX */
    GORSEPLUMB_CHECK_FLAGS_RESERVED = 3, /* a flag is set that must be 0 */
    GORSEPLUMB_CHECK_SENDER_IS_ANOTHER = 4, /* the sender is not the caller */
    GORSEPLUMB_CHECK_RECEIVER_IS_ANOTHER = 5, /* the receiver is not the caller */
    GORSEPLUMB_CHECK_RECEIVER_UNKNOWN = 6, /* no endpoint has the receiver's identifier */
    GORSEPLUMB_CHECK_RECEIVER_IS_CALLER = 7, /* the receiver is the caller */
    GORSEPLUMB_CHECK_NOT_NORMAL_WORLD = 8, /* the caller is not the normal world */
    GORSEPLUMB_CHECK_CONTEXT_UNKNOWN = 9, /* the endpoint does not have this execution context */
    GORSEPLUMB_CHECK_RX_FULL = 10, /* the caller's RX is full */
    GORSEPLUMB_CHECK_UUID_UNKNOWN = 11, /* no partition has the UUID */
    GORSEPLUMB_CHECK_BUFFERS_MAPPED = 12, /* the caller already has RX and TX */
    GORSEPLUMB_CHECK_BUFFER_PAGE_COUNT = 13, /* a buffer has no pages, or too many */
    GORSEPLUMB_CHECK_TX_MISPLACED = 14, /* TX is not page-aligned, or not entirely in RAM */
    GORSEPLUMB_CHECK_RX_MISPLACED = 15, /* RX is not page-aligned, or not entirely in RAM */
    GORSEPLUMB_CHECK_BUFFERS_OVERLAP = 16, /* RX and TX overlap */
    GORSEPLUMB_CHECK_TX_UNUSABLE = 17, /* a page of TX does not belong to the caller, is not writable, or is in an open transaction */
    GORSEPLUMB_CHECK_RX_UNUSABLE = 18, /* a page of RX does not belong to the caller, is not writable, or is in an open transaction */
    GORSEPLUMB_CHECK_ENDPOINT_NOT_ZERO = 19, /* the endpoint's identifier is not 0 */
    GORSEPLUMB_CHECK_RX_EMPTY = 20, /* the caller has no RX and TX, or its RX is not full */
    GORSEPLUMB_CHECK_RECEIVER_IS_NORMAL_WORLD = 21, /* the receiver is the normal world */
    GORSEPLUMB_CHECK_REQUESTS_UNSENT = 22, /* the caller may not send direct requests (bit 1 of its properties is not set) */
    GORSEPLUMB_CHECK_REQUESTS_UNRECEIVED = 23, /* the receiver does not accept direct requests (bit 0 of its properties is not set) */
    GORSEPLUMB_CHECK_RECEIVER_NOT_WAITING = 24, /* the receiver is not waiting */
    GORSEPLUMB_CHECK_NO_REQUEST = 25, /* the caller is not processing a direct request */
    GORSEPLUMB_CHECK_ANSWER_MISDIRECTED = 26, /* the response does not go from the caller to the sender of the request */
    GORSEPLUMB_CHECK_TARGET_UNKNOWN = 27, /* no partition has the target's identifier */
    GORSEPLUMB_CHECK_TARGET_NOT_READY = 28, /* the target is not waiting and has not yielded */
    GORSEPLUMB_CHECK_NOT_RUN = 29, /* the caller is not processing an FFA_RUN */
    GORSEPLUMB_CHECK_NOBODY_TO_YIELD_TO = 30, /* the caller works for no endpoint that it may yield to */
    GORSEPLUMB_CHECK_HEADER_RESERVED = 31, /* a reserved field of the header is not 0 */
    GORSEPLUMB_CHECK_MESSAGE_IN_HEADER = 32, /* the message begins inside its header */
    GORSEPLUMB_CHECK_MESSAGE_EMPTY = 33, /* the message is empty */
    GORSEPLUMB_CHECK_MESSAGE_TOO_LONG = 34, /* the message ends outside TX */
    GORSEPLUMB_CHECK_MESSAGES_UNSENT = 35, /* the caller may not send indirect messages (bit 2 of its properties is not set) */
    GORSEPLUMB_CHECK_MESSAGES_UNRECEIVED = 36, /* the receiver does not accept indirect messages (bit 2 of its properties is not set) */
    GORSEPLUMB_CHECK_RECEIVER_BUFFERS_MISSING = 37, /* the receiver has no RX and TX */
    GORSEPLUMB_CHECK_RECEIVER_RX_FULL = 38, /* the receiver's RX is full */
    GORSEPLUMB_CHECK_RECEIVER_RX_SMALL = 39, /* the message with its header is longer than the receiver's RX */
    GORSEPLUMB_CHECK_ENDPOINT_NOT_NORMAL_WORLD = 40, /* the endpoint is not the normal world */
    GORSEPLUMB_CHECK_CONTEXT_COUNT = 41, /* the normal world cannot have this number of execution contexts */
    GORSEPLUMB_CHECK_BITMAPS_EXIST = 42, /* the normal world already has notification bitmaps */
    GORSEPLUMB_CHECK_BITMAPS_MISSING = 43, /* the endpoint has no notification bitmaps */
    GORSEPLUMB_CHECK_BITS_PENDING = 44, /* a notification bit of the normal world is pending */
    GORSEPLUMB_CHECK_SENDER_UNKNOWN = 45, /* no endpoint has the sender's identifier */
    GORSEPLUMB_CHECK_SENDER_IS_CALLER = 46, /* the sender is the caller */
    GORSEPLUMB_CHECK_BITS_NONE = 47, /* no bit is selected */
    GORSEPLUMB_CHECK_BITS_TAKEN = 48, /* one of the bits is bound to another sender, or is pending */
    GORSEPLUMB_CHECK_BITS_NOT_THE_SENDERS = 49, /* one of the bits is not bound to the sender, or is pending */
    GORSEPLUMB_CHECK_BITS_NOT_THE_CALLERS = 50, /* one of the bits is not bound to the caller */
    GORSEPLUMB_CHECK_CLASSES_UNKNOWN = 51, /* the flags select an unknown class of notifications */
    GORSEPLUMB_CHECK_FRAGMENTED = 52, /* the fragment is not the whole descriptor */
    GORSEPLUMB_CHECK_DESCRIPTOR_TOO_LONG = 53, /* the descriptor is longer than TX */
    GORSEPLUMB_CHECK_BUFFER_ADDRESS_GIVEN = 54, /* a buffer address is given, but only TX is supported */
    GORSEPLUMB_CHECK_BUFFER_PAGES_GIVEN = 55, /* a page count of a buffer is given, but only TX is supported */
    GORSEPLUMB_CHECK_DESCRIPTOR_MALFORMED = 56, /* the bytes in TX are not a descriptor of this call */
    GORSEPLUMB_CHECK_RANGE_OUTSIDE = 57, /* a range is not entirely in RAM */
    GORSEPLUMB_CHECK_PAGE_UNSENDABLE = 58, /* a page does not belong to the caller, or is in an open transaction or a buffer */
    GORSEPLUMB_CHECK_GRANT_TOO_MUCH = 59, /* a grant exceeds the owner's right to a page */
    GORSEPLUMB_CHECK_ZEROS_UNWRITABLE = 60, /* zeroing is requested for a page that its owner may not write to */
    GORSEPLUMB_CHECK_TRANSACTIONS_FULL = 61, /* the caller has reached its limit of open transactions */
    GORSEPLUMB_CHECK_HANDLES_USED_UP = 62, /* the caller has used up its handles */
    GORSEPLUMB_CHECK_HANDLE_UNKNOWN = 63, /* no open transaction has the handle */
    GORSEPLUMB_CHECK_NOT_RECEIVER = 64, /* the caller is not a receiver of the transaction */
    GORSEPLUMB_CHECK_TRANSACTION_SENDER_DIFFERS = 65, /* the sender differs from the transaction's */
    GORSEPLUMB_CHECK_TAG_DIFFERS = 66, /* the tag differs from the transaction's */
    GORSEPLUMB_CHECK_KIND_DIFFERS = 67, /* the kind differs from the transaction's */
    GORSEPLUMB_CHECK_ALREADY_RETRIEVED = 68, /* the caller already holds the transaction */
    GORSEPLUMB_CHECK_RIGHT_TOO_MUCH = 69, /* the requested right exceeds the right that the caller may get */
    GORSEPLUMB_CHECK_ENDPOINT_IS_ANOTHER = 70, /* the endpoint in the descriptor is not the caller */
    GORSEPLUMB_CHECK_NOT_OFFERED = 71, /* no open transaction with the handle has the caller as a receiver */
    GORSEPLUMB_CHECK_NOT_HELD = 72, /* the caller does not hold the transaction */
    GORSEPLUMB_CHECK_ZEROS_NOT_ALLOWED = 73, /* zeroing is requested, but the caller does not hold a lend with write access */
    GORSEPLUMB_CHECK_NOT_THE_SENDERS = 74, /* no open transaction from the caller has the handle */
    GORSEPLUMB_CHECK_STILL_HELD = 75, /* a receiver still holds the transaction */
    GORSEPLUMB_CHECK_WORLDS_MIXED = 76, /* secure pages are sent to the normal world, or together with non-secure pages */
    GORSEPLUMB_CHECK_RECEIVERS_DIFFER = 77, /* the endpoints in the descriptor are not the transaction's receivers */
    GORSEPLUMB_CHECK_BUFFERS_NEEDED = 78, /* the call needs RX and TX, and the caller has none */
    GORSEPLUMB_CHECK_NOTHING_TO_TELL = 79 /* the normal world has been told of all pending notifications */
};

/* The conditions of a descriptor. Each comment says what is wrong if the bytes break it, in the words of
 * gorseplumb_flaw_name. A retrieve has the conditions HEADER, which it shares with a send, and then its own. */
enum gorseplumb_flaw {
    GORSEPLUMB_FLAW_HEADER_SHORT = 1, /* the descriptor is shorter than its header */
    GORSEPLUMB_FLAW_HEADER_ACCESS_SIZE = 2, /* the access descriptor size field is not 16, 32 in FF-A 1.2, or 0 in the compact form */
    GORSEPLUMB_FLAW_HEADER_ARRAY_UNALIGNED = 3, /* the offset of the access descriptors is not a multiple of 16 */
    GORSEPLUMB_FLAW_HEADER_ARRAY_IN_HEADER = 4, /* the access descriptors begin inside the header */
    GORSEPLUMB_FLAW_HEADER_ARRAY_OUTSIDE = 5, /* the access descriptors end outside the descriptor */
    GORSEPLUMB_FLAW_HEADER_RESERVED = 6, /* reserved bytes at the end of the header are not 0 */
    GORSEPLUMB_FLAW_SEND_ATTRIBUTES = 7, /* the memory attributes are wrong for this call and this number of receivers */
    GORSEPLUMB_FLAW_SEND_FLAGS = 8, /* a flag is set that this call does not allow */
    GORSEPLUMB_FLAW_SEND_HANDLE = 9, /* the handle is not 0 */
    GORSEPLUMB_FLAW_SEND_NO_RECEIVER = 10, /* there is no receiver */
    GORSEPLUMB_FLAW_SEND_MANY_RECEIVERS = 11, /* there are more receivers than this call allows */
    GORSEPLUMB_FLAW_ACCESS_PERMISSIONS = 12, /* this call does not allow these permissions */
    GORSEPLUMB_FLAW_ACCESS_FLAGS = 13, /* the access descriptor has a flag that this call does not allow */
    GORSEPLUMB_FLAW_ACCESS_OTHER_COMPOSITE = 14, /* the access descriptor refers to a different composite than this call allows */
    GORSEPLUMB_FLAW_ACCESS_RESERVED = 15, /* reserved bytes of the access descriptor are not 0 */
    GORSEPLUMB_FLAW_ACCESS_RECEIVER_IS_SENDER = 16, /* the access descriptor names the sender */
    GORSEPLUMB_FLAW_ACCESS_RECEIVER_TWICE = 17, /* the access descriptor names the same receiver as an earlier one */
    GORSEPLUMB_FLAW_COMPOSITE_OUTSIDE = 18, /* the composite ends outside the descriptor, even without its ranges */
    GORSEPLUMB_FLAW_COMPOSITE_UNALIGNED = 19, /* the offset of the composite is not a multiple of 16 */
    GORSEPLUMB_FLAW_COMPOSITE_IN_ARRAY = 20, /* the composite begins before the access descriptors end */
    GORSEPLUMB_FLAW_COMPOSITE_NO_RANGE = 21, /* the composite has no ranges */
    GORSEPLUMB_FLAW_COMPOSITE_MANY_RANGES = 22, /* the composite has more ranges than a transaction may have */
    GORSEPLUMB_FLAW_COMPOSITE_RESERVED = 23, /* reserved bytes of the composite are not 0 */
    GORSEPLUMB_FLAW_COMPOSITE_RANGES_OUTSIDE = 24, /* the ranges end outside the descriptor */
    GORSEPLUMB_FLAW_COMPOSITE_TOTAL = 25, /* the page count of the composite is not the sum of the page counts of its ranges */
    GORSEPLUMB_FLAW_RANGE_EMPTY = 26, /* the range has no pages */
    GORSEPLUMB_FLAW_RANGE_UNALIGNED = 27, /* the range is not page-aligned */
    GORSEPLUMB_FLAW_RANGE_TOO_HIGH = 28, /* the range ends above 2^48 */
    GORSEPLUMB_FLAW_RANGE_RESERVED = 29, /* reserved bytes of the range are not 0 */
    GORSEPLUMB_FLAW_RANGE_OVERLAP = 30, /* the range overlaps an earlier range */
    GORSEPLUMB_FLAW_RETRIEVE_ATTRIBUTES = 31, /* the memory attributes are neither 0 nor normal memory */
    GORSEPLUMB_FLAW_RETRIEVE_FLAGS = 32, /* a flag is set that this call does not allow */
    GORSEPLUMB_FLAW_RETRIEVE_ACCESS_COUNT = 33, /* the number of access descriptors is not 1, or in FF-A 1.2 not one to four */
    GORSEPLUMB_FLAW_RETRIEVE_RECEIVER_IS_ANOTHER = 34, /* no access descriptor names the caller */
    GORSEPLUMB_FLAW_RETRIEVE_DATA_PERMISSION = 35, /* the data permission has a reserved value */
    GORSEPLUMB_FLAW_RETRIEVE_INSTRUCTION_PERMISSION = 36, /* the instruction permission has a reserved value */
    GORSEPLUMB_FLAW_RETRIEVE_PERMISSIONS_RESERVED = 37, /* reserved bits of the permissions are not 0 */
    GORSEPLUMB_FLAW_RETRIEVE_ACCESS_FLAGS = 38, /* the flags of the access descriptor are not 0 */
    GORSEPLUMB_FLAW_RETRIEVE_COMPOSITE_TOLD = 39, /* a composite is given */
    GORSEPLUMB_FLAW_RETRIEVE_ACCESS_RESERVED = 40, /* reserved bytes of the access descriptor are not 0 */
    GORSEPLUMB_FLAW_RETRIEVE_NOT_ZERO = 41, /* a field of a hypervisor's retrieve is not 0, and is not the handle */
    GORSEPLUMB_FLAW_RELINQUISH_SHORT = 42, /* the descriptor is shorter than 18 bytes */
    GORSEPLUMB_FLAW_RELINQUISH_FLAGS = 43, /* a flag other than bit 0 is set */
    GORSEPLUMB_FLAW_RELINQUISH_ENDPOINT_COUNT = 44 /* the number of endpoints is not 1 */
};

/* The subject of a check that fails, in a reason. */
enum gorseplumb_about {
    GORSEPLUMB_ABOUT_NOTHING = 0,  /* the reason has no subject */
    GORSEPLUMB_ABOUT_PAGE = 1,     /* `page`, the first that fails the check, and `obstacle` */
    GORSEPLUMB_ABOUT_ENDPOINT = 2, /* `endpoint`, which the call names */
    GORSEPLUMB_ABOUT_HANDLE = 3,   /* `handle` of a transaction */
    GORSEPLUMB_ABOUT_REGISTER = 4, /* the register `number`, which has `value` */
    GORSEPLUMB_ABOUT_BIT = 5,      /* bit `number` of notifications */
    GORSEPLUMB_ABOUT_FIELD = 6     /* the field of a descriptor that breaks `flaw`: `size` bytes from `first` on, which have `value` */
};

/* The run state of an endpoint that is not ready for a call, in a reason. */
enum gorseplumb_state {
    GORSEPLUMB_STATE_NONE = 0,          /* the reason has no run state */
    GORSEPLUMB_STATE_RUNNING = 1,       /* the endpoint is running */
    GORSEPLUMB_STATE_WAITING = 2,       /* the endpoint is waiting */
    GORSEPLUMB_STATE_YIELDED = 3,       /* the endpoint has yielded */
    GORSEPLUMB_STATE_BLOCKED = 4,       /* the endpoint is blocked: by its own direct request to `awaits`, if that is not 0 */
    GORSEPLUMB_STATE_PREEMPTED = 5,     /* an interrupt preempted the endpoint */
    GORSEPLUMB_STATE_RUNS_ELSEWHERE = 6 /* the endpoint is running on another processor */
};

/* Why the runner's tables do not map an address, or why a page fails a check, in a reason. */
enum gorseplumb_obstacle {
    GORSEPLUMB_OBSTACLE_NONE = 0,          /* the reason names no obstacle: also for an address from 100000000 on, and for the runner's own page in no open transaction */
    GORSEPLUMB_OBSTACLE_OUTSIDE_RAM = 1,   /* the address is not in RAM */
    GORSEPLUMB_OBSTACLE_MANAGERS_PAGE = 2, /* the page belongs to the manager */
    GORSEPLUMB_OBSTACLE_OWNED_BY = 3,      /* the page belongs to the endpoint `owner` */
    GORSEPLUMB_OBSTACLE_IN_TRANSACTION = 4 /* the page is in the open transaction with the handle `transaction` */
};

/* The kind of a hint, which says what to change after a refusal. Each comment says what numbers[0], numbers[1] and
 * numbers[2] of the hint are. A right is GORSEPLUMB_READ or GORSEPLUMB_WRITE, with or without GORSEPLUMB_EXECUTE. An
 * endpoint is its identifier. A kind is 0 for a share, 1 for a lend and 2 for a donate. */
enum gorseplumb_hint_kind {
    GORSEPLUMB_HINT_NONE = 0,                      /* the reason has no hint */
    GORSEPLUMB_HINT_TX_PAGE = 1,                   /* the page is in TX of the endpoint numbers[0] */
    GORSEPLUMB_HINT_RX_PAGE = 2,                   /* the page is in RX of the endpoint numbers[0] */
    GORSEPLUMB_HINT_OWN_RIGHT = 3,                 /* the owner's own right is numbers[0] */
    GORSEPLUMB_HINT_GRANTED = 4,                   /* to read and write is granted, but the owner's own right is numbers[0] */
    GORSEPLUMB_HINT_ACCESS = 5,                    /* the endpoint numbers[0] has the right numbers[1] at the address */
    GORSEPLUMB_HINT_CALLER = 6,                    /* the caller is numbers[0] */
    GORSEPLUMB_HINT_SENDER = 7,                    /* the transaction's sender is numbers[0] */
    GORSEPLUMB_HINT_TAG = 8,                       /* the descriptor has the tag numbers[0], and the transaction has the tag numbers[1] */
    GORSEPLUMB_HINT_KIND = 9,                      /* the descriptor has the kind numbers[0], and the transaction has the kind numbers[1] */
    GORSEPLUMB_HINT_RIGHT = 10,                    /* the right numbers[0] is requested, and numbers[1] is the most allowed */
    GORSEPLUMB_HINT_HELD = 11,                     /* the caller holds the transaction with the right numbers[0] */
    GORSEPLUMB_HINT_ROOM = 12,                     /* the buffer has numbers[0] bytes */
    GORSEPLUMB_HINT_VALUE = 13,                    /* the register must be numbers[0] */
    GORSEPLUMB_HINT_FORM = 14,                     /* the field must be numbers[1] in the form that the caller numbers[0] uses: 16, 32 in FF-A 1.2, or 0 in the compact form */
    GORSEPLUMB_HINT_WORD = 15,                     /* in the message header, the 4 bytes from the offset numbers[0] on are numbers[1] */
    GORSEPLUMB_HINT_MESSAGE = 16,                  /* the message begins at numbers[0] and has numbers[1] bytes, and the buffer has numbers[2] bytes */
    GORSEPLUMB_HINT_OUTSIDE = 17,                  /* the first page that is not in RAM is at the address numbers[0] */
    GORSEPLUMB_HINT_HOLDER = 18,                   /* the receiver numbers[0] holds the transaction */
    GORSEPLUMB_HINT_RUN = 19,                      /* the caller is processing an FFA_RUN */
    GORSEPLUMB_HINT_REQUEST = 20,                  /* the caller is processing a direct request from numbers[0] */
    GORSEPLUMB_HINT_PENDING = 21,                  /* the lowest pending bit is numbers[0] */
    GORSEPLUMB_HINT_BUFFERS_MISSING = 22,          /* the caller has no RX and TX */
    GORSEPLUMB_HINT_RX_NOT_FULL = 23,              /* the caller's RX is not full */
    GORSEPLUMB_HINT_BIT_PENDING = 24,              /* the bit is pending */
    GORSEPLUMB_HINT_BIT_TAKEN = 25,                /* the bit is bound to another sender */
    GORSEPLUMB_HINT_BIT_UNBOUND = 26,              /* the bit is not bound to the sender */
    GORSEPLUMB_HINT_HANDLE_UNKNOWN = 27,           /* no open transaction has the handle */
    GORSEPLUMB_HINT_NOT_RECEIVER = 28,             /* the transaction is open, but not offered to the caller */
    GORSEPLUMB_HINT_NOT_LENT = 29,                 /* the transaction is not a lend */
    GORSEPLUMB_HINT_BITMAPS_UNCREATED = 30,        /* FFA_NOTIFICATION_BITMAP_CREATE creates the bitmaps */
    GORSEPLUMB_HINT_NOTIFICATIONS_UNRECEIVED = 31, /* bit 3 of the partition's properties is not set */
    GORSEPLUMB_HINT_SECURE_TO_NORMAL = 32,         /* the page is secure and is sent to the normal world */
    GORSEPLUMB_HINT_PAGES_OF_BOTH_WORLDS = 33      /* the page is secure, but another page is not */
};

/* A hint what to change after a refusal. A number that the kind does not name is zero. */
struct gorseplumb_hint {
    uint32_t kind; /* an enum gorseplumb_hint_kind */
    uint64_t numbers[3];
};

/* Why an operation is refused. A call has a `check`, and an access a `fault`. A field that the tags do not name is
 * zero. Only the hint has padding, 4 bytes after its kind. */
struct gorseplumb_reason {
    uint32_t fault;       /* of an access: an enum gorseplumb_fault */
    uint32_t check;       /* of a call: an enum gorseplumb_check */
    int32_t error;        /* of a call: the code that FFA_ERROR has in w2, as a signed number */
    uint32_t about;       /* of a call: an enum gorseplumb_about */
    uint32_t obstacle;    /* of an access, or with GORSEPLUMB_ABOUT_PAGE: an enum gorseplumb_obstacle */
    uint32_t page;        /* GORSEPLUMB_ABOUT_PAGE: the page, counted from the first page of RAM */
    uint32_t endpoint;    /* GORSEPLUMB_ABOUT_ENDPOINT: the identifier of the endpoint */
    uint32_t owner;       /* GORSEPLUMB_OBSTACLE_OWNED_BY: the identifier of the owner */
    uint32_t number;      /* GORSEPLUMB_ABOUT_REGISTER, GORSEPLUMB_ABOUT_BIT: the number of the register or of the bit */
    uint32_t flaw;        /* GORSEPLUMB_ABOUT_FIELD: an enum gorseplumb_flaw */
    uint32_t index;       /* GORSEPLUMB_ABOUT_FIELD: the index of the access descriptor or of the range, counted from 0 */
    uint32_t has_value;   /* 1 with GORSEPLUMB_ABOUT_REGISTER, and if the field has 1, 2, 4 or 8 bytes that are all in the descriptor */
    uint32_t state;       /* GORSEPLUMB_ABOUT_ENDPOINT, if the endpoint is not ready: an enum gorseplumb_state */
    uint32_t awaits;      /* GORSEPLUMB_STATE_BLOCKED: the identifier of the endpoint whose response it awaits, or 0 */
    uint64_t handle;      /* GORSEPLUMB_ABOUT_HANDLE */
    uint64_t transaction; /* GORSEPLUMB_OBSTACLE_IN_TRANSACTION */
    uint64_t value;       /* if has_value is 1: the value of the register or of the field */
    uint64_t first;       /* GORSEPLUMB_ABOUT_FIELD: the offset of the field's first byte in the descriptor, counted from 0 */
    uint64_t size;        /* GORSEPLUMB_ABOUT_FIELD: the size of the field in bytes */
    uint64_t least;       /* if step is not 0: the least number that the register or the field may have instead */
    uint64_t most;        /* if step is not 0: the greatest such number, which may be the same */
    uint64_t step;        /* the distance from one such number to the next; 0 if the reason does not say which are allowed */
    struct gorseplumb_hint hint; /* what to change, if that is known */
};

/* Explains why a call of the runner would be refused now. A refused operation changes nothing, so a question right
 * after it returns why it was refused. In lent RAM, this holds if nobody has written to the runner's TX since that call
 * began. While somebody writes to TX, this function promises nothing, because it reads TX where it is.
 * gorseplumb_explain.h writes a reason as a line of text. Returns true, and writes the reason to `reason`. Returns
 * false if the call would be done, or if there is no machine. Then `reason` stays as it was. Nothing else changes. */
bool gorseplumb_why_call(const struct gorseplumb_machine *machine, const struct gorseplumb_registers *registers,
                         struct gorseplumb_reason *reason);

/* Explains why a load of the runner would be refused now, or was refused just before, as gorseplumb_why_call does for a
 * call. Returns true, and writes the reason to `reason`. Returns false if the load would be done, if there is no
 * machine, or if the size is not 1, 2, 4 or 8. Then `reason` stays as it was. Nothing else changes. */
bool gorseplumb_why_load(const struct gorseplumb_machine *machine, uint64_t address, uint32_t size,
                         struct gorseplumb_reason *reason);

/* Explains why a store of the runner would be refused now, or was refused just before, as gorseplumb_why_call does for
 * a call. The value of the store does not matter. Returns true, and writes the reason to `reason`. Returns false if the
 * store would be done, if there is no machine, or if the size is not 1, 2, 4 or 8. Then `reason` stays as it was.
 * Nothing else changes. */
bool gorseplumb_why_store(const struct gorseplumb_machine *machine, uint64_t address, uint32_t size,
                          struct gorseplumb_reason *reason);

/* Explains why a fetch of the runner would be refused now, or was refused just before, as gorseplumb_why_call does for
 * a call. Returns true, and writes the reason to `reason`. Returns false if the fetch would be done, or if there is no
 * machine. Then `reason` stays as it was. Nothing else changes. */
bool gorseplumb_why_fetch(const struct gorseplumb_machine *machine, uint64_t address, struct gorseplumb_reason *reason);

/* Names: the functions whose names end in _name return a text as the program prints it (docs/COMMANDS.md). They never
 * return null, and return "" if a number has no name. They need no machine and no memory. They are C code, and not
 * proved. A linker drops the tables of names.c that your program does not use. */

/* Returns the name of a call in the standard, by the function identifier in w0 in either form: "FFA_RUN". */
const char *gorseplumb_call_name(uint32_t function);

/* Returns the name of an error code in the standard, by its number: "DENIED" for -6. */
const char *gorseplumb_error_name(int32_t error);

/* Returns the words of a check, an enum gorseplumb_check. They say what is wrong if the check fails:
 * "the receiver is not waiting". */
const char *gorseplumb_check_name(uint32_t check);

/* Returns the number of a check in the list of a call, counted from 1, as docs/CALLS.md and docs/MEMORY.md list them.
 * Returns 0 if the call does not make the check. */
uint32_t gorseplumb_check_number(uint32_t function, uint32_t check);

/* Returns the words of a condition of a descriptor, an enum gorseplumb_flaw. They say what is wrong with the
 * descriptor: "the range has no pages". They do not say which access descriptor or which range: `index` of the reason
 * does. */
const char *gorseplumb_flaw_name(uint32_t flaw);

/* Returns the name of a fault, an enum gorseplumb_fault: "translation". */
const char *gorseplumb_fault_name(uint32_t fault);

/* Returns the name of an answer of a boot or of a function of lists, an enum gorseplumb_answer. A cause of a manifest
 * has the name that the program prints: "M6 RamBase". */
const char *gorseplumb_answer_name(uint32_t answer);

/* Checks whether runs are a certificate that the machine's tables give. The runs must follow one another from RAM's
 * first page to its last, and no run may be empty. The walks from each endpoint's level 1 table read only the bytes of
 * RAM. At every address below 4 GiB they must give exactly the access that the runs say, and outside RAM they must give
 * no access. Tables do not have owners and handles, so the check does not look at these. The function copies the runs
 * to one piece of memory, and gives this piece back. Returns GORSEPLUMB_OK, or GORSEPLUMB_NOT_CERTIFIED if the runs are
 * no such certificate. If the runs are the machine's own certificate, GORSEPLUMB_NOT_CERTIFIED is never the answer.
 * Returns GORSEPLUMB_NO_MACHINE if there is no machine, or GORSEPLUMB_NO_MEMORY. The machine stays as it was. */
enum gorseplumb_answer gorseplumb_audit(const struct gorseplumb_machine *machine, const struct gorseplumb_cert_run *runs, size_t count);

/* Checks whether runs are a certificate that tables give, like gorseplumb_audit, but without a machine. Use it if you
 * do not trust the software that wrote the tables. RAM begins at the address `base`, and its pages are the pages of the
 * list, in order. `roots` has the addresses of the level 1 tables, by the endpoints' places. Returns GORSEPLUMB_NO_LIST
 * if there is no list. Then it returns GORSEPLUMB_BAD_BASE if `base` is not a multiple of 4096, or if the pages from
 * there on would end above 4 GiB. Then it returns GORSEPLUMB_BAD_ROOTS if there are more roots than
 * GORSEPLUMB_MOST_ENDPOINTS, or if a root is not the address of a page of RAM. Otherwise it returns GORSEPLUMB_OK,
 * GORSEPLUMB_NOT_CERTIFIED or GORSEPLUMB_NO_MEMORY. The list keeps its pages, with their bytes. With every answer
 * except GORSEPLUMB_OK and GORSEPLUMB_NOT_CERTIFIED, the whole list stays as it was. */
enum gorseplumb_answer gorseplumb_audit_tables(struct gorseplumb_lent *lent, uint32_t base, const uint32_t *roots, size_t root_count,
                                               const struct gorseplumb_cert_run *runs, size_t count);

/* Ends the machine. RAM from the heap goes back to the heap. Then `lent` stays as it was, and may be { 0 }. Lent RAM
 * goes back to `lent`, which must be an empty list: every page, in order, with the bytes that it has. The machine's
 * memory goes to this list too. So the next boot in these pages takes no memory, whichever endpoints it has, except
 * while it reads a text. Returns GORSEPLUMB_OK if the machine has ended. Returns GORSEPLUMB_NO_MACHINE if there is no
 * machine. For lent RAM, it returns GORSEPLUMB_NO_LIST if there is no list, or GORSEPLUMB_HAS_PAGES if the list has
 * pages. If the answer is not GORSEPLUMB_OK, nothing has changed. */
enum gorseplumb_answer gorseplumb_end(struct gorseplumb_machine *machine, struct gorseplumb_lent *lent);

/* Ends a machine whose RAM is from the heap, and needs no list. The RAM and the machine's memory go back to the heap.
 * Returns GORSEPLUMB_OK if the machine has ended. Returns GORSEPLUMB_NO_MACHINE if there is no machine, or
 * GORSEPLUMB_LENT if its RAM is lent, so that gorseplumb_end must end it. If the answer is not GORSEPLUMB_OK, nothing
 * has changed. */
enum gorseplumb_answer gorseplumb_end_heap(struct gorseplumb_machine *machine);

/* Makes an empty list with room for `pages` pages, and with the memory for a machine that is booted in them. It takes
 * six pieces of memory. Two are for the list and for the addresses of its pages. Four are for the machine: its place,
 * four bytes for each page, 78 KiB of slots for open transactions, and 16 KiB for copies of a TX. The page
 * docs/EMBEDDING.md says which function takes how much stack. Returns GORSEPLUMB_OK if the list is made. Returns
 * GORSEPLUMB_OCCUPIED if there is a list, or GORSEPLUMB_NO_MEMORY. If the answer is not GORSEPLUMB_OK, nothing has
 * changed. */
enum gorseplumb_answer gorseplumb_begin_lending(struct gorseplumb_lent *lent, uint32_t pages);

/* Moves a page from its slot to the end of the list, and leaves the slot empty. Returns GORSEPLUMB_OK if the page has
 * moved. Returns GORSEPLUMB_NO_LIST if there is no list, and then GORSEPLUMB_NO_PAGE if the slot has no page. Otherwise
 * it returns GORSEPLUMB_NO_MEMORY only if the list has no room for another page. The number of pages that you passed to
 * gorseplumb_begin_lending has room, until a boot takes the list's pages. If the answer is not GORSEPLUMB_OK, the list
 * and the slot have the same pages as before. */
enum gorseplumb_answer gorseplumb_lend(struct gorseplumb_lent *lent, struct gorseplumb_slot *slot);

/* Moves all pages of a span to the end of the list, in order, and leaves the span empty. The pages come back one by
 * one. Returns GORSEPLUMB_OK if the pages have moved. Returns GORSEPLUMB_NO_LIST if there is no list, and then
 * GORSEPLUMB_NO_PAGE if the span has no pages. Otherwise it returns GORSEPLUMB_NO_MEMORY only if the list has no room
 * for all of them. If the answer is not GORSEPLUMB_OK, nothing has changed. */
enum gorseplumb_answer gorseplumb_lend_span(struct gorseplumb_lent *lent, struct gorseplumb_span *span);

/* Moves the list's last page to an empty slot. Returns GORSEPLUMB_OK if the page has moved. Otherwise it returns the
 * first answer that applies: GORSEPLUMB_NO_LIST if there is no list, GORSEPLUMB_OCCUPIED if the slot has a page, or
 * GORSEPLUMB_NO_PAGE if the list has no page. Then nothing has changed. */
enum gorseplumb_answer gorseplumb_take_back(struct gorseplumb_lent *lent, struct gorseplumb_slot *slot);

/* Returns the number of pages in the list, or 0 if there is no list. It writes nothing to `lent`. */
uint64_t gorseplumb_lent_pages(const struct gorseplumb_lent *lent);

/* Ends an empty list, and gives back all memory that the list has. Returns GORSEPLUMB_OK if the list has ended. Returns
 * GORSEPLUMB_NO_LIST if there is no list, or GORSEPLUMB_HAS_PAGES if the list has pages. If the answer is not
 * GORSEPLUMB_OK, nothing has changed. */
enum gorseplumb_answer gorseplumb_end_lending(struct gorseplumb_lent *lent);

#ifdef __cplusplus
}
#endif

#endif
