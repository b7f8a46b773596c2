/* SPDX-License-Identifier: MIT OR Apache-2.0 */
/* What an endpoint may do next: a move is some operations that belong together, as an access, or a descriptor and its call. */
#include "generator.h"
#include "words.h"

static void queue(struct generator *generator, struct operation operation) {
    if (generator->queued < MOST_QUEUED) generator->queue[generator->queued++] = operation;
}

static void queue_call(struct generator *generator, uint64_t x0, uint64_t x1, uint64_t x2, uint64_t x3, uint64_t x4) {
    queue(generator, (struct operation){.kind = CALL, .x = {x0, x1, x2, x3, x4}});
}

static void queue_store(struct generator *generator, uint64_t address, unsigned size, uint64_t value) {
    if (size < 8) value &= (UINT64_C(1) << (8 * size)) - 1;
    queue(generator, (struct operation){.kind = STORE, .address = address, .size = size, .value = value});
}

static void queue_load(struct generator *generator, uint64_t address, unsigned size) {
    queue(generator, (struct operation){.kind = LOAD, .address = address, .size = size});
}

static uint64_t identifier_at(uint32_t place) { return place == 0 ? 0 : 0x8000 + place; }

static uint64_t some_identifier(struct generator *generator) { return identifier_at((uint32_t)below(generator, generator->count)); }

/* A page that the endpoint at a place had at first, but for its buffers. */
static uint64_t page_of(struct generator *generator, uint32_t place) {
    return generator->pages[place][2 + below(generator, generator->page_count[place] - 2)];
}

static uint64_t own_page(struct generator *generator) { return page_of(generator, generator->place); }

/* Whether an endpoint's own operations would change, or see, what no operation has made: its program, its generator and that one's variables. */
static bool is_of_program(struct generator *generator, uint64_t page) {
    uint64_t own = generator->program, other = generator->other_program;
    return (page >= own - GENERATOR_CODE && page <= own) || (page >= other - GENERATOR_CODE && page <= other);
}

/* A page that is worth an access: its own, another's, a table page, or any. */
static uint64_t some_page(struct generator *generator) {
    uint64_t choice = below(generator, 20), page;
    if (choice < 10) return generator->pages[generator->place][below(generator, generator->page_count[generator->place])];
    if (choice < 17) return page_of(generator, (uint32_t)below(generator, generator->count));
    if (choice < 18) page = generator->ram_base + 4096 * below(generator, 2 * generator->count);
    else page = generator->ram_base + 4096 * below(generator, generator->ram_pages);
    return is_of_program(generator, page) ? generator->program : page;
}

static uint64_t some_address(struct generator *generator, unsigned size) {
    uint64_t address = some_page(generator) + below(generator, 4096 / size) * size;
    if (one_in(generator, 20)) address += 1;
    if (one_in(generator, 40)) address += UINT64_C(1) << (32 + below(generator, 32));
    return address;
}

/* Whether a page has to keep what it has: the program, and TX, of which the generator knows the words. */
static bool is_kept(struct generator *generator, uint64_t address) {
    uint64_t page = address & ~UINT64_C(0xFFF);
    return is_of_program(generator, page) || page == generator->pages[generator->place][0];
}

static void move_access(struct generator *generator) {
    unsigned size = 1u << below(generator, 4);
    uint64_t address = some_address(generator, size);
    if (one_in(generator, 2) && !is_kept(generator, address)) {
        queue_store(generator, address, size, below(generator, UINT64_C(1) << 48) * 0x10003);
    } else {
        queue_load(generator, address, size);
    }
}

/* One of the words that come back when they are executed, and tell themselves. */
static uint32_t some_word(struct generator *generator) {
    uint32_t immediate = FIRST_FETCHED + (uint32_t)below(generator, 0x10000 - FIRST_FETCHED);
    switch (below(generator, 6)) {
    case 0:
        return WORD_SVC(immediate);
    case 1:
        return WORD_HVC(immediate);
    case 2:
        return WORD_SMC(immediate);
    case 3:
        return WORD_BRK(immediate);
    case 4:
        return immediate; /* which is undefined */
    default:
        return WORD_RET;
    }
}

/* Stores a word, and fetches it; or fetches what is there. */
static void move_fetch(struct generator *generator) {
    uint64_t page = one_in(generator, 2) ? own_page(generator) : some_page(generator);
    uint64_t address = page + 4 * below(generator, 1024);
    if (page == generator->program) return;
    if (!is_kept(generator, address) && !one_in(generator, 4)) queue_store(generator, address, 4, some_word(generator));
    queue(generator, (struct operation){.kind = FETCH, .address = address});
}

static void put_bytes(uint8_t *bytes, uint32_t at, uint64_t value, unsigned size) {
    for (unsigned i = 0; i < size; i++) bytes[at + i] = (uint8_t)(value >> (8 * i));
}

/* An access to each of an offer's pages: what an endpoint reaches before and after a call on them. */
static void queue_accesses(struct generator *generator, const struct offer *offer) {
    for (uint32_t i = 0; i < offer->page_count && i < 2; i++) {
        uint64_t address = offer->pages[i] + 8 * below(generator, 512), choice = below(generator, 5);
        if (choice < 2) queue_load(generator, address, 8);
        else if (choice < 4) queue_store(generator, address, 4, WORD_SVC(below(generator, 0x10000)));
        else queue(generator, (struct operation){.kind = FETCH, .address = address});
    }
}

static uint64_t word_at(const uint8_t *bytes) {
    uint64_t word = 0;
    for (unsigned i = 0; i < 8; i++) word |= (uint64_t)bytes[i] << (8 * i);
    return word;
}

/* Stores a descriptor in TX, each word that isn't there, and makes its call. In some a bit or the length is turned. */
static void queue_descriptor(struct generator *generator, uint8_t *bytes, uint32_t size, uint64_t x0, bool sized) {
    uint64_t told = sized ? size : 0, tx = generator->pages[generator->place][0];
    if (one_in(generator, 12)) bytes[below(generator, size)] ^= (uint8_t)(1u << below(generator, 8));
    if (one_in(generator, 30)) told += 1;
    for (uint32_t at = 0; at < size; at += 8) {
        uint64_t word = word_at(bytes + at);
        if (word != generator->tx[at / 8]) queue_store(generator, tx + at, 8, word);
        generator->tx[at / 8] = word;
    }
    queue_call(generator, x0, told, told, 0, 0);
}

static void put_header(uint8_t *bytes, uint32_t sender, uint64_t attributes, uint64_t flags, const struct offer *offer, uint32_t receivers) {
    put_bytes(bytes, 0, identifier_at(sender), 2);
    put_bytes(bytes, 2, attributes, 2);
    put_bytes(bytes, 4, flags, 4);
    put_bytes(bytes, 8, offer->handle, 8);
    put_bytes(bytes, 16, offer->tag, 8);
    put_bytes(bytes, 24, 16, 4);
    put_bytes(bytes, 28, receivers, 4);
    put_bytes(bytes, 32, 48, 4);
}

/* The access descriptors of so many receivers, each with the place of the composite behind the last. */
static void put_receivers(uint8_t *bytes, const struct offer *offer, uint32_t count) {
    uint32_t at = 48;
    for (uint32_t place = 0; place < MOST_PLACES; place++) {
        if ((offer->receivers >> place & 1) == 0) continue;
        put_bytes(bytes, at, identifier_at(place), 2);
        put_bytes(bytes, at + 2, offer->right, 1);
        put_bytes(bytes, at + 4, 48 + 16 * count, 4);
        at += 16;
    }
}

/* The composite of an offer's pages, each a range. */
static void put_ranges(uint8_t *bytes, const struct offer *offer) {
    put_bytes(bytes, 0, offer->page_count, 4);
    put_bytes(bytes, 4, offer->page_count, 4);
    for (uint32_t range = 0; range < offer->page_count; range++) {
        put_bytes(bytes, 16 + 16 * range, offer->pages[range], 8);
        put_bytes(bytes, 24 + 16 * range, 1, 4);
    }
}

static uint32_t count_of(uint32_t bits) {
    uint32_t count = 0;
    for (; bits != 0; bits &= bits - 1) count++;
    return count;
}

/* One or two of the endpoint's pages, for one or two others. */
static struct offer some_offer(struct generator *generator) {
    uint32_t me = generator->place, other = (uint32_t)below(generator, generator->count);
    struct offer offer = {.sender = (uint16_t)me, .function = FFA_MEM_DONATE + (uint32_t)below(generator, 3), .tag = below(generator, 3)};
    offer.receivers = (uint8_t)(1u << (other == me ? (me + 1) % generator->count : other));
    if (offer.function != FFA_MEM_DONATE && one_in(generator, 3)) offer.receivers |= (uint8_t)(1u << below(generator, generator->count));
    offer.right = offer.function == FFA_MEM_DONATE ? 0 : (uint16_t)(1 + below(generator, 2));
    offer.page_count = (uint8_t)(1 + below(generator, 2));
    offer.pages[0] = own_page(generator);
    offer.pages[1] = own_page(generator);
    return offer;
}

static void move_send(struct generator *generator) {
    uint8_t bytes[160] = {0};
    struct offer *offer = &generator->made;
    *offer = some_offer(generator);
    uint32_t count = count_of(offer->receivers), behind = 48 + 16 * count;
    bool plain = offer->function == FFA_MEM_DONATE || (offer->function == FFA_MEM_LEND && count == 1);
    put_header(bytes, generator->place, plain ? 0 : 0x2F, offer->function != FFA_MEM_SHARE && one_in(generator, 4) ? 1 : 0, offer, count);
    put_receivers(bytes, offer, count);
    put_ranges(bytes + behind, offer);
    queue_accesses(generator, offer);
    queue_descriptor(generator, bytes, behind + 16 + 16 * offer->page_count, offer->function | (one_in(generator, 4) ? WITH_64_BITS : 0), true);
    queue_accesses(generator, offer);
}

/* Whether the endpoint has the part in an open offer for which a call is made. */
static bool fits(struct generator *generator, const struct offer *offer, uint32_t function) {
    bool held = offer->holders >> generator->place & 1, offered = offer->receivers >> generator->place & 1;
    if (function == FFA_MEM_RECLAIM) return offer->sender == generator->place;
    return function == FFA_MEM_RELINQUISH ? held : offered && !held;
}

/* Finds an open offer for a call, or now and then any, and says whether there is one. */
static bool find_offer(struct generator *generator, uint32_t function, struct offer *offer) {
    uint64_t start = below(generator, MOST_NOTICES);
    for (uint32_t i = 0; i < MOST_NOTICES; i++) {
        generator->asked = (uint32_t)(start + i) % MOST_NOTICES;
        *offer = read_notice(generator->asked);
        if (offer->open && (fits(generator, offer, function) || one_in(generator, 30))) return true;
    }
    generator->asked = MOST_NOTICES;
    return false;
}

static void move_retrieve(struct generator *generator) {
    uint8_t bytes[64] = {0};
    struct offer offer;
    if (!find_offer(generator, FFA_MEM_RETRIEVE_REQ, &offer)) return;
    uint64_t kind = offer.function == FFA_MEM_DONATE ? 3 : offer.function == FFA_MEM_SHARE ? 1 : 2;
    uint64_t data = one_in(generator, 3) ? below(generator, 3) : offer.right;
    put_header(bytes, offer.sender, 0, one_in(generator, 2) ? kind << 3 : 0, &offer, 1);
    put_bytes(bytes, 48, identifier_at(generator->place), 2);
    put_bytes(bytes, 50, data | (one_in(generator, 3) ? below(generator, 3) << 2 : 0), 1);
    queue_descriptor(generator, bytes, 64, FFA_MEM_RETRIEVE_REQ, true);
    queue_accesses(generator, &offer);
    queue_accesses(generator, &offer);
    queue_call(generator, FFA_RX_RELEASE, 0, 0, 0, 0);
}

static void move_relinquish(struct generator *generator) {
    uint8_t bytes[24] = {0};
    struct offer offer;
    if (!find_offer(generator, FFA_MEM_RELINQUISH, &offer)) return;
    put_bytes(bytes, 0, offer.handle, 8);
    put_bytes(bytes, 8, one_in(generator, 3) ? 1 : 0, 4);
    put_bytes(bytes, 12, 1, 4);
    put_bytes(bytes, 16, identifier_at(generator->place), 2);
    queue_accesses(generator, &offer);
    queue_descriptor(generator, bytes, 24, FFA_MEM_RELINQUISH, false);
    queue_accesses(generator, &offer);
}

static void move_reclaim(struct generator *generator) {
    struct offer offer;
    if (!find_offer(generator, FFA_MEM_RECLAIM, &offer)) return;
    queue_accesses(generator, &offer);
    queue_call(generator, FFA_MEM_RECLAIM, offer.handle & 0xFFFFFFFF, offer.handle >> 32, one_in(generator, 4) ? 1 : 0, 0);
    queue_accesses(generator, &offer);
}

static void move_message(struct generator *generator) {
    uint8_t bytes[32] = {0};
    put_bytes(bytes, 8, 24, 4);
    put_bytes(bytes, 12, some_identifier(generator), 2);
    put_bytes(bytes, 14, identifier_at(generator->place), 2);
    put_bytes(bytes, 16, 8, 4);
    put_bytes(bytes, 24, below(generator, UINT64_C(1) << 48), 8);
    queue_descriptor(generator, bytes, 32, FFA_MSG_SEND2, false);
}

static void move_notification(struct generator *generator) {
    uint64_t me = identifier_at(generator->place), other = some_identifier(generator), bits = UINT64_C(1) << below(generator, 4);
    switch (below(generator, 6)) {
    case 0:
    case 1:
        queue_call(generator, FFA_NOTIFICATION_BIND, other << 16 | me, 0, bits, 0);
        break;
    case 2:
        queue_call(generator, FFA_NOTIFICATION_UNBIND, other << 16 | me, 0, bits, 0);
        break;
    case 3:
        queue_call(generator, FFA_NOTIFICATION_SET, me << 16 | other, 0, bits, 0);
        break;
    case 4:
        queue_call(generator, FFA_NOTIFICATION_GET, me, below(generator, 8), 0, 0);
        break;
    default:
        queue_call(generator, one_in(generator, 2) ? FFA_NOTIFICATION_BITMAP_CREATE : FFA_NOTIFICATION_BITMAP_DESTROY, 0, 1, 0, 0);
    }
}

static void move_question(struct generator *generator) {
    switch (below(generator, 5)) {
    case 0:
        queue_call(generator, FFA_VERSION, 0x10001, 0, 0, 0);
        break;
    case 1:
        queue_call(generator, FFA_ID_GET, below(generator, 1000), 0, 0, 0);
        break;
    case 2:
        queue_call(generator, FFA_PARTITION_INFO_GET, 0, 0, 0, 0);
        break;
    case 3:
        queue_call(generator, FFA_ERROR + below(generator, 0x30), below(generator, 4), 0, 0, 0);
        break;
    default:
        queue_call(generator, UINT64_C(0x123456789) << 32 | FFA_SPM_ID_GET, 0, 0, 0, 0);
    }
}

/* Hands the processor on: cycles or a request from the normal world, and what gives them back from a partition. */
static void move_on(struct generator *generator) {
    uint64_t me = identifier_at(generator->place), other = some_identifier(generator);
    uint64_t wide = one_in(generator, 2) ? WITH_64_BITS : 0, load = below(generator, UINT64_C(1) << 48) << 12;
    if ((me == 0 && one_in(generator, 2)) || one_in(generator, 12)) {
        queue_call(generator, FFA_RUN, other << 16, 0, 0, 0);
    } else if (me == 0 || one_in(generator, 3)) {
        queue_call(generator, FFA_MSG_SEND_DIRECT_REQ | wide, me << 16 | other, 0, load, ~load);
    } else if (generator->work == FFA_MSG_SEND_DIRECT_REQ && !one_in(generator, 4)) {
        queue_call(generator, FFA_MSG_SEND_DIRECT_RESP | wide, me << 16 | generator->requester, 0, load, ~load);
    } else {
        queue_call(generator, one_in(generator, 2) ? FFA_MSG_WAIT : FFA_YIELD, 0, 0, 0, 0);
    }
}

/* Goes round with nothing to tell: only an interrupt shows. */
static void move_rounds(struct generator *generator) {
    uint64_t address = (uint64_t)(uintptr_t)&generator->rounds;
    queue(generator, (struct operation){.kind = SPIN, .address = address, .value = 1 + below(generator, 4096)});
}

/* The normal world runs the partition again that it was interrupted in. */
static void move_back(struct generator *generator) {
    queue_call(generator, FFA_RUN, (uint64_t)generator->preempted << 16, 0, 0, 0);
    generator->preempted = 0;
}

/* Maps TX and RX, where the endpoint has none. */
static void move_map(struct generator *generator) {
    const uint64_t *pages = generator->pages[generator->place];
    queue_call(generator, FFA_RXTX_MAP, pages[0], pages[1], 1, 0);
}

/* Whether a move of this choice writes TX. */
static bool needs_buffers(uint64_t choice) { return (choice >= 32 && choice < 64) || (choice >= 74 && choice < 78); }

void make_move(struct generator *generator) {
    uint64_t choice = below(generator, 100);
    if (needs_buffers(choice) && !take_buffers(generator)) choice = 0;
    if (generator->preempted != 0 && one_in(generator, 5)) move_back(generator);
    else if (!generator->mapped && one_in(generator, 3)) move_map(generator);
    else if (choice < 24) move_access(generator);
    else if (choice < 32) move_fetch(generator);
    else if (choice < 44) move_send(generator);
    else if (choice < 58) move_retrieve(generator);
    else if (choice < 64) move_relinquish(generator);
    else if (choice < 70) move_reclaim(generator);
    else if (choice < 74) queue_call(generator, FFA_RX_RELEASE, 0, 0, 0, 0);
    else if (choice < 78) move_message(generator);
    else if (choice < 82) move_notification(generator);
    else if (choice < 85) move_question(generator);
    else if (choice < 86) queue_call(generator, FFA_RXTX_UNMAP, 0, 0, 0, 0);
    else if (choice < 89 && generator->place != 0) move_rounds(generator);
    else move_on(generator);
}
