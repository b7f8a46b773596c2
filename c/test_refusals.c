/* SPDX-License-Identifier: MIT OR Apache-2.0 */
/* Why and where a manifest is refused, of a text and of numbers, also where memory is refused or there is no room for words. Places
 * and causes are by reasoning, from the manual's order of checks. */
#include <stdio.h>
#include <string.h>
#include "check.h"
#include "counted.h"
#include "gorseplumb.h"

#define REST "ram_blocks = 1\n"
#define WORLD "[[endpoint]]\nversion = \"1.1\"\nproperties = 6\nregions = [{ base = 0x40010000, pages = 16, rights = \"rw\" }]\n"
#define PARTITION "[[endpoint]]\nversion = \"1.1\"\nuuid = \"00112233-4455-6677-8899-aabbccddeeff\"\nproperties = 15\n"
#define OWN "{ base = 0x40020000, pages = 16, rights = \"rw\" }"

void gorseplumb_settle(uint16_t endpoint, uint64_t address, uint64_t size) {
    (void)endpoint, (void)address, (void)size;
    CHECK(false); /* nothing boots */
}

static const struct gorseplumb_refusal unasked = {77, 77, 77, 77, 77, 77};
static struct gorseplumb_refusal refusal;
static char words[512];

static enum gorseplumb_answer why(const char *text, size_t size, size_t room) {
    refusal = unasked;
    memset(words, '#', sizeof words);
    return gorseplumb_why_text((const uint8_t *)text, size, &refusal, (uint8_t *)words, room);
}

static bool stays(void) {
    for (size_t i = 0; i < sizeof words; i++) CHECK(words[i] == '#');
    return memcmp(&refusal, &unasked, sizeof refusal) == 0;
}

/* A text is refused for this cause, at this endpoint, region, line and column, and its words begin so. */
static void refuses(const char *text, uint32_t cause, uint32_t endpoint, uint64_t region, uint64_t line, uint64_t column, const char *said) {
    CHECK(why(text, strlen(text), sizeof words) == cause && refusal.cause == cause);
    CHECK(refusal.endpoint == endpoint && refusal.region == region && refusal.line == line && refusal.column == column);
    CHECK(strlen(words) == refusal.words && strncmp(words, said, strlen(said)) == 0);
    CHECK(pieces == 0);
    struct gorseplumb_manifest manifest;
    CHECK(gorseplumb_read_manifest((const uint8_t *)text, strlen(text), &manifest) == cause);
}

static void texts(void) {
    const uint32_t none = GORSEPLUMB_NOTHING;
    /* (what TOML lacks the parser says by line and column too) */
    refuses("ram_base = 0x40000000 0\n", GORSEPLUMB_MANIFEST_TOML, none, 0, 1, 12, "TOML parse error at line 1, column 12: ");
    refuses("# \xC3\xA9\nx = 1\nx = 2", GORSEPLUMB_MANIFEST_TOML, none, 0, 3, 1, "TOML parse error at line 3, column 1: ");
    refuses("x = \"\xC3\xA9\" \xC3\xA9", GORSEPLUMB_MANIFEST_TOML, none, 0, 1, 9, "TOML parse error at line 1, column 9: ");
    refuses("ram_base = 1\nx = \"\xC3\xA9\xFF\"", GORSEPLUMB_MANIFEST_TOML, none, 0, 2, 7, "invalid utf-8 sequence of 1 bytes from index 20");
    refuses("\n\n\xC3", GORSEPLUMB_MANIFEST_TOML, none, 0, 3, 1, "incomplete utf-8 byte sequence from index 2");
    refuses("rambase = 1", GORSEPLUMB_MANIFEST_UNKNOWN_KEY, none, 0, 0, 0, "unknown key 'rambase': did you mean 'ram_base'?");
    refuses("", GORSEPLUMB_MANIFEST_MISSING_KEY, none, 0, 0, 0, "missing key 'ram_base'");
    refuses("ram_base = 1", GORSEPLUMB_MANIFEST_RAM_BASE, none, 0, 0, 0, "ram_base = 00000001 (decimal 1): must be a multiple of 04000000");
    refuses("ram_base = 0x40000000\n" REST "endpoint = []", GORSEPLUMB_MANIFEST_ENDPOINT_COUNT, none, 0, 0, 0, "endpoint has 0 members");
    refuses("ram_base = 0x40000000\n" REST "[[endpoint]]\nversion = \"1.2\"", GORSEPLUMB_MANIFEST_VERSION, 0, 0, 0, 0,
            "endpoint 0000 (the 1st [[endpoint]]): version = \"1.2\": must be \"1.1\" or \"compact\"; \"1.2\" needs a machine of FF-A 1.2");
    refuses("ram_base = 0x40000000\n" REST WORLD PARTITION "regions = [" OWN ", { base = 0x40020000, pages = 1 }]",
            GORSEPLUMB_MANIFEST_MISSING_KEY, 0x8001, 2, 0, 0, "endpoint 8001 (the 2nd [[endpoint]]), region 2: missing key 'rights'");
    refuses("ram_base = 0x40000000\n" REST WORLD PARTITION "regions = [" OWN ", " OWN "]", GORSEPLUMB_MANIFEST_REGION_OVERLAP, 0x8001, 2, 0, 0,
            "endpoint 8001 (the 2nd [[endpoint]]), region 2: base = ");
}

/* What describes a machine is no refusal, nor is want of memory; and words are cut where there is no room. */
static void stops(void) {
    static const char good[] = "ram_base = 0x40000000\n" REST WORLD, bad[] = "rambase = 1";
    CHECK(why(good, sizeof good - 1, sizeof words) == GORSEPLUMB_OK && stays() && pieces == 0);
    enum gorseplumb_answer answer = GORSEPLUMB_NO_MEMORY;
    size_t turn = 0;
    while (answer == GORSEPLUMB_NO_MEMORY) {
        asked = 0;
        refused = ++turn;
        answer = why(bad, sizeof bad - 1, sizeof words);
        refused = 0;
        CHECK(pieces == 0 && (answer != GORSEPLUMB_NO_MEMORY || stays()));
    }
    CHECK(answer == GORSEPLUMB_MANIFEST_UNKNOWN_KEY && turn > 1);
    const uint64_t all = refusal.words;
    CHECK(all == strlen("unknown key 'rambase': did you mean 'ram_base'?"));
    CHECK(why(bad, sizeof bad - 1, 4) == GORSEPLUMB_MANIFEST_UNKNOWN_KEY && memcmp(words, "unk\0#", 5) == 0 && refusal.words == all);
    CHECK(why(bad, sizeof bad - 1, 1) == GORSEPLUMB_MANIFEST_UNKNOWN_KEY && memcmp(words, "\0#", 2) == 0 && refusal.words == all);
    CHECK(why(bad, sizeof bad - 1, 0) == GORSEPLUMB_MANIFEST_UNKNOWN_KEY && words[0] == '#' && refusal.words == all);
}

/* A machine of three endpoints, with two regions each. */
static struct gorseplumb_manifest right(void) {
    struct gorseplumb_manifest manifest = {.ram_base = 0x40000000, .ram_blocks = 1, .endpoint_count = 3};
    for (uint32_t place = 0; place < 3; place++) {
        struct gorseplumb_endpoint *endpoint = &manifest.endpoints[place];
        endpoint->uuid[0] = (uint8_t)place;
        endpoint->region_count = 2;
        endpoint->regions[0] = (struct gorseplumb_region){0x40010000 + 0x10000 * place, 1, GORSEPLUMB_READ};
        endpoint->regions[1] = (struct gorseplumb_region){0x40011000 + 0x10000 * place, 1, GORSEPLUMB_WRITE};
    }
    return manifest;
}

/* Numbers are refused for this cause, at this endpoint and region, as a boot refuses them. */
static void refuses_numbers(const struct gorseplumb_manifest *manifest, uint32_t cause, uint32_t endpoint, uint64_t region) {
    struct gorseplumb_machine machine = {0};
    refusal = unasked;
    CHECK(gorseplumb_why_manifest(manifest, &refusal) == cause && refusal.cause == cause);
    CHECK(refusal.endpoint == endpoint && refusal.region == region);
    CHECK(refusal.line == 0 && refusal.column == 0 && refusal.words == 0);
    CHECK(gorseplumb_boot_manifest(&machine, manifest) == cause);
}

static void numbers(void) {
    struct gorseplumb_manifest it = right();
    refusal = unasked;
    refused = asked + 1;
    CHECK(gorseplumb_why_manifest(&it, &refusal) == GORSEPLUMB_OK && memcmp(&refusal, &unasked, sizeof refusal) == 0);
    refused = 0;
    it.endpoints[1].regions[1].base = it.endpoints[0].regions[1].base;
    refuses_numbers(&it, GORSEPLUMB_MANIFEST_REGION_OVERLAP, 0x8001, 2);
    it.endpoints[1].regions[0].pages = 0;
    refuses_numbers(&it, GORSEPLUMB_MANIFEST_REGION_OUTSIDE, 0x8001, 1);
    it.endpoints[1].properties = 16;
    refuses_numbers(&it, GORSEPLUMB_MANIFEST_PROPERTY, 0x8001, 0);
    it.endpoints[1].uuid[0] = 0;
    refuses_numbers(&it, GORSEPLUMB_MANIFEST_UUID, 0x8001, 0);
    it.endpoints[1].version = 2;
    refuses_numbers(&it, GORSEPLUMB_MANIFEST_VERSION, 0x8001, 0);
    it.ffa = GORSEPLUMB_FFA_1_2;
    refuses_numbers(&it, GORSEPLUMB_MANIFEST_UUID, 0x8001, 0);
    it.endpoints[0].region_count = 0;
    refuses_numbers(&it, GORSEPLUMB_MANIFEST_REGION_COUNT, 0, 0);
    it.ram_blocks = 0;
    refuses_numbers(&it, GORSEPLUMB_MANIFEST_RAM_BLOCKS, GORSEPLUMB_NOTHING, 0);
    it.ram_base = 1;
    refuses_numbers(&it, GORSEPLUMB_MANIFEST_RAM_BASE, GORSEPLUMB_NOTHING, 0);
    it.ffa = 2;
    refuses_numbers(&it, GORSEPLUMB_MANIFEST_WRONG_KIND, GORSEPLUMB_NOTHING, 0);
    it.endpoints[2].regions[1].rights = 2;
    refuses_numbers(&it, GORSEPLUMB_MANIFEST_WRONG_KIND, 0x8002, 2);
    it.endpoints[2].region_count = 17;
    refuses_numbers(&it, GORSEPLUMB_MANIFEST_REGION_COUNT, 0x8002, 0);
    it.endpoints[2].version = 3;
    refuses_numbers(&it, GORSEPLUMB_MANIFEST_VERSION, 0x8002, 0);
    it.endpoint_count = 9;
    refuses_numbers(&it, GORSEPLUMB_MANIFEST_ENDPOINT_COUNT, GORSEPLUMB_NOTHING, 0);
    it = right();
    it.endpoint_count = 0;
    refuses_numbers(&it, GORSEPLUMB_MANIFEST_ENDPOINT_COUNT, GORSEPLUMB_NOTHING, 0);
}

int main(void) {
    texts();
    stops();
    numbers();
    printf("refusals of manifests are told\n");
    return 0;
}
