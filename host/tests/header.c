/* Holds the header against the library by use: the struct's layout, the constants, and a call under every name. */
#include <stddef.h>
#include <stdio.h>
#include <string.h>

#include "rvghash.h"

static int failed;

static void expect(int ok, const char *what)
{
    if (!ok) {
        printf("header: %s\n", what);
        failed = 1;
    }
}

static int is_block(const uint8_t *block, uint8_t first, uint8_t last)
{
    uint8_t want[16] = {0};
    want[0] = first;
    want[15] = last;
    return memcmp(block, want, 16) == 0;
}

struct after_a_byte {
    char byte;
    struct rvghash_running running;
};

static void layout(void)
{
    expect(offsetof(struct after_a_byte, running) == 8, "struct rvghash_running has an alignment of 8");
    expect(sizeof(struct rvghash_running) == 48, "struct rvghash_running is 48 bytes");
    expect(offsetof(struct rvghash_running, y_high) == 0, "y_high is at 0");
    expect(offsetof(struct rvghash_running, y_low) == 8, "y_low is at 8");
    expect(offsetof(struct rvghash_running, open) == 16, "open is at 16");
    expect(offsetof(struct rvghash_running, a_count) == 32, "a_count is at 32");
    expect(offsetof(struct rvghash_running, c_count) == 36, "c_count is at 36");
    expect(offsetof(struct rvghash_running, phase) == 40, "phase is at 40");
    expect(offsetof(struct rvghash_running, spare) == 41, "spare is at 41");
}

/* Document 01's marked cases K6, K9, K10 and K14, each through the functions that it concerns. */
static void fields(void)
{
    uint8_t zero[16] = {0}, one[16] = {0x80}, x[16] = {0x40}, last[16] = {0}, c[1] = {1}, out[16];
    uint32_t degree = 7;
    last[15] = 1;
    expect(rvghash_product_plain(last, 16, x, 16, out, 16) == RVGHASH_DONE && is_block(out, 0xE1, 0), "K6, plain");
    expect(rvghash_product_fast(last, 16, x, 16, out, 16) == RVGHASH_DONE && is_block(out, 0xE1, 0), "K6, fast");
    expect(rvghash_product(last, 16, x, 16, out, 16) == RVGHASH_DONE && is_block(out, 0xE1, 0), "K6, primary name");
    expect(rvghash_product(x, 16, x, 16, out, 16) == RVGHASH_DONE && is_block(out, 0x20, 0), "key and block in one place");
    expect(rvghash_product_fast(last, 15, x, 16, out, 16) == RVGHASH_NOT_16_BYTES && is_block(out, 0, 0), "a short key");
    expect(rvghash_ghash_plain(one, 16, zero, 0, c, 1, out, 16) == RVGHASH_DONE && is_block(out, 1, 8), "K14, plain");
    expect(rvghash_ghash_fast(one, 16, zero, 0, c, 1, out, 16) == RVGHASH_DONE && is_block(out, 1, 8), "K14, fast");
    expect(rvghash_ghash(one, 16, NULL, 0, c, 1, out, 16) == RVGHASH_DONE && is_block(out, 1, 8), "K14, primary name");
    expect(rvghash_step_back(x, 16, zero, 16, one, 16, out, 16) == RVGHASH_DONE && is_block(out, 0xC2, 1), "K9");
    expect(rvghash_step_back(zero, 16, zero, 16, zero, 16, out, 16) == RVGHASH_MANY && is_block(out, 0, 0), "K10");
    expect(rvghash_degree(last, 16, &degree) == RVGHASH_DONE && degree == 127, "the degree of x^127");
    expect(rvghash_degree(zero, 16, &degree) == RVGHASH_NONE && degree == 0, "the degree of zero");
}

static void running(void)
{
    uint8_t one[16] = {0x80}, c[1] = {1}, out[16];
    struct rvghash_running r, before, zeros;
    memset(&r, 0xFF, sizeof r);
    memset(&zeros, 0, sizeof zeros);
    rvghash_running_new(&r);
    expect(memcmp(&r, &zeros, sizeof r) == 0, "a fresh running hash is all zeros");
    memset(r.spare, 0xFF, sizeof r.spare);
    expect(rvghash_feed_a(&r, one, 16, c, 0) == RVGHASH_DONE, "an empty piece of A");
    expect(rvghash_feed_a_fast(&r, one, 16, c, 0) == RVGHASH_DONE, "an empty piece of A, fast");
    expect(rvghash_feed_a_plain(&r, one, 16, c, 0) == RVGHASH_DONE, "an empty piece of A, plain");
    expect(rvghash_feed_c(&r, one, 16, c, 1) == RVGHASH_DONE && r.phase == 1 && r.c_count == 1, "a piece of C");
    expect(rvghash_feed_c_fast(&r, one, 16, c, 0) == RVGHASH_DONE, "an empty piece of C, fast");
    expect(rvghash_feed_c_plain(&r, one, 16, c, 0) == RVGHASH_DONE, "an empty piece of C, plain");
    expect(memcmp(r.spare, zeros.spare, sizeof r.spare) == 0, "a call that is done writes zeros to the spare bytes");
    memset(r.spare, 0xFF, sizeof r.spare);
    before = r;
    expect(rvghash_feed_a(&r, one, 16, c, 1) == RVGHASH_BAD_RUNNING && memcmp(&r, &before, sizeof r) == 0, "A after C");
    expect(rvghash_finish(&r, one, 16, out, 16) == RVGHASH_DONE && is_block(out, 1, 8), "finishing K14");
    expect(r.phase == 2 && r.y_high == 0x0100000000000000u && r.y_low == 8, "the hash is also Y");
    expect(rvghash_finish_fast(&r, one, 16, out, 16) == RVGHASH_BAD_RUNNING && is_block(out, 0, 0), "finishing again, fast");
    expect(rvghash_finish_plain(&r, one, 16, out, 16) == RVGHASH_BAD_RUNNING && is_block(out, 0, 0), "finishing again");
}

/* In the middle of C, with ten open bytes. But for zeros no two bytes of its record are the same. */
static void fill_running(struct rvghash_running *r)
{
    memset(r, 0xFF, sizeof *r);
    r->y_high = 0x4142434445464748;
    r->y_low = 0x494A4B4C4D4E4F50;
    memset(r->open, 0, sizeof r->open);
    for (uint8_t i = 0; i < 10; i++)
        r->open[i] = (uint8_t)(0x51 + i);
    r->a_count = 0x0F2E2D;
    r->c_count = 0x0C3B3A;
    r->phase = 1;
}

/* The record of that one. */
static void fill_record(uint8_t *record)
{
    const uint8_t tail[] = {0x2D, 0x2E, 0x0F, 0, 0x3A, 0x3B, 0x0C, 0, 1};
    memset(record, 0, RVGHASH_PARKED_BYTES);
    for (uint8_t i = 0; i < 16 + 10; i++)
        record[i] = (uint8_t)(0x41 + i);
    memcpy(record + 32, tail, sizeof tail);
}

/* The record's bytes, then what is refused, which leaves the buffer and the byte after it. 10 comes before 15. */
static void park(void)
{
    uint8_t bytes[RVGHASH_PARKED_BYTES + 1], want[RVGHASH_PARKED_BYTES + 1];
    const size_t length = RVGHASH_PARKED_BYTES;
    struct rvghash_running r, before;
    expect(length == 48 && RVGHASH_BAD_PARKED == 15, "a parked record is 48 bytes, and its number 15");
    memset(bytes, '#', sizeof bytes);
    fill_record(want);
    want[length] = '#';
    fill_running(&r);
    fill_running(&before);
    expect(rvghash_park(&r, bytes, length) == RVGHASH_DONE, "parking");
    expect(memcmp(bytes, want, sizeof want) == 0, "the parked record's bytes, whatever the struct's spare bytes");
    memset(want, '#', sizeof want);
    memset(bytes, '#', sizeof bytes);
    expect(rvghash_park(&r, bytes, length - 1) == RVGHASH_BAD_PARKED, "parking into 47 bytes");
    expect(rvghash_park(&r, bytes, length + 1) == RVGHASH_BAD_PARKED, "parking into 49 bytes");
    expect(rvghash_park(&r, NULL, 0) == RVGHASH_BAD_PARKED, "parking into nothing");
    expect(memcmp(&r, &before, sizeof r) == 0, "parking leaves the running hash, its spare bytes too");
    r.open[10] = 1;
    expect(rvghash_park(&r, bytes, length) == RVGHASH_BAD_RUNNING, "parking an open byte that is not C's");
    fill_running(&r);
    r.phase = 3;
    expect(rvghash_park(&r, bytes, length) == RVGHASH_BAD_RUNNING, "parking in phase 3");
    expect(rvghash_park(&r, bytes, length - 1) == RVGHASH_BAD_RUNNING, "10 comes before 15");
    expect(rvghash_park(&r, NULL, 0) == RVGHASH_BAD_RUNNING, "10 comes before 15, with no buffer");
    expect(memcmp(bytes, want, sizeof bytes) == 0, "a refusal leaves the buffer");
}

/* Reads a record that is this one but for a byte: refused, and the running hash is then a fresh one. */
static void not_read(size_t place, uint8_t byte, size_t length, const char *what)
{
    uint8_t record[RVGHASH_PARKED_BYTES + 1], before[sizeof record];
    struct rvghash_running r, fresh;
    fill_record(record);
    record[RVGHASH_PARKED_BYTES] = 0;
    record[place] = byte;
    memcpy(before, record, sizeof record);
    fill_running(&r);
    rvghash_running_new(&fresh);
    expect(rvghash_unpark(&r, record, length) == RVGHASH_BAD_PARKED, what);
    expect(memcmp(&r, &fresh, sizeof r) == 0, "a refused record yields a fresh running hash");
    expect(memcmp(record, before, sizeof record) == 0, "a record is only read");
}

/* The record is read back, and written again; others are refused. */
static void unpark(void)
{
    uint8_t record[RVGHASH_PARKED_BYTES], again[RVGHASH_PARKED_BYTES];
    const size_t length = RVGHASH_PARKED_BYTES;
    struct rvghash_running r, want, fresh;
    memset(&r, 0xFF, sizeof r);
    rvghash_running_new(&fresh);
    fill_record(record);
    fill_running(&want);
    memset(want.spare, 0, sizeof want.spare);
    expect(rvghash_unpark(&r, record, length) == RVGHASH_DONE, "reading back");
    expect(memcmp(&r, &want, sizeof r) == 0, "what was parked, with zeros in the spare bytes");
    expect(rvghash_park(&r, again, length) == RVGHASH_DONE && memcmp(again, record, length) == 0, "the same record again");
    not_read(0, 1, length - 1, "a parked record of 47 bytes");
    not_read(0, 1, length + 1, "a parked record of 49 bytes");
    not_read(16 + 10, 1, length, "an open byte that is not C's");
    not_read(32 + 2, 0x10, length, "a count of A over the limit");
    not_read(36 + 3, 1, length, "a count of C over the limit");
    not_read(40, 0, length, "a count of C in phase 0");
    not_read(40, 2, length, "an open byte in phase 2");
    not_read(40, 3, length, "phase 3");
    for (size_t place = 41; place < length; place++)
        not_read(place, 0x80, length, "a spare byte that is not zero");
    expect(rvghash_unpark(&r, NULL, 0) == RVGHASH_BAD_PARKED && memcmp(&r, &fresh, sizeof r) == 0, "no record");
}

/* These fields and zeros elsewhere, but for a 1 at an open place (-1: at none): parked, and their record read; or malformed. */
static void side(uint32_t a_count, uint32_t c_count, uint8_t phase, int open, bool malformed, const char *what)
{
    uint8_t record[RVGHASH_PARKED_BYTES] = {0}, parked[RVGHASH_PARKED_BYTES];
    struct rvghash_running r, back, fresh;
    rvghash_running_new(&r);
    rvghash_running_new(&fresh);
    memset(&back, 0xFF, sizeof back);
    r.a_count = a_count;
    r.c_count = c_count;
    r.phase = record[40] = phase;
    if (open >= 0)
        r.open[open] = record[16 + open] = 1;
    for (int i = 0; i < 4; i++) {
        record[32 + i] = (uint8_t)(a_count >> 8 * i);
        record[36 + i] = (uint8_t)(c_count >> 8 * i);
    }
    expect(rvghash_park(&r, parked, sizeof parked) == (malformed ? RVGHASH_BAD_RUNNING : RVGHASH_DONE), what);
    expect(malformed || memcmp(parked, record, sizeof parked) == 0, what);
    expect(rvghash_unpark(&back, record, sizeof record) == (malformed ? RVGHASH_BAD_PARKED : RVGHASH_DONE), what);
    expect(memcmp(&back, malformed ? &fresh : &r, sizeof back) == 0, what);
}

/* Both sides of each clause of document 01's "Malformed". */
static void sides(void)
{
    side(0, 0, 2, -1, false, "phase 2");
    side(0, 0, 3, -1, true, "phase 3, and nothing else wrong");
    side(0, 0, 4, -1, true, "phase 4");
    side(RVGHASH_LIMIT_BYTES, 0, 0, -1, false, "A at the limit");
    side(RVGHASH_LIMIT_BYTES + 1, 0, 0, -1, true, "A past the limit");
    side(1 << 24, 0, 0, -1, true, "A of 2^24 bytes");
    side(0, RVGHASH_LIMIT_BYTES, 1, -1, false, "C at the limit");
    side(0, RVGHASH_LIMIT_BYTES + 1, 1, -1, true, "C past the limit");
    side(0, 1, 1, -1, false, "a byte of C in phase 1");
    side(0, 1, 0, -1, true, "a byte of C in phase 0");
    side(19, 0, 0, 2, false, "the last open byte of A");
    side(19, 0, 0, 3, true, "an open byte after A's");
    side(19, 0, 0, 15, true, "the last open byte of all");
    side(16, 0, 0, 0, true, "an open byte where A has whole blocks");
    side(0, 19, 1, 2, false, "the last open byte of C");
    side(31, 19, 1, 3, true, "an open byte after C's");
    side(31, 31, 2, -1, false, "no open byte in phase 2");
    side(31, 31, 2, 0, true, "an open byte in phase 2, at the first place");
}

/* K14 under way, parked, read into another struct, and finished there; a finished one is parked as well. */
static void parked_between(void)
{
    uint8_t one[16] = {0x80}, c[1] = {1}, record[RVGHASH_PARKED_BYTES], out[16];
    struct rvghash_running r, other;
    rvghash_running_new(&r);
    memset(&other, 0xFF, sizeof other);
    expect(rvghash_feed_c(&r, one, 16, c, 1) == RVGHASH_DONE, "K14, to be parked");
    expect(rvghash_park(&r, record, sizeof record) == RVGHASH_DONE, "K14, parked");
    expect(rvghash_unpark(&other, record, sizeof record) == RVGHASH_DONE, "K14, read back");
    expect(memcmp(&other, &r, sizeof r) == 0, "K14, the same running hash");
    expect(rvghash_finish(&other, one, 16, out, 16) == RVGHASH_DONE && is_block(out, 1, 8), "K14, finished elsewhere");
    expect(rvghash_park(&other, record, sizeof record) == RVGHASH_DONE && memcmp(record, out, 16) == 0 && record[40] == 2,
           "a finished one is parked, its hash first");
}

/* Three links under the one block: the hash is the claim block xored with the length block, which is 0x80 in byte 7. */
static void fill_links(uint8_t *records)
{
    for (uint8_t i = 0; i < 3; i++) {
        uint8_t *claim = records + RVGHASH_LINK_BYTES * i, *hash = claim + RVGHASH_BLOCK_BYTES;
        for (uint8_t k = 0; k < RVGHASH_BLOCK_BYTES; k++)
            claim[k] = hash[k] = (uint8_t)(16 * (i + 1) + k);
        hash[7] ^= 0x80;
    }
}

/*
 * Three links, but for a byte that is changed (-1: none), under the key of this first byte and zeros. The results must be these,
 * over bytes that are no results, and the byte after them stays.
 */
static void links_are(uint8_t first, int change, const char *want, const char *what)
{
    uint8_t key[RVGHASH_BLOCK_BYTES] = {first}, records[3 * RVGHASH_LINK_BYTES], before[sizeof records], results[4];
    memset(results, '#', sizeof results);
    fill_links(records);
    if (change >= 0)
        records[change] ^= 1;
    memcpy(before, records, sizeof records);
    expect(rvghash_check_links(key, sizeof key, records, sizeof records, results, 3) == RVGHASH_DONE, what);
    expect(memcmp(results, want, 3) == 0 && results[3] == '#', what);
    expect(is_block(key, first, 0) && memcmp(records, before, sizeof records) == 0, "key and links are only read");
}

/* Each byte of each record changed, and other keys. */
static void links(void)
{
    expect(RVGHASH_LINK_BYTES == 32 && RVGHASH_BAD_LINKS == 16, "a link is 32 bytes, and its number 16");
    links_are(0x80, -1, "\1\1\1", "three links");
    for (int i = 0; i < RVGHASH_LINK_BYTES; i++) {
        links_are(0x80, i, "\0\1\1", "a changed byte in the first link");
        links_are(0x80, RVGHASH_LINK_BYTES + i, "\1\0\1", "a changed byte in the second link");
        links_are(0x80, 2 * RVGHASH_LINK_BYTES + i, "\1\1\0", "a changed byte in the third link");
    }
    links_are(0x81, -1, "\0\0\0", "three links under another key");
    links_are(0, -1, "\0\0\0", "three links under the zero key");
}

/* What is refused, and no records at all: both leave the buffer. 9 comes before 16. */
static void links_refused(void)
{
    uint8_t key[17] = {0x80}, records[3 * RVGHASH_LINK_BYTES + 1] = {0}, results[4], before[4];
    const size_t length = 3 * RVGHASH_LINK_BYTES;
    memset(results, '#', sizeof results);
    memset(before, '#', sizeof before);
    fill_links(records);
    expect(rvghash_check_links(key, 15, records, length, results, 3) == RVGHASH_NOT_16_BYTES, "links under a key of 15 bytes");
    expect(rvghash_check_links(key, 17, records, length, results, 3) == RVGHASH_NOT_16_BYTES, "links under a key of 17 bytes");
    expect(rvghash_check_links(NULL, 0, records, length, results, 3) == RVGHASH_NOT_16_BYTES, "links under no key");
    expect(rvghash_check_links(key, 16, records, length - 1, results, 3) == RVGHASH_BAD_LINKS, "a byte of the links missing");
    expect(rvghash_check_links(key, 16, records, length + 1, results, 3) == RVGHASH_BAD_LINKS, "a byte after the links");
    expect(rvghash_check_links(key, 16, records, length - 1, results, 2) == RVGHASH_BAD_LINKS, "two links and 31 bytes");
    expect(rvghash_check_links(key, 16, records, length - 16, results, 2) == RVGHASH_BAD_LINKS, "two links and a claim block");
    expect(rvghash_check_links(key, 16, records, length, results, 2) == RVGHASH_BAD_LINKS, "a result too few");
    expect(rvghash_check_links(key, 16, records, length, results, 4) == RVGHASH_BAD_LINKS, "a result too many");
    expect(rvghash_check_links(key, 16, records, length, NULL, 0) == RVGHASH_BAD_LINKS, "links and no results");
    expect(rvghash_check_links(key, 16, NULL, 0, results, 1) == RVGHASH_BAD_LINKS, "a result and no links");
    expect(rvghash_check_links(key, 15, records, length - 1, results, 2) == RVGHASH_NOT_16_BYTES, "9 comes before 16");
    expect(rvghash_check_links(NULL, 0, NULL, 0, NULL, 0) == RVGHASH_NOT_16_BYTES, "no links under no key");
    expect(rvghash_check_links(key, 16, records, 0, results, 0) == RVGHASH_DONE, "no links");
    expect(rvghash_check_links(key, 16, NULL, 0, NULL, 0) == RVGHASH_DONE, "no links, and no memory for them");
    expect(memcmp(results, before, sizeof results) == 0, "a refusal and no links leave the results");
}

/* The zero key: a link agrees where its hash is zero, whatever its claim block. */
static void links_under_zero(void)
{
    uint8_t zero[RVGHASH_BLOCK_BYTES] = {0}, records[3 * RVGHASH_LINK_BYTES], results[3];
    fill_links(records);
    memset(records + 16, 0, 16);
    memset(records + 2 * RVGHASH_LINK_BYTES + 16, 0, 16);
    expect(rvghash_check_links(zero, sizeof zero, records, sizeof records, results, sizeof results) == RVGHASH_DONE &&
               memcmp(results, "\1\0\1", 3) == 0, "zero hashes under the zero key");
}

/* VERSION is the file's content, given by the compiler's line. */
static void version(void)
{
    char parts[32];
    snprintf(parts, sizeof parts, "%d.%d.%d", RVGHASH_VERSION_MAJOR, RVGHASH_VERSION_MINOR, RVGHASH_VERSION_PATCH);
    expect(strcmp(RVGHASH_VERSION_STRING, VERSION) == 0, "the version's text is that of the file VERSION");
    expect(strcmp(parts, VERSION) == 0, "the version's three numbers are those of the file VERSION");
}

/* The limit itself is taken and one byte more is not; a key and the file's bytes for each VLEN are of the told length. */
static void constants(void)
{
    static uint8_t a[RVGHASH_LIMIT_BYTES + 1];
    static uint8_t file[RVGHASH_FILE_BYTES(512)];
    uint8_t one[RVGHASH_BLOCK_BYTES] = {0x80}, out[RVGHASH_BLOCK_BYTES];
    expect(rvghash_ghash(one, sizeof one, a, RVGHASH_LIMIT_BYTES, NULL, 0, out, sizeof out) == RVGHASH_DONE, "the limit");
    expect(rvghash_ghash(one, sizeof one, a, sizeof a, NULL, 0, out, sizeof out) == RVGHASH_TOO_LONG, "past the limit");
    expect(sizeof file == 2048, "VLEN 512 has a file of 2048 bytes");
    for (uint32_t vlen = 128; vlen <= 512; vlen *= 2)
        expect(rvghash_group_refusal(vlen, RVGHASH_FILE_BYTES(vlen), 1, 0) == RVGHASH_DONE, "the file's bytes for a VLEN");
}

/* vclmul.vx v1, v2, x3 on bytes, K1; then a refusal, which leaves vstart. */
static void vector(void)
{
    uint8_t file[512] = {0};
    uint32_t vstart = 0;
    size_t start, length;
    file[2 * 16] = 3;
    expect(rvghash_execute(0x3221E0D7, 128, 8, 1, 1, &vstart, 3, file, sizeof file) == RVGHASH_DONE, "vclmul.vx");
    expect(file[16] == 5, "K1");
    vstart = 9;
    expect(rvghash_execute(0x3221E0D7, 129, 8, 1, 1, &vstart, 3, file, sizeof file) == RVGHASH_BAD_VLEN_OR_FILE, "VLEN 129");
    expect(vstart == 9, "a refusal leaves vstart");
    expect(rvghash_group_refusal(128, 512, 2, 31) == RVGHASH_BAD_GROUP, "register 31 at LMUL 2");
    expect(rvghash_group_refusal(128, 512, 1, 31) == RVGHASH_DONE, "register 31 at LMUL 1");
    expect(rvghash_group(128, 512, 2, 30, &start, &length) == RVGHASH_DONE, "registers 30 and 31");
    expect(start == 480 && length == 32, "a group's start and length");
    expect(rvghash_group(128, 512, 2, 31, &start, &length) == RVGHASH_BAD_GROUP, "no group at register 31");
    expect(start == 0 && length == 0, "no group has no bytes");
}

/* v0 is a mask of element 2 alone; each byte of v1 is 0x11, and of v2 it is 3. */
static void fill_registers(uint8_t *file)
{
    memset(file, 0, RVGHASH_FILE_BYTES(128));
    file[0] = 4;
    memset(file + 16, 0x11, 16);
    memset(file + 2 * 16, 3, 16);
}

/* vclmul.vx v1, v2, x3, v0.t on bytes, with vl 6: the answer. */
static uint32_t masked(bool tail_agnostic, bool mask_agnostic, uint32_t sew, uint32_t *vstart, uint8_t *file)
{
    return rvghash_execute_policies(0x3021E0D7, 128, sew, 1, tail_agnostic, mask_agnostic, 6, vstart, 3, file,
                                    RVGHASH_FILE_BYTES(128));
}

/* From vstart 1 on, element 2 is K1, 1 and 3 to 5 are masked off, and the tail begins at 6. Then what writes nothing. */
static void policy(bool tail_agnostic, bool mask_agnostic)
{
    uint8_t file[RVGHASH_FILE_BYTES(128)], want[sizeof file], old[sizeof file];
    uint32_t vstart = 1;
    fill_registers(file);
    fill_registers(want);
    want[16 + 2] = 5;
    if (mask_agnostic)
        want[16 + 1] = want[16 + 3] = want[16 + 4] = want[16 + 5] = 0xFF;
    if (tail_agnostic)
        memset(want + 16 + 6, 0xFF, 10);
    expect(masked(tail_agnostic, mask_agnostic, 8, &vstart, file) == RVGHASH_DONE && vstart == 0, "a masked word");
    expect(memcmp(file, want, sizeof file) == 0, "what the policies fill with ones");
    if (!tail_agnostic && !mask_agnostic) {
        fill_registers(old);
        vstart = 1;
        expect(rvghash_execute(0x3021E0D7, 128, 8, 1, 6, &vstart, 3, old, sizeof old) == RVGHASH_DONE && vstart == 0 &&
                   memcmp(old, want, sizeof old) == 0, "rvghash_execute is rvghash_execute_policies with both off");
    }
    fill_registers(file);
    fill_registers(want);
    vstart = 6;
    expect(masked(tail_agnostic, mask_agnostic, 8, &vstart, file) == RVGHASH_DONE && vstart == 0, "vstart at vl");
    vstart = 1;
    expect(masked(tail_agnostic, mask_agnostic, 7, &vstart, file) == RVGHASH_BAD_SETTINGS && vstart == 1, "SEW 7");
    expect(memcmp(file, want, sizeof file) == 0, "vstart at vl and a refusal write nothing, whatever the policies");
    expect(rvghash_execute_policies(0x3021E0D7, 128, 8, 1, tail_agnostic, mask_agnostic, 6, &vstart, 3, NULL, 0) ==
               RVGHASH_BAD_VLEN_OR_FILE && vstart == 1, "no file");
}

/* The masked word under every two policies; then vghsh.vv v4, v8, v12 at LMUL 4 on its first group: the tail is v5 to v7. */
static void policies(void)
{
    uint8_t file[RVGHASH_FILE_BYTES(128)], ones[3 * 16];
    uint32_t vstart = 0;
    for (int p = 0; p <= (RVGHASH_TAIL_AGNOSTIC | RVGHASH_MASK_AGNOSTIC); p++)
        policy((p & RVGHASH_TAIL_AGNOSTIC) != 0, (p & RVGHASH_MASK_AGNOSTIC) != 0);
    memset(ones, 0xFF, sizeof ones);
    memset(file, 0, sizeof file);
    file[8 * 16] = 0x40;
    file[12 * 16] = 0x80;
    expect(rvghash_execute_policies(0xB2862277, 128, 32, 4, true, true, 4, &vstart, 0, file, sizeof file) == RVGHASH_DONE,
           "vghsh.vv");
    expect(is_block(file + 4 * 16, 0x40, 0) && memcmp(file + 5 * 16, ones, sizeof ones) == 0 && is_block(file + 8 * 16, 0x40, 0),
           "the tail of vghsh.vv ends with its group");
}

/* The word of these fields, which must decode to them again; 0 where there is none. */
static uint32_t written(uint32_t kind, uint32_t vm, uint32_t vs2, uint32_t vs1, uint32_t vd)
{
    uint32_t word = 7, k = 7, m = 7, s2 = 7, s1 = 7, d = 7;
    uint32_t number = rvghash_encode(kind, vm, vs2, vs1, vd, &word);
    uint32_t again = rvghash_decode(word, &k, &m, &s2, &s1, &d);
    expect(number == again && (number == RVGHASH_DONE || number == RVGHASH_NOT_A_WORD), "a writer's number");
    if (number == RVGHASH_DONE)
        expect(k == kind && m == vm && s2 == vs2 && s1 == vs1 && d == vd, "a word decodes to its kind and fields");
    else
        expect(word == 0 && k == 0 && m == 0 && s2 == 0 && s1 == 0 && d == 0, "a refusal's word and fields are 0");
    return word;
}

/* A word of each kind. vm and vs1 are those that the kind allows, then others. */
static void words(void)
{
    expect(written(RVGHASH_VCLMUL_VV, 1, 2, 3, 1) == 0x3221A0D7, "vclmul.vv v1, v2, v3");
    expect(written(RVGHASH_VCLMUL_VX, 1, 2, 3, 1) == 0x3221E0D7, "vclmul.vx v1, v2, x3");
    expect(written(RVGHASH_VCLMULH_VV, 0, 2, 3, 1) == 0x3421A0D7, "vclmulh.vv v1, v2, v3, v0.t");
    expect(written(RVGHASH_VCLMULH_VX, 0, 31, 31, 31) == 0x35FFEFD7, "vclmulh.vx v31, v31, x31, v0.t");
    expect(written(RVGHASH_VGHSH_VV, 1, 8, 12, 4) == 0xB2862277, "vghsh.vv v4, v8, v12");
    expect(written(RVGHASH_VGHSH_VS, 1, 8, 12, 4) == 0x8E862277, "vghsh.vs v4, v8, v12");
    expect(written(RVGHASH_VGMUL_VV, 1, 8, 17, 4) == 0xA288A277, "vgmul.vv v4, v8");
    expect(written(RVGHASH_VGMUL_VS, 1, 8, 17, 4) == 0xA688A277, "vgmul.vs v4, v8");
    expect(written(8, 1, 2, 17, 1) == 0, "a kind over 7");
    expect(written(RVGHASH_VCLMUL_VV, 2, 2, 3, 1) == 0, "a vm over 1");
    expect(written(RVGHASH_VCLMUL_VV, 1, 32, 3, 1) == 0, "a vs2 over 31");
    expect(written(RVGHASH_VCLMUL_VX, 1, 2, 32, 1) == 0, "an rs1 over 31");
    expect(written(RVGHASH_VCLMUL_VV, 1, 2, 3, 32) == 0, "a vd over 31");
    expect(written(RVGHASH_VGHSH_VV, 0, 8, 12, 4) == 0, "vm 0 in a GHASH word");
    expect(written(RVGHASH_VGMUL_VS, 1, 8, 16, 4) == 0, "a vgmul word whose vs1 is not 17");
}

/* The word's text is this one, every later byte of the buffer stays, and the text is read back to the word. */
static void text(uint32_t word, const char *want)
{
    uint8_t buffer[RVGHASH_TEXT_BYTES + 1], before[RVGHASH_TEXT_BYTES + 1];
    size_t length = 7, n = strlen(want);
    uint32_t back = 7;
    memset(before, '#', sizeof before);
    for (size_t size = RVGHASH_TEXT_BYTES; size <= sizeof buffer; size++) {
        memcpy(buffer, before, sizeof buffer);
        expect(rvghash_disassemble(word, buffer, size, &length) == RVGHASH_DONE && length == n, want);
        expect(memcmp(buffer, want, n) == 0 && memcmp(buffer + n, before, sizeof buffer - n) == 0, want);
    }
    memcpy(buffer, before, sizeof buffer);
    expect(rvghash_disassemble(word, buffer, RVGHASH_TEXT_BYTES - 1, &length) == RVGHASH_SHORT_TEXT, "a short buffer");
    expect(length == 0 && memcmp(buffer, before, sizeof buffer) == 0, "a short buffer stays, and its length is 0");
    expect(rvghash_assemble((const uint8_t *)want, n, &back) == RVGHASH_DONE && back == word, want);
    expect(rvghash_assemble((const uint8_t *)want, n + 1, &back) == RVGHASH_NOT_A_WORD && back == 0, "an ending byte");
}

static void texts(void)
{
    uint8_t buffer[RVGHASH_TEXT_BYTES] = {'#'};
    size_t length = 7;
    uint32_t word = 7;
    text(0xB2862277, "vghsh.vv v4, v8, v12");
    text(0x3221E0D7, "vclmul.vx v1, v2, x3");
    text(0xA688A277, "vgmul.vs v4, v8");
    text(0x35FFAFD7, "vclmulh.vv v31, v31, v31, v0.t");
    expect(rvghash_disassemble(0xB0862277, buffer, sizeof buffer, &length) == RVGHASH_NOT_A_WORD, "vghsh.vv with vm 0");
    expect(length == 0 && buffer[0] == '#', "no word has no text");
    expect(rvghash_disassemble(0xB0862277, NULL, 0, &length) == RVGHASH_NOT_A_WORD, "2 comes before 22");
    expect(rvghash_disassemble(0xB2862277, NULL, 0, &length) == RVGHASH_SHORT_TEXT && length == 0, "no buffer");
    expect(rvghash_assemble(NULL, 0, &word) == RVGHASH_NOT_A_WORD && word == 0, "no text");
}

/* Records a call: each byte of its word, vl, vstart and scalar is another one. */
static uint32_t put(uint32_t sew, uint32_t lmul, uint32_t policies, uint32_t answer, uint8_t *record, size_t record_len)
{
    return rvghash_put_record(0x3221E0D7, sew, lmul, (policies & RVGHASH_TAIL_AGNOSTIC) != 0,
                              (policies & RVGHASH_MASK_AGNOSTIC) != 0, answer, 0x44332211, 0x88776655, 0xF0E1D2C3B4A59687,
                              record, record_len);
}

/* The record's bytes, then what has no record, which leaves the bytes and the one after them. */
static void record(void)
{
    uint8_t want[] = {0xD7, 0xE0, 0x21, 0x32, 253, 254, 255, 0, 0x11, 0x22, 0x33, 0x44, 0x55, 0x66, 0x77, 0x88,
                      0x87, 0x96, 0xA5, 0xB4, 0xC3, 0xD2, 0xE1, 0xF0, '#'};
    const size_t length = RVGHASH_RECORD_BYTES;
    uint8_t bytes[RVGHASH_RECORD_BYTES + 1];
    memset(bytes, '#', sizeof bytes);
    expect(length == 24 && sizeof want == length + 1, "a record is 24 bytes");
    expect(RVGHASH_BAD_TRACE == 14 && RVGHASH_DIFFERS == 256, "the numbers of a trace");
    expect(RVGHASH_TAIL_AGNOSTIC == 1 && RVGHASH_MASK_AGNOSTIC == 2, "the policies in a record");
    for (uint8_t p = 0; p <= 3; p++) {
        want[7] = p;
        expect(put(253, 254, p, 255, bytes, length) == RVGHASH_DONE, "a record");
        expect(memcmp(bytes, want, sizeof want) == 0, "the record's bytes");
    }
    expect(put(256, 2, 0, 3, bytes, length) == RVGHASH_BAD_TRACE, "SEW over 255");
    expect(put(1, 256, 0, 3, bytes, length) == RVGHASH_BAD_TRACE, "LMUL over 255");
    expect(put(1, 2, 0, 256, bytes, length) == RVGHASH_BAD_TRACE, "an answer over 255");
    expect(put(1, 2, 0, 3, bytes, length - 1) == RVGHASH_BAD_TRACE, "a short record");
    expect(put(1, 2, 0, 3, bytes, length + 1) == RVGHASH_BAD_TRACE, "a long record");
    expect(put(1, 2, 0, 3, NULL, 0) == RVGHASH_BAD_TRACE, "no record");
    expect(memcmp(bytes, want, sizeof want) == 0, "a refusal leaves the record");
}

/* Executes a word on bytes of VLEN 128, and records it. */
static uint32_t executed(uint32_t word, uint32_t vl, uint32_t vstart, uint64_t scalar, uint8_t *file, uint8_t *record)
{
    uint32_t after = vstart;
    uint32_t answer = rvghash_execute(word, 128, 8, 1, vl, &after, scalar, file, RVGHASH_FILE_BYTES(128));
    expect(rvghash_put_record(word, 8, 1, false, false, answer, vl, vstart, scalar, record, RVGHASH_RECORD_BYTES) ==
               RVGHASH_DONE, "a call's record");
    return answer;
}

/* Replays on a copy of the file: the number and the index must be these, and the file then `want`. */
static void replayed(uint32_t vlen, const uint8_t *file, const uint8_t *trace, size_t trace_len, uint32_t number, size_t at,
                     const uint8_t *want, const char *what)
{
    uint8_t copy[RVGHASH_FILE_BYTES(128)];
    size_t index = 7;
    memcpy(copy, file, sizeof copy);
    expect(rvghash_replay(vlen, copy, sizeof copy, trace, trace_len, &index) == number, what);
    expect(index == at && memcmp(copy, want, sizeof copy) == 0, what);
}

/*
 * vclmul.vx v1, v2, x3, K1, and vclmul.vv v3, v1, v1 from element 1 on, recorded and replayed; then other answers, which
 * end the replay before their record; then what is no trace.
 */
static void replay(void)
{
    uint8_t before[RVGHASH_FILE_BYTES(128)] = {0}, between[sizeof before], after[sizeof before];
    uint8_t trace[2 * RVGHASH_RECORD_BYTES];
    memset(before + 2 * 16, 3, 2);
    memcpy(between, before, sizeof before);
    expect(executed(0x3221E0D7, 2, 0, 3, between, trace) == RVGHASH_DONE && between[16 + 1] == 5, "K1, recorded");
    memcpy(after, between, sizeof before);
    expect(executed(0x3210A1D7, 2, 1, 0, after, trace + RVGHASH_RECORD_BYTES) == RVGHASH_DONE, "vclmul.vv, recorded");
    expect(after[3 * 16] == 0 && after[3 * 16 + 1] == 17, "5 by 5, from vstart on");
    replayed(128, before, trace, sizeof trace, RVGHASH_DONE, 2, after, "a replay");
    replayed(128, before, NULL, 0, RVGHASH_DONE, 0, before, "an empty trace");
    replayed(129, before, trace, sizeof trace, RVGHASH_DIFFERS, 0, before, "a replay at VLEN 129");
    replayed(128, before, trace, sizeof trace - 1, RVGHASH_BAD_TRACE, 0, before, "a trace with half a record");
    trace[RVGHASH_RECORD_BYTES + 6] = RVGHASH_BAD_GROUP;
    replayed(128, before, trace, sizeof trace, RVGHASH_DIFFERS, 1, between, "another answer in record 1");
    trace[6] = trace[RVGHASH_RECORD_BYTES + 6] = RVGHASH_BAD_VLEN_OR_FILE;
    replayed(129, before, trace, sizeof trace, RVGHASH_DONE, 2, before, "answers of 1 at VLEN 129");
    trace[RVGHASH_RECORD_BYTES + 7] = 4;
    replayed(128, before, trace, sizeof trace, RVGHASH_BAD_TRACE, 0, before, "a policy byte of 4, in record 1");
    trace[RVGHASH_RECORD_BYTES + 7] = 255;
    replayed(128, before, trace, sizeof trace, RVGHASH_BAD_TRACE, 0, before, "a policy byte of 255, in record 1");
}

/* A masked word under each policy byte: a replay leaves what the call leaves. */
static void replay_policies(void)
{
    uint8_t before[RVGHASH_FILE_BYTES(128)], after[sizeof before], record[RVGHASH_RECORD_BYTES];
    for (int p = 0; p <= 3; p++) {
        bool tail = (p & RVGHASH_TAIL_AGNOSTIC) != 0, mask = (p & RVGHASH_MASK_AGNOSTIC) != 0;
        uint32_t vstart = 1;
        fill_registers(before);
        fill_registers(after);
        expect(masked(tail, mask, 8, &vstart, after) == RVGHASH_DONE, "a masked word, to be recorded");
        expect(rvghash_put_record(0x3021E0D7, 8, 1, tail, mask, RVGHASH_DONE, 6, 1, 3, record, sizeof record) == RVGHASH_DONE &&
                   record[7] == p, "a policy byte");
        replayed(128, before, record, sizeof record, RVGHASH_DONE, 1, after, "a replay under policies");
    }
}

int main(void)
{
    version();
    layout();
    constants();
    fields();
    running();
    park();
    unpark();
    sides();
    parked_between();
    links();
    links_refused();
    links_under_zero();
    vector();
    policies();
    words();
    texts();
    record();
    replay();
    replay_policies();
    if (!failed)
        printf("header: the version, the layout, the constants and a call under every name hold\n");
    return failed;
}
