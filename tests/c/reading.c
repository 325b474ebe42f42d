/* Links the static library and calls each function of sffs1.h. Prints "ok", or the lines that differ. */

#include "expect.h"
#include "sffs1.h"

#include <string.h>

enum { UNITS = 20, LENGTH = 16 * UNITS };

static uint8_t card[LENGTH];
static void number(size_t at, int bytes, uint64_t value) {
    for (int i = 0; i < bytes; i++) card[at + i] = (uint8_t)(value >> (8 * (bytes - 1 - i)));
}

/* A block's header: magic and size. */
static void block(size_t ref, const char *magic, uint32_t size) {
    memcpy(card + 16 * ref, magic, 4);
    number(16 * ref + 4, 4, size);
}

/* A ref, or another number of 64 bits, in the data of the block at ref. */
static void data(size_t ref, size_t pos, uint64_t value) {
    number(16 * ref + 8 + pos, 8, value);
}

/* The root with the file /heel, 40 bytes in room 48, and the directory /a with 2 empty slots. */
static void build(void) {
    block(0, "SF01", 16);
    data(0, 0, 2);
    data(0, 8, 15);
    block(2, "SFde", 40);
    data(2, 0, 2);
    data(2, 8, 10);
    data(2, 16, 5);
    data(2, 24, 14);
    data(2, 32, 11);
    block(5, "SFre", 64);
    data(5, 0, 40);
    for (int i = 0; i < 40; i++) card[16 * 5 + 24 + i] = (uint8_t)(i + 1);
    memset(card + 16 * 5 + 64, 0xee, 8);
    block(10, "SFna", 4);
    memcpy(card + 16 * 10 + 8, "heel", 4);
    block(11, "SFde", 40);
    data(11, 0, 2);
    block(14, "SFna", 1);
    card[16 * 14 + 8] = 'a';
    block(15, "SFfr", 72);
}

static uint8_t find(const char *path, uint64_t *ref, uint8_t *directory, uint64_t *first, uint64_t *second) {
    *ref = *first = *second = 99;
    *directory = 99;
    return sffs1_find(card, LENGTH, (const uint8_t *)path, strlen(path), ref, directory, first, second, &place);
}

static void expect_find(const char *path, uint8_t refusal, uint64_t ref, uint8_t directory, uint64_t first, uint64_t second) {
    uint64_t r, a, b;
    uint8_t d;
    expect_answer(path, find(path, &r, &d, &a, &b), refusal);
    expect(path, r, ref);
    expect(path, d, directory);
    expect(path, a, first);
    expect(path, b, second);
}

/* Reads 8 bytes: the count, the bytes from first on, and 0xaa after them. */
static void expect_read(const char *path, uint64_t position, uint8_t refusal, uint64_t count, uint8_t first) {
    uint8_t buffer[8];
    uint64_t n = 99;
    memset(buffer, 0xaa, 8);
    expect_answer(path, sffs1_read(card, LENGTH, (const uint8_t *)path, strlen(path), position, buffer, 8, &n, &place),
                  refusal);
    expect(path, n, count);
    for (uint64_t i = 0; i < 8; i++) expect(path, buffer[i], i < count ? first + i : 0xaa);
}

/* A point: 16 bytes from first on, or zeros. */
static void expect_point(const char *path, uint64_t n, uint8_t refusal, uint8_t first) {
    uint8_t point[16];
    memset(point, 0xaa, 16);
    expect_answer(path, sffs1_read_point(card, LENGTH, (const uint8_t *)path, strlen(path), n, point, &place), refusal);
    for (int i = 0; i < 16; i++) expect(path, point[i], refusal ? 0 : first + i);
}

/* The marks of the card's units. */
static const uint8_t card_marks[UNITS] = {1, 0, 2, 0, 0, 4, 0, 0, 0, 0, 3, 2, 0, 0, 3, 6};
static const uint8_t no_marks[UNITS];

/* The check of so many bytes with so many marks, 0xaa before. `marks` are those that the units of the image get, or
   null where all stay; those past them stay. */
static void expect_marked(const char *what, size_t length, size_t lent, uint8_t refusal, const uint8_t *marks) {
    uint8_t found[UNITS + 8];
    memset(found, 0xaa, sizeof found);
    expect_answer(what, sffs1_check_marked(card, length, found, lent, &place), refusal);
    for (size_t i = 0; i < sizeof found; i++) expect(what, found[i], marks && i < length / 16 ? marks[i] : 0xaa);
}

/* Too few marks, whatever else is wrong with the card. */
static void expect_few_marks(void) {
    wanted_place = 0;
    expect_marked("no marks", LENGTH, 0, SFFS1_TOO_FEW_MARKS, NULL);
    expect_marked("a mark too few", LENGTH, UNITS - 1, SFFS1_TOO_FEW_MARKS, NULL);
    expect_marked("3 marks for 65 bytes", 65, 3, SFFS1_TOO_FEW_MARKS, NULL);
    expect_marked("2 marks for 48 bytes", 48, 2, SFFS1_TOO_FEW_MARKS, NULL);
}

/* Enough marks for a sound card, for a part of it, and for lengths that are not allowed. */
static void expect_marks(void) {
    expect_few_marks();
    expect_marked("just enough marks", LENGTH, UNITS, SFFS1_DONE, card_marks);
    expect_marked("more marks", LENGTH, UNITS + 8, SFFS1_DONE, card_marks);
    expect_marked("4 marks for 65 bytes", 65, 4, SFFS1_BROKEN_BLOCKS, no_marks);
    expect_marked("5 marks for 65 bytes", 65, 5, SFFS1_BROKEN_BLOCKS, no_marks);
    expect_marked("3 marks for 48 bytes", 48, 3, SFFS1_BROKEN_BLOCKS, no_marks);
    expect_marked("no marks for 15 bytes", 15, 0, SFFS1_BROKEN_BLOCKS, no_marks);
    expect_marked("no marks for 0 bytes", 0, 0, SFFS1_BROKEN_BLOCKS, no_marks);
    wanted_place = 15;
    expect_marked("a card cut short", LENGTH - 16, UNITS - 1, SFFS1_BROKEN_BLOCKS, no_marks);
    wanted_place = 0;
}

/* Every call is refused with this number and place, whatever else is wrong with it. */
static void expect_damaged(uint8_t refusal, uint64_t at) {
    expect_few_marks();
    wanted_place = at;
    expect_marked("just enough marks for a damaged card", LENGTH, UNITS, refusal, no_marks);
    expect_marked("more marks for a damaged card", LENGTH, UNITS + 8, refusal, no_marks);
    expect_answer("check of a damaged card", sffs1_check(card, LENGTH, &place), refusal);
    expect_find("/heel", refusal, 0, 0, 0, 0);
    expect_find("/a/", refusal, 0, 0, 0, 0);
    expect_read("//", 0, refusal, 0, 0);
    expect_point("/heel", 0, refusal, 0);
    wanted_place = 0;
}

/* Damage upon damage, each breaking a lower rule. */
static void expect_damages(void) {
    data(15, 0, 1); /* the chain's last ref is not 0 */
    expect_damaged(SFFS1_BROKEN_FREE_CHAIN, 0);
    data(5, 0, 49); /* /heel is longer than its room */
    expect_damaged(SFFS1_BROKEN_FILES, 5);
    card[16 * 14 + 8] = '/'; /* a name with a slash */
    expect_damaged(SFFS1_BROKEN_NAMES, 14);
    data(11, 0, 11); /* /a is its own parent */
    expect_damaged(SFFS1_BROKEN_LINKS, 11);
    data(11, 8, 14); /* half a slot of /a */
    expect_damaged(SFFS1_BROKEN_SLOTS, 11);
    data(0, 0, 0); /* no root */
    expect_damaged(SFFS1_BROKEN_ROOT, 0);
    block(10, "SFxx", 4); /* a block of no kind */
    expect_damaged(SFFS1_BROKEN_BLOCKS, 10);
}

int main(void) {
    build();
    expect_answer("check", sffs1_check(card, LENGTH, &place), SFFS1_DONE);
    expect_answer("check of 0 bytes", sffs1_check(card, 0, &place), SFFS1_BROKEN_BLOCKS);
    expect_marks();
    expect_find("/", SFFS1_DONE, 2, 1, 2, 2);
    expect_find("/heel", SFFS1_DONE, 5, 0, 40, 48);
    expect_find("/a", SFFS1_DONE, 11, 1, 0, 2);
    expect_find("/b", SFFS1_NOT_FOUND, 0, 0, 0, 0);
    expect_find("/heel/a", SFFS1_NOT_A_DIRECTORY, 0, 0, 0, 0);
    expect_find("/a/", SFFS1_BAD_PATH, 0, 0, 0, 0);
    expect_find("/\xc0\xaf", SFFS1_BAD_PATH, 0, 0, 0, 0);
    expect_find("/\xc2\x80", SFFS1_NOT_FOUND, 0, 0, 0, 0);
    expect_find("/a/\xed\xa0\x80", SFFS1_BAD_PATH, 0, 0, 0, 0);
    expect_find("/a/\xed\x9f\xbf", SFFS1_NOT_FOUND, 0, 0, 0, 0);
    expect_read("/heel", 0, SFFS1_DONE, 8, 1);
    expect_read("/heel", 37, SFFS1_DONE, 3, 38);
    expect_read("/heel", 40, SFFS1_DONE, 0, 0);
    expect_read("/heel", UINT64_MAX, SFFS1_DONE, 0, 0);
    expect_read("/a", 0, SFFS1_IS_A_DIRECTORY, 0, 0);
    expect_point("/heel", 1, SFFS1_DONE, 1);
    expect_point("/heel", 2, SFFS1_DONE, 17);
    expect_point("/heel", 3, SFFS1_PAST_END, 0);
    expect_point("/heel", 0, SFFS1_OUT_OF_BOUNDS, 0);
    expect_point("/heel", 4097, SFFS1_OUT_OF_BOUNDS, 0);
    expect_point("/", 1, SFFS1_IS_A_DIRECTORY, 0);
    expect_damages();
    if (failures == 0) puts("ok");
    return failures != 0;
}
