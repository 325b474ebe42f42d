/* Links the static library and calls each changing function of sffs1.h, on document 01's card of 256 bytes. Prints
   "ok", or the lines that differ. */

#include "expect.h"
#include "sffs1.h"

#include <string.h>

enum { LENGTH = 256 };

static uint8_t card[LENGTH];
/* The 8 bytes at an offset, as a number. */
static uint64_t word(size_t at) {
    uint64_t n = 0;
    for (int i = 0; i < 8; i++) n = n << 8 | card[at + i];
    return n;
}

static void expect_file(const char *path, uint64_t room, uint8_t refusal, uint64_t ref) {
    uint64_t r = 99;
    expect_answer(path, sffs1_make_file(card, LENGTH, (const uint8_t *)path, strlen(path), room, &r, &place), refusal);
    expect(path, r, ref);
}

static void expect_directory(const char *path, uint64_t slots, uint8_t refusal, uint64_t ref) {
    uint64_t r = 99;
    expect_answer(path, sffs1_make_directory(card, LENGTH, (const uint8_t *)path, strlen(path), slots, &r, &place),
                  refusal);
    expect(path, r, ref);
}

static uint8_t write_at(const char *path, uint64_t position, const char *bytes) {
    return sffs1_write(card, LENGTH, (const uint8_t *)path, strlen(path), position, (const uint8_t *)bytes, strlen(bytes),
                       &place);
}

static uint8_t set_length(const char *path, uint64_t length) {
    return sffs1_set_length(card, LENGTH, (const uint8_t *)path, strlen(path), length, &place);
}

static uint8_t remove_at(const char *path) {
    return sffs1_remove(card, LENGTH, (const uint8_t *)path, strlen(path), &place);
}

/* Reads the whole of a file of at most 32 bytes. */
static void expect_bytes(const char *path, const char *bytes, uint64_t wanted) {
    uint8_t buffer[32];
    uint64_t n = 99;
    expect_answer(path, sffs1_read(card, LENGTH, (const uint8_t *)path, strlen(path), 0, buffer, 32, &n, &place),
                  SFFS1_DONE);
    expect(path, n, wanted);
    expect(path, n == wanted && memcmp(buffer, bytes, wanted) == 0, 1);
}

/* Two lines too few, then enough: the root, /b and /a. */
static void expect_listing(void) {
    static const uint64_t wanted[21] = {2, 2, 0, 0, 1, 2, 2, 5, 2, 13, 1, 0, 0, 41, 10, 2, 12, 1, 1, 0, 1};
    uint64_t numbers[24], count = 99;
    memset(numbers, 0xee, sizeof numbers);
    expect_answer("list with one line", sffs1_list(card, LENGTH, numbers, 13, &count, &place), SFFS1_TOO_FEW_LINES);
    expect("lines needed", count, 3);
    expect_answer("list", sffs1_list(card, LENGTH, numbers, 24, &count, &place), SFFS1_DONE);
    expect("lines", count, 3);
    for (int i = 0; i < 24; i++) expect("a number", numbers[i], i < 21 ? wanted[i] : 0xeeeeeeeeeeeeeeeeULL);
}

/* The marks of the card's units, and one past them that stays; a mark too few is refused. */
static void expect_marks(void) {
    static const uint8_t wanted[17] = {1, 0, 2, 0, 0, 4, 0, 0, 0, 0, 2, 0, 3, 3, 6, 0, 0xaa};
    uint8_t marks[17];
    memset(marks, 0xaa, 17);
    expect_answer("check with 15 marks", sffs1_check_marked(card, LENGTH, marks, 15, &place), SFFS1_TOO_FEW_MARKS);
    for (int i = 0; i < 17; i++) expect("an unchanged mark", marks[i], 0xaa);
    expect_answer("check with marks", sffs1_check_marked(card, LENGTH, marks, 17, &place), SFFS1_DONE);
    for (int i = 0; i < 17; i++) expect("a mark", marks[i], wanted[i]);
}

/* Writes and lengths within the room of 32, and past it. */
static void expect_writes(void) {
    expect_answer("write at 28", write_at("/heel", 28, "last"), SFFS1_DONE);
    expect_bytes("/heel", "\0\0\0\0\0\0\0\0\0\0\0\0\0\0\0\0\0\0\0\0\0\0\0\0\0\0\0\0last", 32);
    expect_answer("write at 29", write_at("/heel", 29, "last"), SFFS1_PAST_ROOM);
    expect_answer("write near 2^64", write_at("/heel", UINT64_MAX, "last"), SFFS1_PAST_ROOM);
    expect_answer("write to a directory", write_at("/a", 0, "last"), SFFS1_IS_A_DIRECTORY);
    expect_answer("set length", set_length("/heel", 30), SFFS1_DONE);
    expect_answer("set length again", set_length("/heel", 32), SFFS1_DONE);
    expect_bytes("/heel", "\0\0\0\0\0\0\0\0\0\0\0\0\0\0\0\0\0\0\0\0\0\0\0\0\0\0\0\0la\0\0", 32);
    expect_answer("set length past the room", set_length("/heel", 33), SFFS1_PAST_ROOM);
}

/* Every call is refused with this number and place, whatever else is wrong with it, and changes nothing. */
static void expect_damaged(uint8_t refusal, uint64_t at) {
    uint8_t before[LENGTH];
    uint64_t number = 77, count = 99;
    memcpy(before, card, LENGTH);
    wanted_place = at;
    expect_directory("/", 0, refusal, 0);
    expect_file("//", 0, refusal, 0);
    expect_answer("write to a damaged card", write_at("/b", 0, "last"), refusal);
    expect_answer("set length on a damaged card", set_length("/b", 99), refusal);
    expect_answer("remove on a damaged card", remove_at("/"), refusal);
    expect_answer("list of a damaged card", sffs1_list(card, LENGTH, &number, 1, &count, &place), refusal);
    expect("count", count, 0);
    expect("lent number", number, 77);
    expect("card unchanged", memcmp(before, card, LENGTH) == 0, 1);
    wanted_place = 0;
}

int main(void) {
    memset(card, 0xee, LENGTH);
    expect("format of 65 bytes", sffs1_format(card, 65, 2), SFFS1_BAD_LENGTH);
    expect("format with no slots", sffs1_format(card, LENGTH, 0), SFFS1_OUT_OF_BOUNDS);
    expect("format with 14 slots", sffs1_format(card, LENGTH, 14), SFFS1_NO_ROOM);
    expect("still no card", card[0], 0xee);
    expect("format", sffs1_format(card, LENGTH, 2), SFFS1_DONE);
    expect("first free", word(16), 5);
    expect_file("/heel", 32, SFFS1_DONE, 5);
    expect_file("/heel", 32, SFFS1_EXISTS, 0);
    expect_directory("/a", 1, SFFS1_DONE, 10);
    expect_directory("/b", 1, SFFS1_NO_SLOT, 0);
    expect_writes();
    expect_answer("remove the root", remove_at("/"), SFFS1_IS_ROOT);
    expect_answer("remove", remove_at("/heel"), SFFS1_DONE);
    expect_answer("remove again", remove_at("/heel"), SFFS1_NOT_FOUND);
    expect("first free", word(16), 5);
    expect("next free", word(88), 13);
    expect_file("/b", 57, SFFS1_NO_ROOM, 0);
    expect_file("/b", 41, SFFS1_DONE, 5);
    expect("name ref", word(48), 13);
    expect_answer("check", sffs1_check(card, LENGTH, &place), SFFS1_DONE);
    expect_marks();
    expect_listing();
    card[23] = 0; /* the free block is in no chain */
    expect_damaged(SFFS1_BROKEN_FREE_CHAIN, 0);
    card[16 * 10 + 31] = 5; /* half a slot of /a */
    expect_damaged(SFFS1_BROKEN_SLOTS, 10);
    if (failures == 0) puts("ok");
    return failures != 0;
}
