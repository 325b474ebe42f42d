/* What is lent with length 0 is not touched: null pointers there, in every call that takes them. And the limits of
   sffs1.h at work. Prints "ok", or the lines that differ. */

#include "expect.h"
#include "sffs1.h"

#include <string.h>

enum { LENGTH = 256 };

static uint8_t card[LENGTH];
static const uint8_t file[] = {'/', 'f'};

/* No image at all. */
static void expect_no_image(void) {
    uint64_t ref = 99, count = 99;
    expect("format", sffs1_format(NULL, 0, 1), SFFS1_BAD_LENGTH);
    expect_answer("check", sffs1_check(NULL, 0, &place), SFFS1_BROKEN_BLOCKS);
    expect_answer("check with marks", sffs1_check_marked(NULL, 0, NULL, 0, &place), SFFS1_BROKEN_BLOCKS);
    expect_answer("read", sffs1_read(NULL, 0, NULL, 0, 0, NULL, 0, &count, &place), SFFS1_BROKEN_BLOCKS);
    expect_answer("list", sffs1_list(NULL, 0, NULL, 0, &count, &place), SFFS1_BROKEN_BLOCKS);
    expect_answer("make", sffs1_make_file(NULL, 0, NULL, 0, 0, &ref, &place), SFFS1_BROKEN_BLOCKS);
    expect_answer("write", sffs1_write(NULL, 0, NULL, 0, 0, NULL, 0, &place), SFFS1_BROKEN_BLOCKS);
    expect_answer("remove", sffs1_remove(NULL, 0, NULL, 0, &place), SFFS1_BROKEN_BLOCKS);
}

/* No path. */
static void expect_no_path(void) {
    uint64_t ref = 99, count = 99, first = 99, second = 99;
    uint8_t directory = 99, point[SFFS1_POINT_BYTES];
    expect_answer("find", sffs1_find(card, LENGTH, NULL, 0, &ref, &directory, &first, &second, &place), SFFS1_BAD_PATH);
    expect_answer("read", sffs1_read(card, LENGTH, NULL, 0, 0, NULL, 0, &count, &place), SFFS1_BAD_PATH);
    expect_answer("point", sffs1_read_point(card, LENGTH, NULL, 0, 1, point, &place), SFFS1_BAD_PATH);
    expect_answer("make", sffs1_make_file(card, LENGTH, NULL, 0, 0, &ref, &place), SFFS1_BAD_PATH);
    expect_answer("make directory", sffs1_make_directory(card, LENGTH, NULL, 0, 1, &ref, &place), SFFS1_BAD_PATH);
    expect_answer("write", sffs1_write(card, LENGTH, NULL, 0, 0, NULL, 0, &place), SFFS1_BAD_PATH);
    expect_answer("set length", sffs1_set_length(card, LENGTH, NULL, 0, 0, &place), SFFS1_BAD_PATH);
    expect_answer("remove", sffs1_remove(card, LENGTH, NULL, 0, &place), SFFS1_BAD_PATH);
}

/* No buffer, bytes, lines or marks. */
static void expect_nothing_lent(void) {
    uint64_t count = 99;
    expect_answer("read", sffs1_read(card, LENGTH, file, 2, 0, NULL, 0, &count, &place), SFFS1_DONE);
    expect("count", count, 0);
    expect_answer("write", sffs1_write(card, LENGTH, file, 2, 16, NULL, 0, &place), SFFS1_DONE);
    expect_answer("write past the room", sffs1_write(card, LENGTH, file, 2, 17, NULL, 0, &place), SFFS1_PAST_ROOM);
    expect_answer("list", sffs1_list(card, LENGTH, NULL, 0, &count, &place), SFFS1_TOO_FEW_LINES);
    expect("lines needed", count, 2);
    expect_answer("marks", sffs1_check_marked(card, LENGTH, NULL, 0, &place), SFFS1_TOO_FEW_MARKS);
}

/* The longest path; and one byte more, or a zero behind it, is none. */
static void expect_limits(void) {
    uint8_t path[SFFS1_LONGEST_PATH + 1], directory;
    uint64_t ref, first, second;
    memset(path, 'n', sizeof path);
    for (int i = 0; i < SFFS1_MOST_COMPONENTS; i++) path[i * (SFFS1_LONGEST_NAME + 1)] = '/';
    expect_answer("longest path", sffs1_find(card, LENGTH, path, SFFS1_LONGEST_PATH, &ref, &directory, &first, &second,
                                             &place), SFFS1_NOT_FOUND);
    expect_answer("longer path", sffs1_find(card, LENGTH, path, SFFS1_LONGEST_PATH + 1, &ref, &directory, &first, &second,
                                            &place), SFFS1_BAD_PATH);
    expect_answer("a zero behind a path", sffs1_find(card, LENGTH, (const uint8_t *)"/f", 3, &ref, &directory, &first,
                                                     &second, &place), SFFS1_BAD_PATH);
    expect("shortest image", sffs1_format(card, SFFS1_SHORTEST_IMAGE, 1), SFFS1_DONE);
    expect("shorter image", sffs1_format(card, SFFS1_SHORTEST_IMAGE - SFFS1_UNIT, 1), SFFS1_BAD_LENGTH);
}

int main(void) {
    uint64_t ref;
    expect_no_image();
    expect("format", sffs1_format(card, LENGTH, 2), SFFS1_DONE);
    expect_answer("make", sffs1_make_file(card, LENGTH, file, 2, 16, &ref, &place), SFFS1_DONE);
    expect_no_path();
    expect_nothing_lent();
    expect_limits();
    if (failures == 0) puts("ok");
    return failures != 0;
}
