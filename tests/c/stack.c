/* How much stack each call takes: a table, in bytes, by the length of the image. The return address is counted, and
   what is passed on the stack too, with a compiler that pushes it for each call, as gcc does. Each call runs on a
   stack of its own that was painted before; the lowest byte that lost its paint tells how deep it came. Fails where a
   call takes more than include/sffs1.h says. tests/run builds this test without and with optimisation, since the frame
   from which the calls are made depends on it. */

#define _XOPEN_SOURCE 600

#include "sffs1.h"

#include <stdio.h>
#include <string.h>
#include <ucontext.h>

enum { STACK = 1 << 18, PAINT = 0xa7, LENGTHS = 4, CALLS = 12, DEEPEST = SFFS1_MOST_COMPONENTS };

static const size_t lengths[LENGTHS] = {256, 1024, 65536, SFFS1_LONGEST_IMAGE};
static uint8_t image[SFFS1_LONGEST_IMAGE], trial[SFFS1_LONGEST_IMAGE], marks[SFFS1_MARKS(SFFS1_LONGEST_IMAGE)];
static uint64_t numbers[SFFS1_NUMBERS(SFFS1_LONGEST_IMAGE)];
static uint8_t stack[STACK], path[SFFS1_LONGEST_PATH], bytes[64];
static size_t length, path_len;
static ucontext_t home, away;

/* The call to be made, -1 for none. */
static int call;

/* Where the stack of a call begins: where the stack pointer stands as enter makes it. */
static const uint8_t *top;

/* What a call answered: it is kept, so that enter makes each call in its own frame. */
static volatile int answer;

/* In place of a call: tells where its stack begins, which is behind its return address and a saved frame. */
static int none(void) {
    top = (const uint8_t *)__builtin_frame_address(0) + 2 * sizeof(void *);
    return 0;
}

static int (*volatile no_call)(void) = none;

static void enter(void) {
    uint64_t place, ref, count, first, second;
    uint8_t directory;
    switch (call) {
    case 0: answer = sffs1_check(trial, length, &place); break;
    case 1: answer = sffs1_check_marked(trial, length, marks, sizeof marks, &place); break;
    case 2: answer = sffs1_find(trial, length, path, path_len, &ref, &directory, &first, &second, &place); break;
    case 3: answer = sffs1_read(trial, length, path, path_len, 0, bytes, sizeof bytes, &count, &place); break;
    case 4: answer = sffs1_read_point(trial, length, path, path_len, 1, bytes, &place); break;
    case 5: answer = sffs1_list(trial, length, numbers, SFFS1_NUMBERS(length), &count, &place); break;
    case 6: answer = sffs1_format(trial, length, 1); break;
    case 7: answer = sffs1_make_directory(trial, length, path, path_len, 1, &ref, &place); break;
    case 8: answer = sffs1_make_file(trial, length, path, path_len, 0, &ref, &place); break;
    case 9: answer = sffs1_write(trial, length, path, path_len, 0, bytes, 1, &place); break;
    case 10: answer = sffs1_set_length(trial, length, path, path_len, 1, &place); break;
    case 11: answer = sffs1_remove(trial, length, path, path_len, &place); break;
    default: answer = no_call();
    }
}

/* Runs enter on the painted stack, for this call on a copy of the image; tells the lowest byte that lost its paint. */
static const uint8_t *lowest(int which) {
    size_t clean = 0;
    memcpy(trial, image, length);
    memset(stack, PAINT, STACK);
    call = which;
    getcontext(&away);
    away.uc_stack.ss_sp = stack;
    away.uc_stack.ss_size = STACK;
    away.uc_link = &home;
    makecontext(&away, enter, 0);
    swapcontext(&home, &away);
    while (clean < STACK && stack[clean] == PAINT) clean++;
    return stack + clean;
}

/* A path of so many components, all of this letter. */
static void set_path(int components, char letter) {
    path_len = 0;
    for (int i = 0; i < components; i++) {
        path[path_len++] = '/';
        path[path_len++] = (uint8_t)letter;
    }
}

/* Directories in each other, as deep as the length allows, and at the end a file of room 16; the path is the file's. */
static void build_deep(void) {
    uint64_t ref, place, levels = length / (3 * SFFS1_UNIT) - 3;
    int level = 1;
    sffs1_format(image, length, 1);
    for (; level < DEEPEST && level <= (int)levels; level++) {
        set_path(level, 'd');
        sffs1_make_directory(image, length, path, path_len, 1, &ref, &place);
    }
    set_path(level, 'd');
    sffs1_make_file(image, length, path, path_len, 16, &ref, &place);
}

/* Whether the image is well formed, and the path names a file on it. */
static int built(void) {
    uint64_t place;
    return sffs1_set_length(image, length, path, path_len, 16, &place) == SFFS1_DONE;
}

/* A root with as many slots as the length allows beside a file, and files in some of them; the path is the first's. */
static void build_wide(void) {
    uint64_t ref, place, slots = length / SFFS1_UNIT - 7;
    sffs1_format(image, length, slots < SFFS1_MOST_SLOTS ? slots : SFFS1_MOST_SLOTS);
    for (char letter = 'a'; letter <= 'z'; letter++) {
        set_path(1, letter);
        sffs1_make_file(image, length, path, path_len, 16, &ref, &place);
    }
    set_path(1, 'a');
}

/* A root with some slots, and two files whose names a check tells apart by their last bytes alone: their 16 bits are
   equal, their lengths, and the bytes in front. The path is the second's. */
static void build_alike(void) {
    static const char *const alike[] = {"/samebkz", "/sameaaa"};
    uint64_t ref, place, slots = length / SFFS1_UNIT - 11;
    sffs1_format(image, length, slots < SFFS1_MOST_SLOTS ? slots : SFFS1_MOST_SLOTS);
    for (int i = 0; i < 2; i++) {
        path_len = strlen(alike[i]);
        memcpy(path, alike[i], path_len);
        sffs1_make_file(image, length, path, path_len, 16, &ref, &place);
    }
}

static size_t most(size_t a, size_t b) { return a < b ? b : a; }

/* The most that this call takes on the image, on its path and on one that is not there; as it is, and with a broken
   free chain, a broken slot and a broken root. */
static size_t worst(int which) {
    static const size_t damaged[] = {0, 23, 55, 15};
    size_t deepest = 0;
    for (int damage = 0; damage < 4; damage++) {
        size_t at = damaged[damage];
        for (uint8_t last = path[path_len - 1], end = 0; end < 2; end++) {
            path[path_len - 1] = end ? '~' : last;
            image[at] ^= damage ? 0x80 : 0;
            deepest = most(deepest, (size_t)(top - lowest(which)));
            image[at] ^= damage ? 0x80 : 0;
            path[path_len - 1] = last;
        }
    }
    return deepest;
}

/* What include/sffs1.h says that a call takes at the most. */
static size_t limit_of(int which) {
    if (which == 6) return 200;
    if (which == 1) return 6600;
    return length <= 1024 ? 7300 : length <= 65536 ? 11500 : 73000;
}

/* A row of the table; tells whether no number is past its limit. */
static int print_row(int which, const char *name) {
    static void (*const builders[])(void) = {build_deep, build_wide, build_alike};
    int within = 1;
    printf("%-16s", name);
    for (int i = 0; i < LENGTHS; i++) {
        size_t taken = 0;
        length = lengths[i];
        for (int card = 0; card < 3; card++) {
            builders[card]();
            within &= built();
            taken = most(taken, worst(which));
        }
        within &= taken <= limit_of(which);
        printf("%9lu%s", (unsigned long)taken, taken <= limit_of(which) ? "" : "!");
    }
    putchar('\n');
    return within;
}

int main(void) {
    static const char *const names[CALLS] = {"check",  "check marked",   "find",      "read",  "read point", "list",
                                             "format", "make directory", "make file", "write", "set length", "remove"};
    int within = 1;
    lowest(-1);
    printf("%-16s", "image length");
    for (int i = 0; i < LENGTHS; i++) printf("%9lu", (unsigned long)lengths[i]);
    putchar('\n');
    for (int which = 0; which < CALLS; which++) within &= print_row(which, names[which]);
    return !within;
}
