/* Where a controller begins: a card in memory, a path of points on it, and each point read until the path ends. Builds
   as C99 and as C++:  cc -Iinclude examples/controller.c libsffs1.a */

#include "sffs1.h"

#include <stdio.h>

enum { CARD_BYTES = 4096, POINTS = 3 };

static uint8_t card[CARD_BYTES];
static const uint8_t path[] = {'/', 'h', 'e', 'e', 'l'}; /* no zero at its end: the length tells where it ends */
static const uint8_t missing[] = {'/', 't', 'o', 'e'};

/* An answer in words, for the operator. */
static const char *words(uint8_t answer) {
    static const struct { uint8_t answer; const char *words; } told[] = {
        {SFFS1_BAD_LENGTH, "the card's length is not allowed"}, {SFFS1_BAD_PATH, "the path is not valid"},
        {SFFS1_NOT_FOUND, "there is no such path"},             {SFFS1_NOT_A_DIRECTORY, "a file stands in the way"},
        {SFFS1_IS_A_DIRECTORY, "this is a directory"},          {SFFS1_EXISTS, "it is there already"},
        {SFFS1_NO_SLOT, "no slot is empty"},                    {SFFS1_NO_ROOM, "the card has no room"},
        {SFFS1_NOT_EMPTY, "the directory is not empty"},        {SFFS1_OUT_OF_BOUNDS, "a number is out of bounds"},
        {SFFS1_IS_ROOT, "the root stays"},                      {SFFS1_PAST_ROOM, "past the room of the file"},
        {SFFS1_PAST_END, "past the end of the file"},           {SFFS1_TOO_FEW_LINES, "too few lines lent"},
        {SFFS1_TOO_FEW_MARKS, "too few marks lent"},            {SFFS1_BROKEN_BLOCKS, "damaged: a block"},
        {SFFS1_BROKEN_ROOT, "damaged: the root"},               {SFFS1_BROKEN_SLOTS, "damaged: a slot"},
        {SFFS1_BROKEN_LINKS, "damaged: a link"},                {SFFS1_BROKEN_DEPTH, "damaged: too deep"},
        {SFFS1_BROKEN_NAMES, "damaged: a name"},                {SFFS1_BROKEN_FILES, "damaged: a file"},
        {SFFS1_BROKEN_FREE_CHAIN, "damaged: the free chain"}};
    for (size_t i = 0; i < sizeof told / sizeof told[0]; i++)
        if (told[i].answer == answer) return told[i].words;
    return "done";
}

/* Tells a refusal; where the card is damaged, the block as well. */
static int refused(const char *what, uint8_t answer, uint64_t place) {
    if (answer == SFFS1_DONE) return 0;
    printf("%s: refused with %d, %s", what, answer, words(answer));
    if (answer >= SFFS1_BROKEN_BLOCKS) printf(", block %lu", (unsigned long)place);
    putchar('\n');
    return 1;
}

/* A card with one path of a few points, so that this program runs anywhere. A real one is read from the medium. */
static int make_card(uint64_t *ref) {
    uint8_t answer, points[POINTS * SFFS1_POINT_BYTES];
    uint64_t place = 0;
    for (size_t i = 0; i < sizeof points; i++) points[i] = (uint8_t)i;
    answer = sffs1_format(card, CARD_BYTES, 8);
    if (answer == SFFS1_DONE) answer = sffs1_make_file(card, CARD_BYTES, path, sizeof path, 1024, ref, &place);
    if (answer == SFFS1_DONE) answer = sffs1_write(card, CARD_BYTES, path, sizeof path, 0, points, sizeof points, &place);
    return !refused("make the card", answer, place);
}

/* Follows the path. It ends where the file does: there is no point past it, and never a part of one. */
static void follow(const uint8_t *name, size_t length) {
    uint8_t point[SFFS1_POINT_BYTES], answer = SFFS1_DONE;
    uint64_t place = 0;
    for (uint64_t number = SFFS1_FIRST_POINT; number <= SFFS1_LAST_POINT; number++) {
        answer = sffs1_read_point(card, CARD_BYTES, name, length, number, point, &place);
        if (answer != SFFS1_DONE) break;
        printf("point %lu: %02x .. %02x\n", (unsigned long)number, point[0], point[SFFS1_POINT_BYTES - 1]);
    }
    if (answer == SFFS1_DONE || answer == SFFS1_PAST_END) puts("the path ends");
    else refused("read point", answer, place);
}

int main(void) {
    uint64_t ref;
    if (!make_card(&ref)) return 1;
    follow(path, sizeof path);
    follow(missing, sizeof missing);
    card[SFFS1_UNIT * ref + 8] = 1; /* damage: the file's size is past its room. Every call now tells so, and where */
    follow(path, sizeof path);
    return 0;
}
