/* sffs1, the single-file filesystem version 1: a file store in one image of bytes. docs/FORMAT.md tells the bytes.

   Answers. Every call answers for every image, path and number: nothing need be checked before. It returns SFFS1_DONE
   where it is accepted, or the number of its refusal. A refusal sets every lent number to 0 (but for the place, and the
   count of a listing) and changes no byte of a buffer or of the image.

   The place. Every call but format first judges the image. Where it is not well formed, the call is refused with 20 +
   the lowest rule that is broken, and the place is the ref of the first block, in storage order, that breaks this rule.
   (A ref counts units of 16 bytes from the front of the image.) The place is 0 for a wrong length, for a broken first
   block, for rules 2 and 8, and beside every other number. Every call that takes it sets it.

   Paths. A path is "/", the root, or one to 16 times a slash and a name. A name has 1 to 64 bytes, UTF-8 exactly by RFC
   3629 (no overlong form, no surrogate, nothing above 10FFFF), without 00, "/" and "\\"; "." and ".." are none. A path
   ends by its length: no zero byte stands behind it, and one within the length makes it invalid.

   What is lent. An image and the rest that is lent to one call must not overlap. A pointer must not be NULL where its
   length is not 0, nor where it has no length (the place, the count, a point and the like). Where a length is 0, nothing
   is read or written there, and the pointer may be NULL. An image, a path and bytes need no alignment. The library keeps
   nothing between calls, and has no memory but what is lent and the stack.

   Cost. A call costs three passes over the headers of the image's blocks: on the machine of the measurements 0.7 ms for
   a full card of 1 MiB, 0.08 ms for one of 1 MiB with a thousand files, 5 microseconds for a typical one of 64 KiB (with
   an older compiler; not measured again). A
   listing adds up to a half of that, a make or remove a few passes along the free blocks. Only names chosen to be hard
   to tell apart cost more: 40 ms for 1 MiB of them. Format looks at no old byte, and writes the whole image.

   Stack, in bytes, measured on x86-64 by tests/c/stack.c:

       image length            up to 1,024    up to 65,536      above
       sffs1_format                    200             200        200
       sffs1_check_marked            6,600           6,600      6,600
       every other call              7,300          11,500     73,000

   Linking. The archive asks the program for memset, and for nothing else. */

#ifndef SFFS1_H
#define SFFS1_H

#include <stddef.h>
#include <stdint.h>

#ifdef __cplusplus
extern "C" {
#endif

/* The limits. */
#define SFFS1_UNIT 16               /* bytes of a unit; an image is a whole number of units */
#define SFFS1_SHORTEST_IMAGE 64     /* bytes of an image: from 64 */
#define SFFS1_LONGEST_IMAGE 1048576 /* to 1,048,576 */
#define SFFS1_LONGEST_NAME 64       /* bytes of a name: from 1 */
#define SFFS1_MOST_COMPONENTS 16    /* names in a path */
#define SFFS1_LONGEST_PATH 1040     /* bytes of a path: 16 times a slash and a name */
#define SFFS1_MOST_SLOTS 1024       /* slots of a directory: from 1 */
#define SFFS1_MOST_ROOM 65536       /* bytes of a file, and of its room: from 0 */
#define SFFS1_FIRST_POINT 1         /* numbers of points: from 1 */
#define SFFS1_LAST_POINT 4096       /* to 4,096 */
#define SFFS1_POINT_BYTES 16        /* bytes of a point */
#define SFFS1_LINE_NUMBERS 7        /* numbers of a line */

/* Marks that the check of an image of so many bytes needs. */
#define SFFS1_MARKS(image_len) ((image_len) / SFFS1_UNIT)

/* Lines that are enough for the listing of any image of so many bytes, and the numbers of so many lines: an object and
   its name take at least 3 units. */
#define SFFS1_LINES(image_len) ((image_len) / (3 * SFFS1_UNIT))
#define SFFS1_NUMBERS(image_len) (SFFS1_LINE_NUMBERS * SFFS1_LINES(image_len))

/* The answers. A call returns them as uint8_t. */
enum sffs1_answer {
    SFFS1_DONE = 0,
    SFFS1_BAD_LENGTH = 1,        /* format: the length of the image is not allowed */
    SFFS1_BAD_PATH = 2,          /* the path is not valid, or has over 16 components */
    SFFS1_NOT_FOUND = 3,         /* a component is not there (for a make: one before the last) */
    SFFS1_NOT_A_DIRECTORY = 4,   /* a component before the last is a file */
    SFFS1_IS_A_DIRECTORY = 5,    /* read, read point, write or set length names a directory */
    SFFS1_EXISTS = 6,            /* what is to be made is there already, the root included */
    SFFS1_NO_SLOT = 7,           /* no slot is empty */
    SFFS1_NO_ROOM = 8,           /* no free room (format: the image is too short for the slots) */
    SFFS1_NOT_EMPTY = 9,         /* the directory to be removed holds something */
    SFFS1_OUT_OF_BOUNDS = 10,    /* the slots, the room or the number of the point */
    SFFS1_IS_ROOT = 11,          /* the root is to be removed */
    SFFS1_PAST_ROOM = 12,        /* the end of a write, or the length, is past the room */
    SFFS1_PAST_END = 13,         /* the point's 16 bytes do not all lie within the file size */
    SFFS1_TOO_FEW_LINES = 14,    /* fewer lines are lent than there are objects */
    SFFS1_TOO_FEW_MARKS = 17,    /* fewer marks are lent than the image has units of 16 bytes */

    /* The image is not well formed: 20 + the lowest broken rule. In brackets the block that the place names. */
    SFFS1_BROKEN_BLOCKS = 21,    /* the length is wrong (0), or blocks do not fill the image end to end, each of a known
                                    kind, within its limits and with zeros after its data (the block) */
    SFFS1_BROKEN_ROOT = 22,      /* the root ref names no directory that is its own parent (0) */
    SFFS1_BROKEN_SLOTS = 23,     /* a slot is neither empty nor names a name and a file or directory (the directory) */
    SFFS1_BROKEN_LINKS = 24,     /* not named by exactly one slot, or the root by one (what is named), or a parent that
                                    is not the directory whose slot names it (the directory with this parent) */
    SFFS1_BROKEN_DEPTH = 25,     /* is over 16 steps from the root, or at 16 and holds something (the directory) */
    SFFS1_BROKEN_NAMES = 26,     /* a name is not valid (the name), or equal names in a directory (the directory) */
    SFFS1_BROKEN_FILES = 27,     /* the size is past the room, or chunk size or reserved bytes are set (the file) */
    SFFS1_BROKEN_FREE_CHAIN = 28 /* the chain does not name each free block once, rising; or two are neighbours (0) */
};

/* The marks of units where a block begins. */
enum sffs1_mark {
    SFFS1_MARK_SUPERBLOCK = 1,
    SFFS1_MARK_DIRECTORY = 2,
    SFFS1_MARK_NAME = 3,
    SFFS1_MARK_FILE = 4,
    SFFS1_MARK_CHUNK = 5,        /* a part of a large file: not yet in any image */
    SFFS1_MARK_FREE = 6
};

/* The numbers of a line, by their order. */
enum sffs1_line {
    SFFS1_LINE_REF = 0,
    SFFS1_LINE_PARENT = 1,       /* the ref of the directory that holds it; the root's is its own */
    SFFS1_LINE_NAME = 2,         /* the name's ref; the root's is 0 */
    SFFS1_LINE_DEPTH = 3,        /* the components of its path */
    SFFS1_LINE_DIRECTORY = 4,    /* 1 for a directory, 0 for a file */
    SFFS1_LINE_FIRST = 5,        /* a file's size, or a directory's taken slots */
    SFFS1_LINE_SECOND = 6        /* a file's room, or a directory's slots in all */
};

/* Whether the image is well formed: SFFS1_DONE, or 21 to 28 and the place. */
uint8_t sffs1_check(const uint8_t *image, size_t image_len, uint64_t *place);

/* The same check, lent one mark for each unit of 16 bytes: image_len / 16, rounded down. Fewer are refused with
   SFFS1_TOO_FEW_MARKS, before all else, and nothing is changed. Where the image is well formed, the mark of each unit is
   then an SFFS1_MARK where a block begins, or else 0; on every other refusal these marks are 0. Marks past them are
   unchanged. It is as quick as sffs1_check, and takes as little stack for a long image as for a short one. */
uint8_t sffs1_check_marked(const uint8_t *image, size_t image_len, uint8_t *marks, size_t marks_len, uint64_t *place);

/* What the path names: its ref, and whether it is a directory (0 or 1). A file has its size and room in first and
   second, a directory its taken slots and its slots in all. */
uint8_t sffs1_find(const uint8_t *image, size_t image_len, const uint8_t *path, size_t path_len,
                   uint64_t *ref, uint8_t *directory, uint64_t *first, uint64_t *second, uint64_t *place);

/* The bytes of a file from the position on, to the front of the buffer, as many as the file and the buffer have.
   Tells their count; the rest of the buffer is unchanged. */
uint8_t sffs1_read(const uint8_t *image, size_t image_len, const uint8_t *path, size_t path_len,
                   uint64_t position, uint8_t *buffer, size_t buffer_len, uint64_t *count, uint64_t *place);

/* Point `number`, from 1 to 4096, of a file: 16 bytes, never a part of a point. Zeros on a refusal. */
uint8_t sffs1_read_point(const uint8_t *image, size_t image_len, const uint8_t *path, size_t path_len,
                         uint64_t number, uint8_t point[16], uint64_t *place);

/* A new image, whatever its bytes were: a root directory with so many slots (1 to 1,024) at ref 2, the rest free.
   Tells no place. */
uint8_t sffs1_format(uint8_t *image, size_t image_len, uint64_t slots);

/* A new directory with so many empty slots (1 to 1,024), in the lowest empty slot of the directory above it. Tells
   its ref. Its name and its own block each go into the smallest free block that is big enough, of equal ones the
   lowest: the larger of the two first, the name where they are equal. */
uint8_t sffs1_make_directory(uint8_t *image, size_t image_len, const uint8_t *path, size_t path_len,
                             uint64_t slots, uint64_t *ref, uint64_t *place);

/* A new file of size 0 with so much room (0 to 65,536 bytes), likewise. */
uint8_t sffs1_make_file(uint8_t *image, size_t image_len, const uint8_t *path, size_t path_len,
                        uint64_t room, uint64_t *ref, uint64_t *place);

/* Bytes of a file from the position on; a gap after the old end becomes zeros. The position is any number:
   SFFS1_PAST_ROOM where the end would lie past the room. */
uint8_t sffs1_write(uint8_t *image, size_t image_len, const uint8_t *path, size_t path_len,
                    uint64_t position, const uint8_t *bytes, size_t bytes_len, uint64_t *place);

/* The file cut off at this length, or lengthened by zeros. */
uint8_t sffs1_set_length(uint8_t *image, size_t image_len, const uint8_t *path, size_t path_len,
                         uint64_t length, uint64_t *place);

/* The file, or the directory that holds nothing, is gone, and its room is free again. */
uint8_t sffs1_remove(uint8_t *image, size_t image_len, const uint8_t *path, size_t path_len, uint64_t *place);

/* A line for every object: the root first; a directory lists what it holds before the next slot. Seven numbers a line,
   as sffs1_line orders them. numbers_len counts numbers: numbers_len / 7 lines are lent, rounded down. Fewer than there
   are objects are refused with SFFS1_TOO_FEW_LINES, and count is then the number of lines needed; it is 0 on other
   refusals. SFFS1_NUMBERS(image_len) are always enough. Numbers beyond the lines are unchanged. */
uint8_t sffs1_list(const uint8_t *image, size_t image_len, uint64_t *numbers, size_t numbers_len,
                   uint64_t *count, uint64_t *place);

#ifdef __cplusplus
}
#endif

#endif
