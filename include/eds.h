/* eds: electronic data sheets, as a library for C and C++.
 *
 * One call does what one run of the program `eds` does. It takes the words of a command and the files that they name, all in
 * memory, and puts the report at the front of a room that the caller has. Nothing is kept between calls, no file is opened and
 * nothing is printed.
 *
 *     struct eds_block words = EDS_EMPTY, files = EDS_EMPTY;
 *     eds_add_text(&words, "unpack"); eds_add_text(&words, "Flat/Word");
 *     eds_add_text(&words, "frame");  eds_add_text(&words, "sheet");
 *     eds_add_text(&files, "sheet");  eds_add(&files, sheet, sheet_size);
 *     eds_add_text(&files, "frame");  eds_add_text(&files, "1234");
 *     struct eds_answer answer = eds_run(&words, &files, room, room_size);
 *     if (answer.status == EDS_DONE) fwrite(room, 1, answer.length, stdout);
 *     eds_drop(&words); eds_drop(&files);
 *
 * Link with -leds (pkg-config eds). docs/PROFILE.md tells the commands, their reports and the sheet language.
 *
 * What is proved of eds_call, for all blocks and rooms:
 *   - the status and the report are those of the program for these words over these files, and there are no others;
 *   - a valid command is done, unless memory runs out or the room is too small;
 *   - blocks are refused as no request exactly where they spell none, and what eds_add spells is read as what was added;
 *   - the statuses 4 and 5 never come, and nothing is written behind the report, nor at all with status 6, 9 or 10;
 *   - a call reads and writes no memory but these blocks, the room and what it asks malloc for, and it ends.
 *
 * What no proof can say, and a caller has to see to:
 *   - no pointer is null, not even where its size is 0 (eds_run sees to that), and each points to as many octets as its size says;
 *   - the room overlaps neither block, and nobody writes to blocks or room during the call;
 *   - the calling thread has 1 MiB of stack: musl and some systems give a new thread less;
 *   - malloc, realloc and free come from one allocator, which aligns as C asks;
 *   - no call from a signal handler, nor in the forked child of a process that has more threads.
 * Several threads may call at once, each with a room of its own: a call shares nothing. A call can't be interrupted, and nothing
 * is proved of its time. The functions in this header are plain C and not proved. Only eds_call is.
 */
#ifndef EDS_H
#define EDS_H

#include <stddef.h>
#include <stdint.h>
#include <stdlib.h>
#include <string.h>

#ifdef __cplusplus
extern "C" {
#endif

/* How a call ended. 0 to 8 are the statuses of the program, of which 4 and 5, a read and a write that fails, never come here. */
enum eds_status {
    EDS_DONE = 0,
    EDS_SHEET = 1,   /* the sheet breaks a rule: the report tells rule, place and word */
    EDS_USAGE = 2,   /* the words are no command */
    EDS_DATA = 3,    /* the input is refused: the report tells why and where */
    EDS_MEMORY = 6,  /* there is no memory; nothing is written */
    EDS_LIMIT = 7,   /* a limit is passed: the report tells which */
    EDS_NO_FILE = 8, /* a file that the words name is not among the files */
    EDS_ROOM = 9,    /* the room is too small; nothing is written, and length tells how many octets the report has */
    EDS_REQUEST = 10 /* the blocks spell no request: a length is wrong, a word or a name is no UTF-8, or two files have one name */
};

/* How a call ended, and how many octets its report has, which stand at the front of the room. */
struct eds_answer {
    uint64_t status;
    uint64_t length;
};

/* The most octets of a report that is done: 64 MiB. */
#define EDS_REPORT_MOST ((size_t)67108864)

/* The call itself. A block is a list of fields, and a field is its length in octets, as 4 octets with the least first, and then
 * its octets. words: the words of a command, without the program's name. files: the name of a file, its octets, the next name,
 * and so on. Sizes are in octets. */
struct eds_answer eds_call(const uint8_t *words, size_t words_size, const uint8_t *files, size_t files_size, uint8_t *room,
                           size_t room_size);

/* A block that grows. It begins as EDS_EMPTY, all zero, and eds_drop frees it. */
struct eds_block {
    uint8_t *octets;
    size_t size, most;
    int failed; /* memory ran out, or a field had more than 2^32 - 1 octets: eds_run answers EDS_MEMORY then */
};

#define EDS_EMPTY {NULL, 0, 0, 0}

/* Adds a field, and gives 1; or marks the block as failed, and gives 0. */
static inline int eds_add(struct eds_block *block, const void *octets, size_t size) {
    if (block->failed || size > UINT32_MAX || block->size > SIZE_MAX / 2 - 4 - size) {
        block->failed = 1;
        return 0;
    }
    if (block->most - block->size < size + 4) {
        size_t most = block->size + size + 4;
        if (most < 2 * block->most) most = 2 * block->most;
        uint8_t *grown = (uint8_t *)realloc(block->octets, most);
        if (!grown) {
            block->failed = 1;
            return 0;
        }
        block->octets = grown;
        block->most = most;
    }
    for (int i = 0; i < 4; i++) block->octets[block->size + i] = (uint8_t)(size >> (8 * i));
    if (size) memcpy(block->octets + block->size + 4, octets, size);
    block->size += size + 4;
    return 1;
}

/* Adds a text that ends in a zero octet, without that octet. */
static inline int eds_add_text(struct eds_block *block, const char *text) { return eds_add(block, text, strlen(text)); }

/* Goes back to an earlier size, as to put another frame behind the same sheet. */
static inline void eds_cut(struct eds_block *block, size_t size) {
    if (size <= block->size) block->size = size;
}

/* Frees a block, which is empty then. */
static inline void eds_drop(struct eds_block *block) {
    free(block->octets);
    memset(block, 0, sizeof *block);
}

/* eds_call, with blocks that may be empty and a room that may be null. */
static inline struct eds_answer eds_run(const struct eds_block *words, const struct eds_block *files, void *room, size_t room_size) {
    uint8_t none = 0;
    struct eds_answer no_memory = {EDS_MEMORY, 0};
    if (words->failed || files->failed) return no_memory;
    return eds_call(words->octets ? words->octets : &none, words->size, files->octets ? files->octets : &none, files->size,
                    room ? (uint8_t *)room : &none, room ? room_size : 0);
}

#ifdef __cplusplus
}
#endif
#endif
