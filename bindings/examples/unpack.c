/* Prints what `eds unpack TYPE HEXFILE FILE...` prints, by the library:
 *
 *     cc unpack.c $(pkg-config --cflags --libs eds) -o unpack
 *     ./unpack Flat/Word examples/flat/frame.hex examples/flat/sheet.json
 */
#include <stdio.h>
#include "eds.h"

/* Adds a file with its name. One that can't be read is left out, and the report says so. */
static void add_file(struct eds_block *files, const char *name) {
    struct eds_block octets = EDS_EMPTY;
    char piece[4096];
    size_t n;
    FILE *file = fopen(name, "rb");
    if (!file) return;
    /* a block's octets may be any octets: here the file's */
    while ((n = fread(piece, 1, sizeof piece, file)) > 0) {
        uint8_t *grown = (uint8_t *)realloc(octets.octets, octets.size + n);
        if (!grown) break;
        memcpy(grown + octets.size, piece, n);
        octets.octets = grown;
        octets.size += n;
    }
    fclose(file);
    eds_add_text(files, name);
    eds_add(files, octets.octets, octets.size);
    eds_drop(&octets);
}

/* Whether the word before has named the file already: no two files of a request have one name. */
static int is_named(char **words, int at) {
    for (int k = 2; k < at; k++)
        if (!strcmp(words[k], words[at])) return 1;
    return 0;
}

int main(int count, char **words) {
    static uint8_t small[4096];
    uint8_t *room = small;
    struct eds_block command = EDS_EMPTY, files = EDS_EMPTY;
    struct eds_answer answer;

    eds_add_text(&command, "unpack");
    for (int i = 1; i < count; i++) {
        eds_add_text(&command, words[i]);
        if (i > 1 && !is_named(words, i)) add_file(&files, words[i]);
    }
    answer = eds_run(&command, &files, room, sizeof small);
    if (answer.status == EDS_ROOM && (room = (uint8_t *)malloc(answer.length))) answer = eds_run(&command, &files, room, answer.length);
    if (room && answer.status < EDS_ROOM) fwrite(room, 1, answer.length, stdout);
    if (room != small) free(room);
    eds_drop(&command);
    eds_drop(&files);
    return (int)answer.status;
}
