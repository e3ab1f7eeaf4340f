// Measures calls of the library for bench/library.py: the processor time of one call, the least of some turns.
//
//   library COUNT TURNS WORDS FILES      blocks, each in a file
//
// Prints the status, and the microseconds of a call.
#include <stdio.h>
#include <time.h>
#include "eds.h"

static struct eds_block read_block(const char *name) {
    struct eds_block it = EDS_EMPTY;
    FILE *file = fopen(name, "rb");
    if (!file || fseek(file, 0, SEEK_END)) exit(2);
    it.size = it.most = (size_t)ftell(file);
    rewind(file);
    it.octets = (uint8_t *)malloc(it.size ? it.size : 1);
    if (!it.octets || fread(it.octets, 1, it.size, file) != it.size) exit(2);
    fclose(file);
    return it;
}

static double now(void) {
    struct timespec it;
    clock_gettime(CLOCK_PROCESS_CPUTIME_ID, &it);
    return (double)it.tv_sec + (double)it.tv_nsec * 1e-9;
}

int main(int count, char **words) {
    if (count != 5) return 2;
    struct eds_block command = read_block(words[3]), files = read_block(words[4]);
    uint8_t *room = (uint8_t *)malloc(EDS_REPORT_MOST);
    struct eds_answer answer = {0, 0};
    double least = 1e9;
    for (int turn = 0; turn < atoi(words[2]); turn++) {
        double begun = now();
        for (int i = 0; i < atoi(words[1]); i++) answer = eds_run(&command, &files, room, EDS_REPORT_MOST);
        double each = (now() - begun) / atoi(words[1]);
        if (each < least) least = each;
    }
    printf("%d %.3f\n", (int)answer.status, least * 1e6);
    return 0;
}
