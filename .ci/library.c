// Runs requests of a file through the library, and holds each answer to the wanted one. .ci/library.py writes the file and calls this.
//
//   library MODE FILE
//
// FILE holds, for each request, five blocks of octets, each behind its size in 8 octets, the least first: the words, the files, the
// wanted report, and the numbers of octets after which the words, and the files, may be cut so that they still spell something, as
// numbers of 8 octets each. In front of them stands the wanted status, as such a number.
//
// MODE   rooms     each request in rooms of the exact size, of one octet less, of none and of one
//        cuts      each request with its words, and then its files, cut behind each octet
//        memory    each request with each allocation refused in turn, and with each refused from that one on
//        threads   each request in four threads at once
//        survives  each request, whatever it is answered
// The last line tells how many were tried, and the status is 1 where an answer was another one.
#include <pthread.h>
#include <stdio.h>
#include "eds.h"

#define CANARY 0xA5
#define THREADS 4

struct octets {
    uint8_t *at;
    size_t size;
};

struct request {
    uint64_t status;
    struct octets words, files, report, word_ends, file_ends;
};

static struct request *requests;
static size_t request_count;
static long tried, wrong;

// ---- allocations, which the linker leads here (--wrap)

static long made, fails_at, fails_from, live;

#ifdef WRAPPED
void *__real_malloc(size_t);
void *__real_realloc(void *, size_t);
void __real_free(void *);

static int fails(void) {
    long n = ++made;
    return fails_at && (fails_from ? n >= fails_at : n == fails_at);
}

void *__wrap_malloc(size_t n) {
    void *given = fails() ? NULL : __real_malloc(n);
    live += given != NULL;
    return given;
}

void *__wrap_realloc(void *old, size_t n) {
    void *given = fails() ? NULL : __real_realloc(old, n);
    live += given != NULL && old == NULL;
    return given;
}

void __wrap_free(void *old) {
    live -= old != NULL;
    __real_free(old);
}
#endif

// ---- the file

static uint64_t number(FILE *file) {
    uint64_t n = 0;
    for (int i = 0; i < 8; i++) {
        int octet = fgetc(file);
        if (octet == EOF) exit(2);
        n |= (uint64_t)octet << (8 * i);
    }
    return n;
}

// Octets behind their size, in a block of exactly that size, so that a read behind its end is noticed.
static struct octets octets(FILE *file) {
    struct octets it = {NULL, number(file)};
    it.at = malloc(it.size ? it.size : 1);
    if (!it.at || fread(it.at, 1, it.size, file) != it.size) exit(2);
    return it;
}

static void read_requests(const char *name) {
    FILE *file = fopen(name, "rb");
    if (!file) exit(2);
    request_count = number(file);
    requests = calloc(request_count, sizeof *requests);
    for (size_t i = 0; i < request_count; i++) {
        struct request *it = &requests[i];
        it->status = number(file);
        struct octets *parts[] = {&it->words, &it->files, &it->report, &it->word_ends, &it->file_ends};
        for (size_t k = 0; k < sizeof parts / sizeof *parts; k++) *parts[k] = octets(file);
    }
    fclose(file);
}

// ---- answers

static int is_untouched(const uint8_t *room, size_t from, size_t to) {
    for (size_t i = from; i < to; i++)
        if (room[i] != CANARY) return 0;
    return 1;
}

static int holds(struct eds_answer answer, uint64_t status, uint64_t length, const uint8_t *room, const uint8_t *report, size_t size) {
    size_t written = status == EDS_ROOM || status == EDS_MEMORY || status == EDS_REQUEST ? 0 : length;
    return answer.status == status && answer.length == length && written <= size && !memcmp(room, report, written)
        && is_untouched(room, written, size);
}

static void note(int is_well, const char *what, const struct request *it) {
    __atomic_add_fetch(&tried, 1, __ATOMIC_SEQ_CST);
    if (is_well) return;
    if (__atomic_add_fetch(&wrong, 1, __ATOMIC_SEQ_CST) < 20)
        printf("library: request %zu, %s: another answer than wanted\n", (size_t)(it - requests), what);
}

// A call with a room of so many octets, which is a block of its own.
static int answers(const struct request *it, size_t words, size_t files, size_t size, uint64_t status, uint64_t length) {
    uint8_t *room = malloc(size ? size : 1);
    if (!room) exit(2);
    memset(room, CANARY, size ? size : 1);
    struct eds_answer answer = eds_call(it->words.at, words, it->files.at, files, room, size);
    int is_well = holds(answer, status, length, room, it->report.at, size);
    free(room);
    return is_well;
}

static int in_room(const struct request *it, size_t size) {
    int fits = it->report.size <= size;
    return answers(it, it->words.size, it->files.size, size, fits ? it->status : EDS_ROOM, it->report.size);
}

// ---- modes

static void rooms(const struct request *it) {
    note(in_room(it, it->report.size), "a room of the exact size", it);
    note(in_room(it, it->report.size + 7), "a room of seven octets more", it);
    if (it->report.size) note(in_room(it, it->report.size - 1), "a room of an octet less", it);
    note(in_room(it, 0), "no room", it);
    note(in_room(it, 1), "a room of one octet", it);
}

static int is_end(const struct octets *ends, size_t at) {
    for (size_t i = 0; i < ends->size; i += 8) {
        uint64_t end = 0;
        for (int k = 0; k < 8; k++) end |= (uint64_t)ends->at[i + k] << (8 * k);
        if (end == at) return 1;
    }
    return 0;
}

static void cut(const struct request *it, size_t words, size_t files, int is_request) {
    uint8_t room[4096];
    memset(room, CANARY, sizeof room);
    struct eds_answer answer = eds_call(it->words.at, words, it->files.at, files, room, sizeof room);
    int is_refused = holds(answer, EDS_REQUEST, 0, room, room, sizeof room);
    note(is_request ? answer.status != EDS_REQUEST : is_refused, "cut", it);
}

static void cuts(const struct request *it) {
    for (size_t n = 0; n < it->words.size; n++) cut(it, n, it->files.size, is_end(&it->word_ends, n));
    for (size_t n = 0; n < it->files.size; n++) cut(it, it->words.size, n, is_end(&it->file_ends, n));
}

static void memory(const struct request *it) {
    uint8_t *room = malloc(it->report.size + 1);
    for (fails_from = 0; fails_from < 2; fails_from++)
        for (long at = 1;; at++) {
            memset(room, CANARY, it->report.size + 1);
            long before = live;
            made = 0;
            fails_at = at;
            struct eds_answer answer = eds_call(it->words.at, it->words.size, it->files.at, it->files.size, room, it->report.size + 1);
            fails_at = 0;
            int is_done = holds(answer, it->status, it->report.size, room, it->report.at, it->report.size + 1);
            int is_refused = holds(answer, EDS_MEMORY, 0, room, it->report.at, it->report.size + 1);
            int has_met = made >= at;
            note((has_met ? is_refused || is_done : is_done) && live == before, "an allocation refused", it);
            if (!has_met) break;
        }
    free(room);
}

static void survives(const struct request *it) {
    size_t size = 1 << 16;
    uint8_t *room = malloc(size);
    if (!room) exit(2);
    memset(room, CANARY, size);
    struct eds_answer answer = eds_call(it->words.at, it->words.size, it->files.at, it->files.size, room, size);
    int is_whole = answer.status < EDS_ROOM && answer.length <= size;
    note(is_untouched(room, is_whole ? answer.length : 0, size), "octets behind the report", it);
    free(room);
}

static void *thread(void *first) {
    for (size_t i = 0; i < request_count; i++) {
        const struct request *it = &requests[(i + (size_t)first) % request_count];
        note(in_room(it, it->report.size), "beside other threads", it);
    }
    return NULL;
}

static void threads(void) {
    pthread_t started[THREADS];
    pthread_attr_t how;
    pthread_attr_init(&how);
    pthread_attr_setstacksize(&how, 1 << 20);
    for (size_t i = 0; i < THREADS; i++) pthread_create(&started[i], &how, thread, (void *)(i * request_count / THREADS));
    for (size_t i = 0; i < THREADS; i++) pthread_join(started[i], NULL);
}

int main(int count, char **words) {
    if (count != 3) return 2;
    read_requests(words[2]);
    if (!strcmp(words[1], "threads")) threads();
    for (size_t i = 0; i < request_count; i++) {
        if (!strcmp(words[1], "rooms")) rooms(&requests[i]);
        if (!strcmp(words[1], "cuts")) cuts(&requests[i]);
        if (!strcmp(words[1], "memory")) memory(&requests[i]);
        if (!strcmp(words[1], "survives")) survives(&requests[i]);
    }
    for (size_t i = 0; i < request_count; i++) {
        struct octets parts[] = {requests[i].words, requests[i].files, requests[i].report, requests[i].word_ends, requests[i].file_ends};
        for (size_t k = 0; k < sizeof parts / sizeof *parts; k++) free(parts[k].at);
    }
    free(requests);
    printf("%ld %ld\n", tried, wrong);
    return wrong != 0;
}
