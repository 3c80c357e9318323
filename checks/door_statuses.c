/* What khe.h says of each status, on a session that is played, on handles that are closed or refused, on rooms of any
 * length, and with each allocation refused in turn:
 * door_statuses ARCHIVE SCRIPT. The script's answers are on standard output. checks/doors.sh runs it. */
#include "khe.h"

#include <stdio.h>
#include <stdlib.h>
#include <string.h>

/* Allocations before the one that is refused, where that is not negative; whether it is the only one, and not all
 * after it too; and how many blocks are held. */
static long left = -1, held;
static int is_alone;
void *__real_malloc(size_t), *__real_realloc(void *, size_t);
void __real_free(void *);
void *__wrap_malloc(size_t), *__wrap_realloc(void *, size_t);
void __wrap_free(void *);

static int is_refused(void) {
    if (left != 0) {
        left -= left > 0;
        return 0;
    }
    left = is_alone ? -1 : 0;
    return 1;
}

void *__wrap_malloc(size_t size) {
    void *at = is_refused() ? NULL : __real_malloc(size);
    held += at != NULL;
    return at;
}

void *__wrap_realloc(void *at, size_t size) {
    void *more = is_refused() ? NULL : __real_realloc(at, size);
    held += !at && more;
    return more;
}

void __wrap_free(void *at) {
    held -= at != NULL;
    __real_free(at);
}

#define WANT(x)                                    \
    do {                                           \
        if (!(x)) {                                \
            printf("line %d: %s\n", __LINE__, #x); \
            exit(1);                               \
        }                                          \
    } while (0)

static uint8_t archive[1 << 20], script[1 << 20], room[1 << 20];
static size_t archive_length, script_length;

static size_t read_all(const char *name, uint8_t *into) {
    FILE *file = fopen(name, "rb");
    size_t length = file ? fread(into, 1, 1 << 20, file) : 0;
    if (!length) printf("%s can't be read\n", name), exit(1);
    fclose(file);
    return length;
}

static uint32_t line(khe_session *session, const char *text, uint64_t *length) {
    return khe_line(session, (const uint8_t *)text, strlen(text), room, sizeof room, length);
}

/* The script's answers on standard output. The first status that is not KHE_DONE ends it. */
static uint32_t play(khe_session *session, FILE *out) {
    for (size_t at = 0; at < script_length;) {
        uint8_t *end = memchr(script + at, '\n', script_length - at);
        size_t size = end ? (size_t)(end - script) - at : script_length - at;
        uint64_t length = 0;
        uint32_t status = khe_line(session, script + at, size, room, sizeof room, &length);
        if (status) return status;
        if (out) fwrite(room, 1, length, out);
        at += size + 1;
    }
    return KHE_DONE;
}

static void closed_handles(void) {
    khe_session session = KHE_CLOSED;
    khe_costs costs = {1, 2, 3, 4};
    uint64_t length = 77;
    WANT(line(&session, "total", &length) == KHE_CLOSED_STATUS && length == 77);
    WANT(khe_answer(&session, room, sizeof room, &length) == KHE_CLOSED_STATUS && length == 77);
    WANT(khe_totals(&session, &costs) == KHE_CLOSED_STATUS && costs.hard_high == 1 && costs.soft_low == 4);
    WANT(khe_close(&session) == KHE_CLOSED_STATUS && !session.is_open);
}

static void refused(const uint8_t *bytes, size_t size, uint32_t solution, const char *why) {
    khe_session session = KHE_CLOSED;
    khe_costs costs = {1, 2, 3, 4};
    uint64_t length = 77;
    WANT(khe_open(bytes, size, solution, &session) == KHE_REFUSED && session.is_open);
    WANT(line(&session, "total", &length) == KHE_REFUSED && length == 77);
    WANT(khe_totals(&session, &costs) == KHE_REFUSED && costs.hard_high == 1);
    WANT(khe_answer(&session, room, sizeof room, &length) == KHE_DONE && length == strlen(why));
    WANT(memcmp(room, why, length) == 0);
    WANT(khe_close(&session) == KHE_DONE && !session.is_open);
}

static void too_large(void) {
    size_t size = ((size_t)64 << 20) + 1;
    uint8_t *bytes = calloc(size, 1);
    WANT(bytes);
    refused(bytes, size, 0, "khe: archive refused: 17 TooLarge\n");
    free(bytes);
}

static void rooms(void) {
    khe_session session = KHE_CLOSED;
    uint64_t length = 77, whole;
    WANT(khe_open(archive, archive_length, 0, &session) == KHE_DONE);
    WANT(khe_open(archive, archive_length, 0, &session) == KHE_CLOSED_STATUS && session.is_open);
    WANT(khe_answer(&session, room, 0, &length) == KHE_DONE && length == 0);
    WANT(line(&session, "total", &whole) == KHE_DONE && whole > 20);
    uint8_t *kept = malloc(whole);
    WANT(kept);
    memcpy(kept, room, whole);
    for (size_t size = 0; size < whole + 3; size++) {
        memset(room, '#', sizeof room);
        uint32_t status = khe_answer(&session, room, size, &length);
        WANT(length == whole && status == (size < whole ? KHE_NO_ROOM : KHE_DONE));
        WANT(room[size] == '#' && (size < whole ? room[0] == '#' : memcmp(room, kept, whole) == 0));
        WANT(size <= whole || room[whole] == '#');
    }
    WANT(khe_line(&session, (const uint8_t *)"total", 5, room, 3, &length) == KHE_NO_ROOM && length == whole);
    WANT(khe_answer(&session, room, sizeof room, &length) == KHE_DONE && memcmp(room, kept, whole) == 0);
    unsigned long hard, soft;
    khe_costs costs;
    room[length] = 0;
    WANT(sscanf((char *)room, "total hard %lu soft %lu\n", &hard, &soft) == 2);
    WANT(khe_totals(&session, &costs) == KHE_DONE && costs.hard_low == hard && costs.soft_low == soft);
    WANT(costs.hard_high == 0 && costs.soft_high == 0);
    WANT(line(&session, "# a comment", &length) == KHE_DONE && length == 0);
    WANT(khe_close(&session) == KHE_DONE && khe_close(&session) == KHE_CLOSED_STATUS);
    free(kept);
}

/* With its n-th allocation refused, alone or with all after it, a session says so, in each later line too, and leaves
 * nothing behind. */
static long refuse_each(int alone) {
    is_alone = alone;
    for (long n = 0;; n++) {
        khe_session session = KHE_CLOSED;
        khe_costs costs;
        uint64_t length = 77;
        long before = held;
        left = n;
        uint32_t status = khe_open(archive, archive_length, 0, &session);
        WANT(status == KHE_DONE || (status == KHE_NO_MEMORY && !session.is_open));
        if (status == KHE_DONE && (status = play(&session, NULL)) != KHE_DONE) {
            WANT(status == KHE_NO_MEMORY && session.is_open);
            left = -1;
            WANT(line(&session, "total", &length) == KHE_NO_MEMORY && khe_totals(&session, &costs) == KHE_NO_MEMORY);
            WANT(khe_answer(&session, room, 0, &length) == KHE_DONE && length == 0);
        }
        left = -1;
        khe_close(&session);
        WANT(held == before);
        if (status == KHE_DONE) return n;
    }
}

int main(int argc, char **words) {
    if (argc != 3) return 2;
    archive_length = read_all(words[1], archive);
    script_length = read_all(words[2], script);
    khe_session one = KHE_CLOSED, other = KHE_CLOSED;
    WANT(khe_open(archive, archive_length, 0, &one) == KHE_DONE);
    WANT(khe_open(archive, archive_length, 0, &other) == KHE_DONE);
    WANT(play(&one, stdout) == KHE_DONE && play(&other, NULL) == KHE_DONE);
    WANT(khe_close(&one) == KHE_DONE && khe_close(&other) == KHE_DONE);
    fflush(stdout);
    closed_handles();
    refused(archive, archive_length, 10000, "khe: archive refused: 18 NoSuchSolution\n");
    too_large();
    rooms();
    long turns = refuse_each(0) + refuse_each(1);
    fprintf(stderr, "door_statuses: all statuses are as khe.h says, %ld allocations refused in turn\n", turns);
    return 0;
}
