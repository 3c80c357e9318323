/* Plays lines through the library's door, for checks/doors.sh.
 *
 *     door_lines ARCHIVE SOLUTION LINES [THREADS]
 *
 * It opens a session on the solution, gives it each line of the file LINES, and writes each answer with a line after
 * it that holds one full stop alone, as khe-talk does. With THREADS so many threads have a session each and play the
 * same lines side by side, and the answers of the first are written. On the way it looks at what the header promises
 * of each call: what a closed and an open handle say, what a room that is too short says, that the last answer is
 * given again, and that the totals are those of the line `total`.
 *
 * Status 0: all was as promised. 1: something was not, and standard error says what. 2: the words have no reading.
 * 3: the archive was refused; the line that says so was written. 4: a file could not be read. */
#include <pthread.h>
#include <stdio.h>
#include <stdlib.h>
#include <string.h>

#include "khe.h"

typedef struct { uint8_t *bytes; size_t length, room; } text;

/* What a thread plays, and what it is answered. */
typedef struct { const text *archive, *lines; uint32_t solution; text answers; int status; } play;

#define PROMISED(holds) do { if (!(holds)) { \
    fprintf(stderr, "door_lines: line %d of the source: not so: %s\n", __LINE__, #holds); exit(1); } } while (0)

/* Room for so many bytes more at the end of a text. */
static uint8_t *more(text *t, size_t length) {
    if (t->room - t->length < length) {
        t->room = 2 * (t->length + length);
        t->bytes = realloc(t->bytes, t->room);
        PROMISED(t->bytes != NULL);
    }
    return t->bytes + t->length;
}

static int read_file(const char *name, text *t) {
    FILE *file = fopen(name, "rb");
    size_t taken = 0;
    if (file == NULL) return 0;
    do {
        more(t, 65536);
        taken = fread(t->bytes + t->length, 1, 65536, file);
        t->length += taken;
    } while (taken > 0);
    int whole = !ferror(file);
    fclose(file);
    return whole;
}

/* The last answer is given again, to a room of just its length, and to none that is shorter. */
static void look_at_answer(khe_session *session, const uint8_t *answer, uint64_t length) {
    uint8_t *room = malloc(length + 1);
    uint64_t again = 77;
    PROMISED(room != NULL);
    room[length] = 99;
    PROMISED(khe_answer(session, room, length, &again) == KHE_DONE && again == length && room[length] == 99);
    PROMISED(memcmp(room, answer, length) == 0);
    if (length > 0) {
        memset(room, 98, length);
        PROMISED(khe_answer(session, room, length - 1, &again) == KHE_NO_ROOM && again == length && room[0] == 98);
    }
    free(room);
}

/* The totals are those of the line `total`. */
static void look_at_totals(khe_session *session, const uint8_t *answer, uint64_t length) {
    khe_costs costs;
    char line[100];
    PROMISED(khe_totals(session, &costs) == KHE_DONE);
    if (costs.hard_high != 0 || costs.soft_high != 0) return;
    int size = snprintf(line, sizeof line, "total hard %llu soft %llu\n", (unsigned long long)costs.hard_low,
                        (unsigned long long)costs.soft_low);
    PROMISED((uint64_t)size == length && memcmp(line, answer, length) == 0);
}

/* Gives the session a line, and adds its answer and a full stop. */
static void play_line(khe_session *session, const uint8_t *line, size_t length, size_t number, text *answers) {
    uint64_t size = 0;
    size_t free_room = 4096;
    uint32_t status = khe_line(session, line, length, more(answers, free_room), free_room, &size);
    if (status == KHE_NO_ROOM) {
        PROMISED(size > free_room);
        status = khe_answer(session, more(answers, size), size, &size);
    }
    PROMISED(status == KHE_DONE);
    uint8_t *answer = answers->bytes + answers->length;
    if (number % 64 == 0) look_at_answer(session, answer, size);
    if (length == 5 && memcmp(line, "total", 5) == 0) look_at_totals(session, answer, size);
    answers->length += size;
    memcpy(more(answers, 2), ".\n", 2);
    answers->length += 2;
}

static void *play_all(void *given) {
    play *p = given;
    khe_session session = KHE_CLOSED;
    khe_costs costs;
    uint64_t size = 0;
    uint8_t one;
    PROMISED(khe_close(&session) == KHE_CLOSED_STATUS && khe_totals(&session, &costs) == KHE_CLOSED_STATUS);
    PROMISED(khe_line(&session, (const uint8_t *)"total", 5, &one, 0, &size) == KHE_CLOSED_STATUS);
    PROMISED(khe_answer(&session, &one, 0, &size) == KHE_CLOSED_STATUS && !session.is_open);
    uint32_t status = khe_open(p->archive->bytes, p->archive->length, p->solution, &session);
    PROMISED((status == KHE_DONE || status == KHE_REFUSED) && session.is_open);
    PROMISED(khe_open(p->archive->bytes, p->archive->length, p->solution, &session) == KHE_CLOSED_STATUS);
    if (status == KHE_REFUSED) {
        PROMISED(khe_line(&session, (const uint8_t *)"total", 5, &one, 0, &size) == KHE_REFUSED);
        PROMISED(khe_totals(&session, &costs) == KHE_REFUSED);
        PROMISED(khe_answer(&session, &one, 0, &size) == KHE_NO_ROOM);
        PROMISED(khe_answer(&session, more(&p->answers, size), size, &size) == KHE_DONE);
        p->answers.length = size;
        p->status = 3;
    } else {
        PROMISED(khe_answer(&session, &one, 0, &size) == KHE_DONE && size == 0);
        size_t at = 0;
        for (size_t number = 1; at < p->lines->length; number++) {
            const uint8_t *line = p->lines->bytes + at, *end = memchr(line, '\n', p->lines->length - at);
            size_t length = end == NULL ? p->lines->length - at : (size_t)(end - line);
            play_line(&session, line, length, number, &p->answers);
            at += length + 1;
        }
    }
    PROMISED(khe_close(&session) == KHE_DONE && !session.is_open && khe_close(&session) == KHE_CLOSED_STATUS);
    return NULL;
}

int main(int count, char **words) {
    if (count != 4 && count != 5) return 2;
    int threads = count == 5 ? atoi(words[4]) : 1;
    text archive = { NULL, 0, 0 }, lines = { NULL, 0, 0 };
    pthread_t others[16];
    play plays[16];
    if (threads < 1 || threads > 16) return 2;
    if (!read_file(words[1], &archive) || !read_file(words[3], &lines)) return 4;
    for (int i = 0; i < threads; i++) {
        play p = { &archive, &lines, (uint32_t)strtoul(words[2], NULL, 10), { NULL, 0, 0 }, 0 };
        plays[i] = p;
    }
    for (int i = 1; i < threads; i++) PROMISED(pthread_create(&others[i], NULL, play_all, &plays[i]) == 0);
    play_all(&plays[0]);
    for (int i = 1; i < threads; i++) {
        PROMISED(pthread_join(others[i], NULL) == 0);
        PROMISED(plays[i].answers.length == plays[0].answers.length && plays[i].status == plays[0].status);
        PROMISED(memcmp(plays[i].answers.bytes, plays[0].answers.bytes, plays[0].answers.length) == 0);
        free(plays[i].answers.bytes);
    }
    PROMISED(fwrite(plays[0].answers.bytes, 1, plays[0].answers.length, stdout) == plays[0].answers.length);
    PROMISED(fflush(stdout) == 0);
    free(plays[0].answers.bytes);
    free(archive.bytes);
    free(lines.bytes);
    return plays[0].status;
}
