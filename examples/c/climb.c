/* A hill climber on the engine: climb ARCHIVE SOLUTION [TRIES [SEED]]
 *
 * Each try is one random edit inside a mark: a meet goes to another time, or changes places with another one, or a
 * task gets another resource. It stays where the totals are no higher than before, and is undone where they are. At
 * the end the archive with the timetable stands on standard output, and the totals before and after on standard
 * error. The engine says what each edit costs; this program knows nothing of the constraints. */
#include "khe.h"

#include <stdio.h>
#include <stdlib.h>
#include <string.h>

static khe_session session = KHE_CLOSED;
static uint8_t *room;
static size_t room_length;

static void fail(const char *why) {
    fprintf(stderr, "climb: %s\n", why);
    khe_close(&session);
    free(room);
    exit(1);
}

/* Makes the room longer, with one more byte for a zero behind the answer. */
static void grow(uint64_t length) {
    uint8_t *more = realloc(room, length + 1);
    if (!more) fail("out of memory");
    room = more;
    room_length = length;
}

/* The answer that a call left, as a string in the room. */
static const char *answered(uint32_t status, uint64_t length) {
    if (status == KHE_NO_ROOM) {
        grow(length);
        status = khe_answer(&session, room, room_length, &length);
    }
    if (status == KHE_NO_MEMORY) fail("out of memory");
    if (status != KHE_DONE) fail("no session");
    room[length] = 0;
    return (const char *)room;
}

static const char *ask(const char *line) {
    uint64_t length = 0;
    uint32_t status = khe_line(&session, (const uint8_t *)line, strlen(line), room, room_length, &length);
    return answered(status, length);
}

static khe_costs totals(void) {
    khe_costs costs;
    if (khe_totals(&session, &costs) != KHE_DONE) fail("no totals");
    return costs;
}

static int is_higher(khe_costs a, khe_costs b) {
    if (a.hard_high != b.hard_high) return a.hard_high > b.hard_high;
    if (a.hard_low != b.hard_low) return a.hard_low > b.hard_low;
    if (a.soft_high != b.soft_high) return a.soft_high > b.soft_high;
    return a.soft_low > b.soft_low;
}

static void open_session(const char *name, uint32_t solution) {
    FILE *file = fopen(name, "rb");
    uint8_t *archive = malloc(64 << 20);
    if (!file || !archive) fail("the archive can't be read");
    size_t length = fread(archive, 1, 64 << 20, file);
    fclose(file);
    uint32_t status = khe_open(archive, length, solution, &session);
    free(archive);
    uint64_t told = 0;
    if (status == KHE_REFUSED) fputs(answered(khe_answer(&session, room, room_length, &told), told), stderr);
    if (status != KHE_DONE) fail(status == KHE_REFUSED ? "no session" : "out of memory");
}

/* The same numbers on every machine (xorshift). */
static uint64_t state;
static unsigned draw(unsigned below) {
    state ^= state << 13, state ^= state >> 7, state ^= state << 17;
    return below ? (unsigned)(state % below) : 0;
}

int main(int argc, char **words) {
    if (argc < 3) fail("climb ARCHIVE SOLUTION [TRIES [SEED]]");
    grow(4096);
    open_session(words[1], (uint32_t)strtoul(words[2], NULL, 10));
    long tries = argc > 3 ? atol(words[3]) : 10000;
    state = argc > 4 ? strtoull(words[4], NULL, 10) * 2 + 1 : 1;

    /* The meets, and the tasks as pairs of a meet and a place. */
    unsigned meets = 0, tasks = 0, meet, place;
    unsigned *of = calloc(1 << 20, sizeof *of), *task = calloc(1 << 20, sizeof *task);
    if (!of || !task) fail("out of memory");
    for (const char *line = ask("show"); *line && tasks < 1 << 19 && meets < 1 << 20; line = strchr(line, '\n') + 1) {
        if (sscanf(line, "meet %u", &meet) == 1) of[meets++] = meet;
        if (sscanf(line, "task %u %u", &meet, &place) == 2) task[2 * tasks] = meet, task[2 * tasks++ + 1] = place;
    }
    if (!meets) fail("no meets");
    fprintf(stderr, "before: %s", ask("total"));

    /* A refusal by NoSuchTime or NoSuchResource says how many there are at most. */
    unsigned times = 4000, resources = 10000, drawn;
    khe_costs best = totals();
    char line[80];
    for (long i = 0; i < tries; i++) {
        unsigned kind = draw(tasks ? 5 : 3), m = of[draw(meets)], t = tasks ? 2 * draw(tasks) : 0;
        if (kind < 2) snprintf(line, sizeof line, "%s %u %u", kind ? "move" : "assign", m, drawn = draw(times));
        else if (kind == 2) snprintf(line, sizeof line, "swap %u %u", m, drawn = of[draw(meets)]);
        else snprintf(line, sizeof line, "%s %u %u %u", kind == 3 ? "give" : "regive", task[t], task[t + 1],
                      drawn = draw(resources));
        ask("begin");
        const char *answer = ask(line);
        if (strstr(answer, "NoSuchTime")) times = drawn;
        else if (strstr(answer, "NoSuchResource")) resources = drawn;
        else if (strncmp(answer, "ok", 2) == 0) {
            khe_costs costs = totals();
            if (is_higher(costs, best)) ask("undo");
            else best = costs;
        }
        ask("end");
    }
    fprintf(stderr, "after: %s", ask("total"));
    fputs(ask("archive"), stdout);
    khe_close(&session);
    free(room), free(of), free(task);
    return 0;
}
