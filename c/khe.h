/* The timetabling engine `khe`, for programs in C and whatever calls C.
 *
 * A session is one solution of an XHSTT archive in an engine of its own: it takes one line after the other, and
 * answers each as `khe-talk` does, without the full stop. The page "From C" of docs/manual.md says how to build and
 * link the library; examples/c/climb.c is a program over it.
 *
 *     khe_session session = KHE_CLOSED;
 *     if (khe_open(archive, length, 0, &session) == KHE_DONE)
 *         status = khe_line(&session, (const uint8_t *)"total", 5, room, sizeof room, &answer_length);
 *     khe_close(&session);
 *
 * Each function answers a status of the table below, and does nothing else with an error.
 *
 * What each call relies on. The library is proved, but nothing can check these across the border, so a program that
 * breaks one of them gets no promise at all:
 *   - A khe_session begins as KHE_CLOSED (all bytes zero) and is written by these functions alone. One that is open
 *     is not copied: the copy would be a second owner. It may be moved, if the old place is used no more.
 *   - A pointer is not NULL, not even with a length of 0, and what it leads to is there, as long as its length says,
 *     for the whole call. The archive and the line are only read. A room, an *answer_length and a *costs are
 *     written; they, the handle and what is only read are apart from each other.
 *   - One call at a time for a handle, from any thread. Calls on different handles may run side by side, on as many
 *     threads: handles share nothing but malloc, realloc and free of the C library, which are safe for that.
 *   - No call is made from a signal handler, nor in the child of a fork of a program with threads.
 *
 * What the library does not do: it keeps no pointer of the caller's after a call, starts no thread, takes no lock,
 * reads no file, prints nothing, never calls back, and has no global state. It ends the program in no case.
 *
 * Memory comes from malloc. Where that refuses, the call says KHE_NO_MEMORY and loses nothing: what it held is freed
 * then or by khe_close.
 */
#ifndef KHE_H
#define KHE_H

#include <stdbool.h>
#include <stddef.h>
#include <stdint.h>

#ifdef __cplusplus
extern "C" {
#endif

/* The call did what it says. */
#define KHE_DONE 0
/* The archive or the solution is refused; khe_answer gives the line that says why. */
#define KHE_REFUSED 3
/* Memory was refused. */
#define KHE_NO_MEMORY 6
/* The handle is closed, or for khe_open: it is open. Nothing was changed. */
#define KHE_CLOSED_STATUS 8
/* The answer is longer than the room. */
#define KHE_NO_ROOM 9

/* A handle: a session, a refusal, or nothing while `is_open` is false. `is_open` may be read, and no field may be
 * written. What an open handle holds is the caller's to give back, by khe_close. */
typedef struct {
    void *at;
    bool is_open;
} khe_session;

/* A handle before khe_open, and again after khe_close. */
#define KHE_CLOSED { 0, false }

/* The hard and the soft total of a timetable: each is `high` times 2^64 and `low`. Totals are compared hard first.
 * No total of an archive that is read is above 1.6 * 10^35; of most schools `high` is 0. */
typedef struct {
    uint64_t hard_high;
    uint64_t hard_low;
    uint64_t soft_high;
    uint64_t soft_low;
} khe_costs;

/* Opens a session on the solution with this number, from 0 over all groups of the archive.
 *
 * `archive` are the bytes of the archive, not its name, of any length up to 64 MiB; they are read in this call and
 * not kept. `session` must be closed.
 *
 *   KHE_DONE           the handle is open, and holds the session
 *   KHE_REFUSED        the handle is open, and holds the line of refusal, which khe_answer gives: the one that
 *                      `khe script` writes, as "khe: archive refused: 18 NoSuchSolution\n". Above 64 MiB it is
 *                      that of "17 TooLarge". There is no session: khe_line and khe_totals say KHE_REFUSED too
 *   KHE_NO_MEMORY      the handle is closed still
 *   KHE_CLOSED_STATUS  the handle was open, and is as it was
 *
 * After KHE_DONE and KHE_REFUSED the handle is to be closed by khe_close. It takes the time of reading the archive
 * and of evaluating the solution once. */
uint32_t khe_open(const uint8_t *archive, size_t length, uint32_t solution, khe_session *session);

/* Gives the session one line of a script, without a line feed, and copies the answer into the room.
 *
 * Lines are numbered from 1, and are those of scripts and `repair` and `archive`; a line feed inside is no end of a
 * line. The answer is no line, one line or many, each with a line feed at its end, and no zero byte stands behind it;
 * that of a blank line or a comment is empty. A refused edit is an answer ("refused 8 OffEnd\n"), and so is a line
 * without a reading ("line 3 fault 1 UnknownCommand\n"): both change nothing, and the session goes on.
 *
 *   KHE_DONE           *answer_length is how long the answer is, and the room begins with it; the rest of the room
 *                      is as it was
 *   KHE_NO_ROOM        the line was carried out, and *answer_length says how long the answer is, but the room, which
 *                      is as it was, is shorter: khe_answer gives the answer to a longer one
 *   KHE_REFUSED        the handle holds a refusal; nothing was changed
 *   KHE_NO_MEMORY      the session is spent: this call and each later khe_line and khe_totals says so, and what is
 *                      left to do is khe_close. So it is after 2^64 - 1 lines, but that khe_totals goes on
 *   KHE_CLOSED_STATUS  the handle is closed; nothing was changed
 *
 * An edit takes time by the monitors that watch what it changes, a repair by its budget; the manual's page "Time and
 * memory" has the rest. */
uint32_t khe_line(khe_session *session, const uint8_t *line, size_t length, uint8_t *room, size_t room_length,
                  uint64_t *answer_length);

/* Copies the last answer into the room once more: that of the last khe_line, or the line of refusal. Before the
 * first line, and after KHE_NO_MEMORY, it is empty. It changes nothing in the session and asks for no memory.
 *
 *   KHE_DONE           *answer_length is how long the answer is, and the room begins with it
 *   KHE_NO_ROOM        *answer_length is how long the answer is; the room is shorter, and as it was
 *   KHE_CLOSED_STATUS  the handle is closed; nothing was changed
 *
 * With a room of length 0 it asks for the length alone. */
uint32_t khe_answer(khe_session *session, uint8_t *room, size_t room_length, uint64_t *answer_length);

/* Tells both totals of the timetable as it stands, the numbers that the line "total" answers, without their text.
 *
 *   KHE_DONE           *costs are the totals
 *   KHE_REFUSED        the handle holds a refusal
 *   KHE_NO_MEMORY      the session is spent
 *   KHE_CLOSED_STATUS  the handle is closed
 *
 * But for KHE_DONE, *costs is as it was. It takes constant time and asks for no memory. */
uint32_t khe_totals(khe_session *session, khe_costs *costs);

/* Frees what the handle holds, and closes it. What was done in the session is lost with it. A handle that is closed
 * stays so, and the call says KHE_CLOSED_STATUS; a handle may be opened again.
 *
 *   KHE_DONE           all that the handle held is freed
 *   KHE_CLOSED_STATUS  the handle was closed */
uint32_t khe_close(khe_session *session);

/* Tells whether this library was proved as it was made: 1 for what `make -C c` makes, and 0 for what `make -C c quick`
 * does, which is of the same code and stops the process at an index out of bounds, at a sum that overflows and the
 * like. */
uint32_t khe_is_proved(void);

#ifdef __cplusplus
}
#endif

#endif
