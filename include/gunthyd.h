/* Gunthyd for C11 and C++: the calls of the proved libraries that `tools/build` writes.
 *
 * A number passes as itself; a slice of words passes as a pointer and a length in words. Nothing is required of the caller but that each
 * slice lies in memory of its own: on words, numbers and lengths of any kind a call is safe, ends, and answers. Memory is lent for the call
 * alone; no call keeps a pointer. Where nothing else is said, a call that refuses changes nothing. */
#ifndef GUNTHYD_H
#define GUNTHYD_H

#include <stddef.h>
#include <stdint.h>

#ifdef __cplusplus
extern "C" {
#endif

/* ---- Fair intake (libintake.a)
 *
 * A queue above the pool: a line of 16 handles for each of 256 peers, lines numbered 0 to 255. A handle is any number of 64 bits; what it
 * names is the caller's. A turn serves the next line that is not empty, in circular order after the one served last, so a handle with k
 * before it in its line is handed out within 256 * (k + 1) turns, however the others fill theirs.
 *
 * The queue is lent words. Line i has the words from GUNTHYD_INTAKE_LINE_WORDS * i on: head, tail, and 16 places for handles. Head and tail
 * run on and wrap at 32 bits: the low 32 bits of a word are read. A handle stands at the place of its count modulo 16. */

#define GUNTHYD_INTAKE_LINES 256
#define GUNTHYD_INTAKE_PLACES 16
#define GUNTHYD_INTAKE_LINE_WORDS 18
#define GUNTHYD_INTAKE_HEAD_AT 0
#define GUNTHYD_INTAKE_TAIL_AT 1
#define GUNTHYD_INTAKE_PLACES_AT 2
/* the line served last, read modulo 256 */
#define GUNTHYD_INTAKE_LAST_AT 4608
#define GUNTHYD_INTAKE_QUEUE_WORDS 4609
/* the words that a turn writes: the handle, then its line */
#define GUNTHYD_INTAKE_ANSWER_WORDS 2
#define GUNTHYD_INTAKE_ANSWER_HANDLE 0
#define GUNTHYD_INTAKE_ANSWER_LINE 1

/* answers of start and put: 0, or the number of a refusal */
#define GUNTHYD_INTAKE_READY 0
#define GUNTHYD_INTAKE_STORED 0
/* refusal 1, of a start: fewer than GUNTHYD_INTAKE_QUEUE_WORDS words */
#define GUNTHYD_INTAKE_TOO_SHORT 1
/* refusal 32, of a put: the line already holds 16, or its number is above 255 (or the words are too few for a queue) */
#define GUNTHYD_INTAKE_NO_ROOM 32
/* answers of turn */
#define GUNTHYD_INTAKE_NONE 0
#define GUNTHYD_INTAKE_SERVED 1

/* Makes the queue empty: every head and tail 0, line 255 served last. */
uint64_t gunthyd_intake_start(uint64_t *queue, size_t queue_len);

/* Stores a handle at the end of a line. */
uint64_t gunthyd_intake_put(uint64_t *queue, size_t queue_len, uint64_t line, uint64_t handle);

/* Hands out the oldest handle of the next line: GUNTHYD_INTAKE_SERVED, and the first two words of `answer` are the handle and its line. Where
 * every line is empty, where the words are too few for a queue, and where `answer` has fewer than two words: GUNTHYD_INTAKE_NONE, and nothing
 * changes. */
uint64_t gunthyd_intake_turn(uint64_t *queue, size_t queue_len, uint64_t *answer, size_t answer_len);

#ifdef __cplusplus
}
#endif

#endif
