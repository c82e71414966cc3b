/*
 * sigverify for C: the replies of its commands to requests in memory. docs/REQUESTS.md of the project has the requests
 * and the replies.
 *
 * It is proved of sigverify_reply that with a status below 3 the bytes written are the reply that the program gives to
 * this request, and that otherwise none was written. The caller has to keep what is said here about pointers, lengths
 * and malloc, and no proof is about that.
 *
 * A call keeps nothing: there is no state and nothing to set up or to release, and a call has freed all memory that it
 * took when it returns. It reads no file, no environment and no clock, and calls only malloc, realloc and free, and
 * memcpy, memmove, memset and memcmp. So several threads may make calls at once.
 */
#ifndef SIGVERIFY_H
#define SIGVERIFY_H

#include <stddef.h>
#include <stdint.h>

#ifdef __cplusplus
extern "C" {
#endif

/* The version of this header: 2^16 times its first number, plus 2^8 times the second, plus the third. */
#define SIGVERIFY_VERSION 0x000100 /* 0.1.0 */

/*
 * The commands. The sum of SIGVERIFY_QUESTIONS and a command stands for that command's questions: the signatures on
 * which its reply can rest, as the JSON list that a request has as `accepted`. The sum of SIGVERIFY_EXPLAIN and a command
 * stands for that command's explained reply: its lines, and after them one line, a JSON object that says why; the status
 * is the command's.
 */
#define SIGVERIFY_LOG 1         /* is this entry in the log, and does the log vouch for it? */
#define SIGVERIFY_VERIFY 2      /* may this artifact be trusted, by this bundle? */
#define SIGVERIFY_CONSISTENCY 3 /* does the log still have the entries that it had? */
#define SIGVERIFY_AUDIT 4       /* are these heads of one log over time, and are these entries in it? */
#define SIGVERIFY_WITNESS 5     /* which of these heads have grown from those that are kept? */
#define SIGVERIFY_GATE 6        /* which of these artifacts are to be admitted? */
#define SIGVERIFY_QUESTIONS 256
#define SIGVERIFY_EXPLAIN 512

/* The statuses. With the first three the reply is written, and with the others nothing. */
#define SIGVERIFY_HOLDS 0       /* every link of the command holds; for questions, the list is written */
#define SIGVERIFY_REFUSED 1     /* a link does not hold: the reply names the first one; for witness, some update is refused;
                                   for gate, some artifact is not admitted */
#define SIGVERIFY_NO_REQUEST 2  /* the request is not one of the command's, or has more than 2^24 bytes */
#define SIGVERIFY_NO_COMMAND 64 /* no command has this number */
#define SIGVERIFY_NO_MEMORY 71  /* malloc or realloc gave no memory */
#define SIGVERIFY_NO_ROOM 75    /* the reply has more bytes than there is room for */

/*
 * The version of the library, in the form of SIGVERIFY_VERSION: a caller whose header has another version may not know
 * all commands and statuses of the library, and the library may not know all of the header's.
 */
uint32_t sigverify_version(void);

/*
 * Writes a command's reply to a request, and returns its status.
 *
 *   command      a command, or its sum with SIGVERIFY_QUESTIONS or with SIGVERIFY_EXPLAIN
 *   request      the request, JSON: `request_len` bytes, which may be in read-only memory, and may be read by several
 *                calls at once. They must not change until the call returns.
 *   request_len  their number; the request need not end with 0
 *   reply        where the reply goes: room for `room` bytes, whatever they hold, which only this call uses until it
 *                returns. They must not overlap the request.
 *   room         their number; 0 serves to ask for the length
 *   written      the number of the reply's bytes, with the statuses 0, 1, 2, and with SIGVERIFY_NO_ROOM, where a call
 *                with that much room gives the reply; else 0. It must be neither in the request nor in the reply.
 *
 * With a status of 0, 1 or 2 the first `*written` bytes of `reply` are the reply, in ASCII or UTF-8, as the program
 * writes it, with a newline at its end and no 0 after it. All other bytes of `reply` are unchanged; with another status
 * all of them are.
 *
 * Only SIGVERIFY_HOLDS says that what was asked holds. A caller that tests for another status, or for the words of a
 * reply, can be wrong about statuses and replies to come.
 *
 * No pointer may be NULL, also where its length is 0. No length may be above 2^63 - 1. All memory stays the caller's: the
 * call frees none of it, and keeps no pointer.
 *
 * A reply has at most 128 bytes, unless it is a list of questions, which has at most 2^24, or that of witness or gate, or
 * has an explanation, or shows that SHA-256 is broken.
 *
 * The program that calls also has to see to this:
 *
 * - malloc, realloc and free are those of one allocator, may be called by several threads if the calls are, and give
 *   blocks at addresses that are multiples of 16, or, for smaller blocks, of each power of 2 that divides their size.
 * - The call is not made in a signal handler, nor in the child of a fork of a process that had several threads.
 * - There are 128 KB of stack left.
 *
 * A request has at most 2^24 bytes, and a call takes less than 500 MB of memory for it, and less than 3 seconds.
 */
uint8_t sigverify_reply(uint32_t command, const uint8_t *request, size_t request_len, uint8_t *reply, size_t room,
                        size_t *written);

#ifdef __cplusplus
}
#endif

#endif
