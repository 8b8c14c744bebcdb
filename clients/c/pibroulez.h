/*
 * Pibroulez for C: a store of container snapshots in the caller's own process, kept between calls, or for one script.
 *
 * docs/SCRIPT.md has the commands of a script and their answers. That these are the answers is proved of the library,
 * and not of what calls it: what is written here as a condition is the caller's to keep.
 *
 * Link with libsnap_c.a and with the toolchain's liblibc_c.a, in this order, or as pkg-config says (clients/README.md).
 */
#ifndef PIBROULEZ_H
#define PIBROULEZ_H

#include <stdbool.h>
#include <stddef.h>
#include <stdint.h>

#ifdef __cplusplus
extern "C" {
#endif

/* How a run or a call ended. Up to 5 these are the statuses of `snap_replay run`. */
enum pibroulez_status {
    /* All lines were answered; also no line at all. Of a call: it was done. */
    PIBROULEZ_DONE = 0,
    /* A line is no command: `*line` is its number. The answers are those of the lines before it. */
    PIBROULEZ_BAD_LINE = 2,
    /* Memory for the answers was refused: they are those of the first lines, and the last may be cut. */
    PIBROULEZ_NOT_WRITTEN = 3,
    /* Other memory was refused: the answers are those of the first lines. After a call the handle has no store. */
    PIBROULEZ_OUT_OF_MEMORY = 4,
    /* A command was refused, and `stop` was true: `*line` is its number. The answers are those of the lines before it. */
    PIBROULEZ_REFUSED = 5,
    /* The answers are longer than the room, which is as it was: `*written` is how much they take. */
    PIBROULEZ_NO_ROOM = 6,
    /* The handle has no store: nothing was done. */
    PIBROULEZ_NOT_OPEN = 7,
    /* The handle has a store already: nothing was done. */
    PIBROULEZ_ALREADY_OPEN = 8
};

/*
 * Runs a script from its first line, on a store of its own that is gone at the return.
 *
 *   script, script_length      the bytes of all lines, at most 1,073,741,824
 *   strict                     a field that a command doesn't have is a line's fault; a refused open names its field
 *   stop                       the first refusal ends the run
 *   answers, answers_length    the room. Its front gets the answers, a line each, and the rest is as it was
 *   written                    gets the number of bytes of all answers; no NUL follows them
 *   line                       gets the number of the line that ended the run, counted from 1, else 0
 *
 * The answer is one of `pibroulez_status`.
 *
 * No pointer is null, also where its length is 0. The script, the room and the two numbers don't overlap, and nothing
 * else reads or writes them during the call. It may be made on any number of threads at once. It isn't made in a signal
 * handler, nor in the forked child of a process with threads.
 *
 * Memory is taken by the program's malloc and realloc and given back by its free, which are one allocator's and align
 * blocks as the C standard says. The stack that a run takes is that of `snap_replay run`: at most 512 KiB for full
 * layers, and 4 MiB for the copy-up of a path of 2,000 names.
 */
uint32_t pibroulez_run(const uint8_t *script, size_t script_length, bool strict, bool stop, uint8_t *answers,
                       size_t answers_length, size_t *written, uint64_t *line);

/*
 * A store that is kept between calls, or none. Its fields are the library's alone: a caller sets a handle to
 * PIBROULEZ_CLOSED before the first call, and neither reads, copies nor changes it from then on. What a copy of a handle
 * would be used for, a pointer to it does.
 *
 * A handle is in one call at a time. It may go from one thread to another between two calls, by a lock, by a thread's start
 * or end, or by an atomic whose order is sequentially consistent. Handles of their own may be used at once.
 */
typedef struct pibroulez_store {
    void *at;
    bool stands;
} pibroulez_store;

#define PIBROULEZ_CLOSED {NULL, false}

/*
 * Opens a store, which stands until it is closed: it has answered no line, and its first command is an open, as of
 * `snap_replay serve`.
 *
 *   store      the handle
 *
 * The answer is PIBROULEZ_DONE, PIBROULEZ_OUT_OF_MEMORY or PIBROULEZ_ALREADY_OPEN.
 */
uint32_t pibroulez_open(pibroulez_store *store);

/*
 * Carries out a line as `snap_replay serve` does, and keeps its answer until the next line. A line that is no command, an
 * empty one too, is answered, and changes nothing.
 *
 *   store                    the handle
 *   line, line_length        the bytes of the line, without its line feed
 *   answer, answer_length    the room. Its front gets the answer, which is a line with its line feed
 *   written                  gets the number of bytes of the answer; no NUL follows them
 *
 * The answer is
 *
 *   PIBROULEZ_DONE             the answer is in the room, the rest of which is as it was.
 *   PIBROULEZ_NO_ROOM          the line was carried out all the same. `pibroulez_answer` gives its answer; the same line
 *                              again would be carried out a second time.
 *   PIBROULEZ_OUT_OF_MEMORY    memory was refused in the midst of the line. The store is gone, and the handle may be
 *                              opened anew. `*written` is 0, and the room is as it was.
 *   PIBROULEZ_NOT_OPEN         the handle has no store. `*written` is 0, and the room is as it was.
 *
 * The conditions of `pibroulez_run` on pointers and memory hold of each call, and the handle is apart from the rest, too.
 */
uint32_t pibroulez_call(pibroulez_store *store, const uint8_t *line, size_t line_length, uint8_t *answer,
                        size_t answer_length, size_t *written);

/*
 * Gives the answer of the last line once more, as `pibroulez_call` does; before the first line it is empty. It carries
 * out nothing, and takes no memory. The answer is PIBROULEZ_DONE, PIBROULEZ_NO_ROOM or PIBROULEZ_NOT_OPEN.
 */
uint32_t pibroulez_answer(pibroulez_store *store, uint8_t *answer, size_t answer_length, size_t *written);

/* Lets the store go, and what it has; nothing where the handle has none. The handle may be opened anew. */
void pibroulez_close(pibroulez_store *store);

#ifdef __cplusplus
}
#endif

#endif
