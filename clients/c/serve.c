/*
 * Keeps a store and carries out each line of the standard input on it, as `snap_replay serve` does:
 *
 *     serve <LINES
 *
 * The room for an answer begins with 256 bytes, and grows to what an answer takes. The status is 0, or that of a call
 * that failed.
 */
#define _POSIX_C_SOURCE 200809L

#include "pibroulez.h"

#include <stdio.h>
#include <stdlib.h>
#include <sys/types.h>

/* A room for answers. */
struct room {
    uint8_t *bytes;
    size_t length;
};

static void give_up(const char *why)
{
    perror(why);
    exit(1);
}

static void make_room(struct room *room, size_t length)
{
    uint8_t *bytes = realloc(room->bytes, length);
    if (!bytes)
        give_up("memory");
    *room = (struct room){bytes, length};
}

/* Carries out a line, and leaves its answer in the room. */
static uint32_t answer(pibroulez_store *store, const char *line, size_t length, struct room *room, size_t *written)
{
    uint32_t status = pibroulez_call(store, (const uint8_t *)line, length, room->bytes, room->length, written);
    if (status == PIBROULEZ_NO_ROOM) {
        make_room(room, *written);
        status = pibroulez_answer(store, room->bytes, room->length, written);
    }
    return status;
}

int main(void)
{
    pibroulez_store store = PIBROULEZ_CLOSED;
    struct room room = {NULL, 0};
    char *line = NULL;
    size_t capacity = 0, written;
    ssize_t length;

    make_room(&room, 256);
    uint32_t status = pibroulez_open(&store);
    while (status == PIBROULEZ_DONE && (length = getline(&line, &capacity, stdin)) >= 0) {
        if (length > 0 && line[length - 1] == '\n')
            length--;
        status = answer(&store, line, (size_t)length, &room, &written);
        if (status == PIBROULEZ_DONE)
            fwrite(room.bytes, 1, written, stdout);
    }
    if (status == PIBROULEZ_DONE && !feof(stdin))
        give_up("standard input");
    pibroulez_close(&store);
    free(line);
    free(room.bytes);
    return (int)status;
}
