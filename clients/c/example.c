/*
 * Runs a script and prints its answers, as `snap_replay run` does:
 *
 *     example [--strict] [--stop] SCRIPT
 *
 * The room for the answers begins with 4096 bytes, and grows to what they take.
 */
#include "pibroulez.h"

#include <stdio.h>
#include <stdlib.h>
#include <string.h>

static void give_up(const char *why)
{
    perror(why);
    exit(1);
}

/* A number of bytes, and a pointer that isn't null where there are none. */
static uint8_t *memory(size_t length)
{
    uint8_t *found = malloc(length ? length : 1);
    if (!found)
        give_up("memory");
    return found;
}

static uint8_t *read_all(const char *path, size_t *length)
{
    FILE *file = fopen(path, "rb");
    long size;
    if (!file || fseek(file, 0, SEEK_END) || (size = ftell(file)) < 0)
        give_up(path);
    rewind(file);
    *length = (size_t)size;
    uint8_t *bytes = memory(*length);
    if (fread(bytes, 1, *length, file) != *length)
        give_up(path);
    fclose(file);
    return bytes;
}

int main(int count, char **words)
{
    bool strict = false, stop = false;
    const char *path = NULL;
    for (int at = 1; at < count; at++) {
        if (!strcmp(words[at], "--strict"))
            strict = true;
        else if (!strcmp(words[at], "--stop"))
            stop = true;
        else
            path = words[at];
    }
    if (!path) {
        fprintf(stderr, "example [--strict] [--stop] SCRIPT\n");
        return 1;
    }

    size_t length, room = 4096, written;
    uint64_t line;
    uint8_t *script = read_all(path, &length), *answers = memory(room);
    uint32_t status = pibroulez_run(script, length, strict, stop, answers, room, &written, &line);
    if (status == PIBROULEZ_NO_ROOM) {
        free(answers);
        answers = memory(room = written);
        status = pibroulez_run(script, length, strict, stop, answers, room, &written, &line);
    }

    fwrite(answers, 1, written, stdout);
    if (line)
        fprintf(stderr, "line %llu\n", (unsigned long long)line);
    free(answers);
    free(script);
    return (int)status;
}
