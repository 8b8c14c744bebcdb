/*
 * Stores of the library for C on several threads, for `.ci/clients`:
 *
 *     threads SCRIPT
 *
 * Four threads carry out the script's lines, each on a store of its own, at once. Then two threads carry them out on one
 * store, of which each has every other line: the handle goes from one to the other by a lock. All answers have to be the
 * same, and are printed once. The status is 0, or 1 where something fails.
 */
#define _POSIX_C_SOURCE 200809L

#include "pibroulez.h"

#include <pthread.h>
#include <stdio.h>
#include <stdlib.h>
#include <string.h>
#include <sys/types.h>

enum { STORES = 4, SHARERS = 2, MOST = 65536, ROOM = 2097152 };

static char *lines[MOST];
static size_t lengths[MOST];
static size_t count;

static void check(int is_so, const char *what)
{
    if (!is_so) {
        fprintf(stderr, "threads: %s\n", what);
        exit(1);
    }
}

/* The answers to the lines so far. */
struct answers {
    char *text;
    size_t length;
};

static void carry_out(pibroulez_store *store, size_t at, uint8_t *room, struct answers *answers)
{
    size_t written;
    uint32_t status = pibroulez_call(store, (const uint8_t *)lines[at], lengths[at], room, ROOM, &written);
    check(status == PIBROULEZ_DONE, "a call failed");
    answers->text = realloc(answers->text, answers->length + written + 1);
    check(answers->text != NULL, "memory");
    memcpy(answers->text + answers->length, room, written);
    answers->length += written;
}

static void *alone(void *given)
{
    struct answers *answers = given;
    pibroulez_store store = PIBROULEZ_CLOSED;
    uint8_t *room = malloc(ROOM);
    check(room != NULL && pibroulez_open(&store) == PIBROULEZ_DONE, "a store wasn't opened");
    for (size_t at = 0; at < count; at++)
        carry_out(&store, at, room, answers);
    pibroulez_close(&store);
    free(room);
    return NULL;
}

/* A store that two threads have in turn. */
static struct {
    pthread_mutex_t lock;
    pthread_cond_t turned;
    pibroulez_store store;
    struct answers answers;
    size_t at;
} shared = {PTHREAD_MUTEX_INITIALIZER, PTHREAD_COND_INITIALIZER, PIBROULEZ_CLOSED, {NULL, 0}, 0};

static void *in_turn(void *given)
{
    size_t own = *(size_t *)given;
    uint8_t *room = malloc(ROOM);
    check(room != NULL, "memory");
    pthread_mutex_lock(&shared.lock);
    while (shared.at < count) {
        if (shared.at % SHARERS == own)
            carry_out(&shared.store, shared.at++, room, &shared.answers);
        pthread_cond_broadcast(&shared.turned);
        if (shared.at < count && shared.at % SHARERS != own)
            pthread_cond_wait(&shared.turned, &shared.lock);
    }
    pthread_mutex_unlock(&shared.lock);
    free(room);
    return NULL;
}

static void read_lines(const char *path)
{
    FILE *file = fopen(path, "r");
    size_t capacity = 0;
    ssize_t length;
    check(file != NULL, "the script can't be read");
    while (count < MOST && (length = getline(&lines[count], &capacity, file)) >= 0) {
        lengths[count] = (size_t)length - (length > 0 && lines[count][length - 1] == '\n');
        count++;
        capacity = 0;
    }
    fclose(file);
}

int main(int argc, char **argv)
{
    pthread_t threads[STORES];
    struct answers answers[STORES] = {{NULL, 0}};
    size_t places[SHARERS] = {0, 1};

    check(argc == 2, "a script is wanted");
    read_lines(argv[1]);
    for (int it = 0; it < STORES; it++)
        check(pthread_create(&threads[it], NULL, alone, &answers[it]) == 0, "no thread");
    for (int it = 0; it < STORES; it++)
        pthread_join(threads[it], NULL);
    check(pibroulez_open(&shared.store) == PIBROULEZ_DONE, "a store wasn't opened");
    for (int it = 0; it < SHARERS; it++)
        check(pthread_create(&threads[it], NULL, in_turn, &places[it]) == 0, "no thread");
    for (int it = 0; it < SHARERS; it++)
        pthread_join(threads[it], NULL);
    pibroulez_close(&shared.store);
    for (int it = 0; it < STORES; it++)
        check(answers[it].length == shared.answers.length && !memcmp(answers[it].text, shared.answers.text, shared.answers.length), "other answers");
    fwrite(shared.answers.text, 1, shared.answers.length, stdout);
    return 0;
}
