/* Threads that search with clones of one regex at the same time, make clones of theirs, and free them in any order. Prints nothing where
   all is well. */
#include <pthread.h>
#include <stdio.h>
#include <string.h>

#include "hanneddois.h"

enum { THREADS = 8, TURNS = 200 };

/* The numbers of a haystack in which the automata give up, as Python's re finds them. */
static const uint8_t pattern[] = "\\b[0-9]+\\b";
static const uint8_t haystack[] = "12 x3 \xC3\xA9 456 \xC3\xA9""7 89";
static const size_t spans[3][2] = {{0, 2}, {9, 12}, {17, 19}};

static int is_wrong(hanneddois_regex *regex)
{
    hanneddois_match rows[3];
    hanneddois_error error;
    size_t count;
    if (hanneddois_find_all(regex, haystack, sizeof haystack - 1, rows, 3, &count, &error) != HANNEDDOIS_OK || count != 3)
        return 1;
    for (size_t i = 0; i < 3; i++)
        if (rows[i].start != spans[i][0] || rows[i].end != spans[i][1])
            return 1;
    return 0;
}

/* Each turn frees one clone, and the next one is made of the other. */
static void *search(void *of_thread)
{
    hanneddois_regex *mine = of_thread, other = HANNEDDOIS_EMPTY;
    size_t wrong = 0;
    for (int turn = 0; turn < TURNS; turn++) {
        wrong += hanneddois_clone(mine, &other) != HANNEDDOIS_OK;
        wrong += (size_t)is_wrong(turn % 2 ? mine : &other);
        hanneddois_free(mine);
        *mine = other;
        other = (hanneddois_regex)HANNEDDOIS_EMPTY;
    }
    wrong += (size_t)is_wrong(mine);
    hanneddois_free(mine);
    return (void *)wrong;
}

int main(void)
{
    hanneddois_regex regex = HANNEDDOIS_EMPTY, clones[THREADS] = {HANNEDDOIS_EMPTY};
    hanneddois_options options = {0};
    hanneddois_error error;
    pthread_t threads[THREADS];
    size_t length = sizeof pattern - 1, wrong = 0;
    if (hanneddois_new(&regex, pattern, length, &length, 1, &options, &error) != HANNEDDOIS_OK)
        return 2;
    for (int i = 0; i < THREADS; i++)
        wrong += hanneddois_clone(&regex, &clones[i]) != HANNEDDOIS_OK;
    for (int i = 0; i < THREADS; i++)
        if (pthread_create(&threads[i], NULL, search, &clones[i]) != 0)
            return 2;
    hanneddois_free(&regex);
    for (int i = 0; i < THREADS; i++) {
        void *found;
        pthread_join(threads[i], &found);
        wrong += (size_t)found;
    }
    if (wrong > 0)
        printf("threads: %zu faults\n", wrong);
    return wrong > 0;
}
