/*
 * Times a search in which a state is left by few bytes, far apart: `a[^..]+\x01;|Z!` over 8 MiB of the letters a to k with a byte of the class
 * at each distance. It prints the set, the distance, and picoseconds a byte, the least processor time of nine rounds.
 *
 *     cc -O2 -I capi -o sets bench/sets.c dist/x86_64-v3-linux/libhanneddois.a -lpthread -ldl -lm && ./sets [--in-turn]
 *
 * With --in-turn, one regex of a set searches all inputs, the densest one first, so that its caches last from one input to the next.
 */
#include <stdio.h>
#include <stdlib.h>
#include <string.h>
#include <time.h>

#include "hanneddois.h"

#define LENGTH ((size_t)8 << 20)
#define ROUNDS 9

/* What is in the class, and how many tables hold the bytes that leave the state. */
static const char *const SETS[][2] = {
    {"\\x01\\x34", "ranges"},
    {"\\x01\\x12\\x23\\x34\\x45", "two tables"},
    {"\\x01\\x12\\x23\\x34\\x45\\x56\\x5b\\x7c\\x89\\x9a\\xab\\xbc\\xcd", "three tables"},
};
static const size_t DISTANCES[] = {22, 60, 200, 4000};

static double time_of(void)
{
    struct timespec now;
    clock_gettime(CLOCK_PROCESS_CPUTIME_ID, &now);
    return (double)now.tv_sec * 1e12 + (double)now.tv_nsec * 1e3;
}

static void fill(unsigned char *haystack, size_t distance)
{
    unsigned state = 1;
    for (size_t i = 0; i < LENGTH; i++) {
        state = state * 1103515245 + 12345;
        haystack[i] = i % distance == distance - 1 ? '4' : (unsigned char)("abcdefhijk"[(state >> 16) % 10]);
    }
}

/* The least time of a search for all matches, of which there are none. */
static double search(hanneddois_regex *regex, const unsigned char *haystack)
{
    double least = 1e30;
    for (int round = 0; round < ROUNDS; round++) {
        size_t count = 0;
        hanneddois_error error;
        double begun = time_of();
        if (hanneddois_find_all(regex, haystack, LENGTH, NULL, 0, &count, &error) != HANNEDDOIS_NONE)
            exit(1);
        double taken = time_of() - begun;
        least = taken < least ? taken : least;
    }
    return least;
}

/* Makes the regex of a set, in place of the one that is there. */
static int make(hanneddois_regex *regex, const char *bytes)
{
    char pattern[200];
    hanneddois_options options = {0};
    hanneddois_error error;
    size_t length = (size_t)snprintf(pattern, sizeof pattern, "(?-u:a[^%s]+\\x01;|Z!)", bytes);
    hanneddois_free(regex);
    return hanneddois_new(regex, (const uint8_t *)pattern, length, &length, 1, &options, &error) == HANNEDDOIS_OK;
}

int main(int argc, char **argv)
{
    int in_turn = argc > 1 && strcmp(argv[1], "--in-turn") == 0;
    unsigned char *haystack = malloc(LENGTH);
    hanneddois_regex regex = HANNEDDOIS_EMPTY;
    for (size_t set = 0; haystack && set < sizeof SETS / sizeof *SETS; set++) {
        for (size_t i = 0; i < sizeof DISTANCES / sizeof *DISTANCES; i++) {
            if ((i == 0 || !in_turn) && !make(&regex, SETS[set][0]))
                return 1;
            fill(haystack, DISTANCES[i]);
            printf("%-12s %4zu %6.0f\n", SETS[set][1], DISTANCES[i], search(&regex, haystack) / (double)LENGTH);
        }
    }
    hanneddois_free(&regex);
    free(haystack);
    return 0;
}
