/* Prints the places of all matches of a pattern in standard input: ./find PATTERN < FILE */
#include <stdio.h>
#include <stdlib.h>
#include <string.h>

#include "hanneddois.h"

static int tell(const char *pattern, const hanneddois_error *error)
{
    uint8_t words[256];
    size_t length = hanneddois_error_text(error, words, sizeof words);
    if (length > sizeof words)
        length = sizeof words;
    fprintf(stderr, "find: %.*s\n", (int)length, (const char *)words);
    if (error->status == HANNEDDOIS_SYNTAX_ERROR)
        fprintf(stderr, "    %s\n    %*s^\n", pattern, (int)error->start, "");
    return 2;
}

int main(int argc, char **argv)
{
    if (argc != 2) {
        fputs("usage: find PATTERN < FILE\n", stderr);
        return 2;
    }
    hanneddois_regex regex = HANNEDDOIS_EMPTY;
    hanneddois_options options = {0};
    hanneddois_error error;
    size_t length = strlen(argv[1]);
    if (hanneddois_new(&regex, (const uint8_t *)argv[1], length, &length, 1, &options, &error) != HANNEDDOIS_OK)
        return tell(argv[1], &error);

    static uint8_t haystack[1 << 20];
    size_t read = fread(haystack, 1, sizeof haystack, stdin);
    static hanneddois_match matches[1000];
    size_t count;
    hanneddois_status status = hanneddois_find_all(&regex, haystack, read, matches, 1000, &count, &error);
    for (size_t i = 0; i < count && i < 1000; i++)
        printf("%zu %zu\n", matches[i].start, matches[i].end);
    if (status != HANNEDDOIS_OK && status != HANNEDDOIS_NONE)
        return tell(argv[1], &error);
    hanneddois_free(&regex);
    return count > 0 ? 0 : 1;
}
