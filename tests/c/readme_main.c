/* Runs the README's example. */
#include <stddef.h>
#include <stdio.h>
#include <string.h>

int first_alteration(const char *line, size_t length);

static int is(const char *line, int expected) {
    int got = first_alteration(line, strlen(line));
    if (got != expected)
        printf("readme: %s gives %d, not %d\n", line, got, expected);
    return got == expected;
}

int main(void) {
    return is("xC/C", 1) && is("C", 0) && is("$bB 'bbB", -2) && is("", -99) ? 0 : 1;
}
