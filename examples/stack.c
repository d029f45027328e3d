/*
 * How much stack the call uses: on a thread whose stack is filled with one byte first, the lowest byte that differs afterwards.
 *
 *     cc -pthread -Iinclude examples/stack.c crates/terminal/out/libterminal.a -o stack && ./stack crates/yardcheck/stdin
 *
 * Exits with 0 only if it is no more than include/yardcheck.h says.
 */
#define _POSIX_C_SOURCE 200809L
#include <pthread.h>
#include <stdio.h>
#include <stdlib.h>
#include <string.h>

#include "yardcheck.h"

/* What the header says, in bytes. */
#define SAID (50 * 1024)
#define STACK (1024 * 1024)
#define FILL 0x5C

static unsigned char text[16384], page[28 * 16384];
static size_t text_len;
static unsigned char *top;

static void *call(void *unused)
{
    unsigned char here = 0;

    (void)unused;
    top = &here;
    yardcheck_run(text, text_len, page, sizeof page);
    return NULL;
}

int main(int argc, char **argv)
{
    void *memory = NULL;
    unsigned char *low;
    FILE *file = argc == 2 ? fopen(argv[1], "rb") : NULL;
    pthread_attr_t attr;
    pthread_t thread;
    size_t used;

    if (file == NULL || posix_memalign(&memory, 65536, STACK) != 0)
        return 2;
    text_len = fread(text, 1, sizeof text, file);
    memset(memory, FILL, STACK);
    if (pthread_attr_init(&attr) != 0 || pthread_attr_setstack(&attr, memory, STACK) != 0)
        return 2;
    if (pthread_create(&thread, &attr, call, NULL) != 0 || pthread_join(thread, NULL) != 0)
        return 2;
    low = memory;
    while (*low == FILL)
        low++;
    used = (size_t)(top - low);
    printf("%s: the call uses %lu bytes of stack, and the header says %d\n", used <= SAID ? "as expected" : "WRONG", (unsigned long)used, SAID);
    return used > SAID;
}
