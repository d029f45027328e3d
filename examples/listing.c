/*
 * A terminal in C: runs a whole truck's visit through the checker and compares the rows with those that the rules give.
 *
 *     cc -Iinclude examples/listing.c crates/terminal/out/libterminal.a -o listing && ./listing
 *
 * `rt lib` in crates/terminal makes the library. Exits with 0 only if every row is as expected.
 */
#include <stdio.h>
#include <string.h>

#include "yardcheck.h"

/* Tasks 2 "weigh empty" and 3 "weigh full", and the compound task 4 "serve truck" with its method; then a plan with one step of it,
   which is decomposed, judged and taken. */
static const char visit[] =
    "P\r\nP\r\nC\r\n"
    "A,0,0\r\nN,1,2\r\nN,2,0\r\nA,2,1\r\nN,3,1\r\nA,3,2\r\nN,4,0\r\nA,4,2\r\nE\r\n"
    "M,4\r\nS,2\r\nS,3\r\nL,0,0,1,0\r\nU,0,0,0\r\nV,0,1,0\r\nK\r\nE\r\n"
    "S,4\r\nL,0,0,2,0\r\nL,2,0,1,0\r\nE\r\n"
    "X,2,0\r\nJ\r\nR,0\r\nR,3\r\nR,4\r\nR,1";

static const char rows[] =
    "0,2,0,0\r\n0,3,0,0\r\n0,4,0,0\r\n"
    "0,0,0,0\r\n0,0,0,0\r\n0,0,0,0\r\n0,0,0,0\r\n0,0,0,0\r\n0,0,0,0\r\n0,0,0,0\r\n0,0,0,0\r\n0,0,0,0\r\n"
    "0,0,0,0\r\n0,0,0,0\r\n0,1,0,0\r\n0,0,0,0\r\n0,0,0,0\r\n0,0,0,0\r\n0,0,0,0\r\n0,0,0,0\r\n"
    "0,2,0,0\r\n0,0,0,0\r\n0,0,0,0\r\n0,0,0,0\r\n"
    "0,3,0,0\r\n0,4,0,0\r\n0,1,0,0\r\n0,3,0,0\r\n0,7,0,0\r\n0,7,0,0\r\n";

/* Runs the visit onto a page of this size, which is filled with a pattern, and says whether the page is as it should be: the first
   `told` rows, and then the pattern. */
static int is_run(size_t size, size_t told)
{
    unsigned char page[1024];
    size_t written, expected = 0, i;

    for (i = 0; i < told; i++)
        expected = (size_t)(strchr(rows + expected, '\n') - rows) + 1;
    memset(page, 0xA5, sizeof page);
    written = yardcheck_run((const unsigned char *)visit, sizeof visit - 1, page, size);
    if (written != expected || memcmp(page, rows, expected) != 0)
        return 0;
    for (i = written; i < sizeof page; i++)
        if (page[i] != 0xA5)
            return 0;
    return 1;
}

int main(void)
{
    static const struct {
        size_t size, told;
        const char *what;
    } runs[] = {
        {1024, 30, "a large page has a row for each line"},
        {0, 0, "an empty page has none"},
        {27, 0, "a page of 27 bytes has none"},
        {28, 1, "a page of 28 bytes has one"},
        {36, 1, "and one of 36 bytes, with 27 free behind the first row"},
        {37, 2, "a page of 37 bytes has two"},
        {289, 30, "a page of 289 bytes has all thirty: 28 are free before the last"},
        {288, 29, "a page of 288 bytes lacks the last"},
    };
    size_t i;
    int failed = 0;

    for (i = 0; i < sizeof runs / sizeof *runs; i++) {
        int ok = is_run(runs[i].size, runs[i].told);
        printf("%s: %s\n", ok ? "as expected" : "WRONG", runs[i].what);
        failed |= !ok;
    }
    return failed;
}
