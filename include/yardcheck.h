/*
 * yardcheck: a verified plan checker for weighbridge terminals.
 *
 * One call, no state between calls, no allocation, no global variable: it may be called from any thread, also from several at once.
 * The checker lives on the stack while the call runs (50 KiB in all; docs/BENCHMARKS.md says how that was measured).
 *
 *     unsigned char page[4096];
 *     size_t n = yardcheck_run(text, text_len, page, sizeof page);
 *     fwrite(page, 1, n, stdout);
 *
 * What goes in: a text of lines. Each line is one letter and, behind commas, decimal numbers from 0 to 255 without leading zeros, such
 * as "S,4". Lines end at LF or CR LF; the last one may end with the text. Any bytes are allowed: what is no command is answered as such.
 *
 * What comes out: for each line one row "code,a,b,c" in decimal, ended by CR LF, in the order of the lines. Code 0: the line is
 * accepted. Any other code: the line is refused for that cause, and the checker is as if it had not been told.
 *
 *     line           accepted, a is                    line           accepted, a is
 *     P       C      number of the new task            S,t            number of the new step
 *     N,t,f          label of the need                 O,p,q          0
 *     A,t,f          label of the add                  L,p,i,q,j      0
 *     D,t,f          label of the delete               X,s,m          number of the first new step
 *     E              0, and the next phase             J              count of the plan's steps
 *     M,t            number of the new method          R,s            facts that hold: 2 to the power f, summed
 *     U,j,s,k V,i,s,k K   0
 *
 *     code  cause                                       a, b, c (others are 0)
 *      1    a byte outside 0x20..0x7E, or a quote mark   a: its place in the line, from 0
 *      2    the first field is no letter of a command
 *      3    wrong count of fields                        a: the count, the letter's counted
 *      4    a field is no such number                    a: the first such field; the letter is field 0
 *      5    the letter is not of this phase
 *      6    a number names nothing                       a: the first such field
 *      7    of the wrong kind
 *      8    given already, or taken already
 *      9    the two ends name different facts
 *     10    a limit would be passed
 *     11    a step would be before itself, or linked to itself
 *     12    a method's entry is missing                  a: 0 need, 1 add; b: its label
 *     13    a step before this one is not taken yet      a: that step
 *     14    a step is compound                           a: that step
 *     15    a need has no link                           a: step, b: label
 *     16    a link is threatened                         a: threat, b: producer, c: consumer
 *
 * docs/RULES.md has every rule. A plan whose J line got code 0 can only be carried out soundly, in whatever order the R lines allow:
 * that is proved of this very call, for every text; docs/PROMISES.md says what exactly.
 */
#ifndef YARDCHECK_H
#define YARDCHECK_H

#include <stddef.h>

#ifdef __cplusplus
extern "C" {
#endif

/* No row is longer than this, its CR LF counted. A page of this many bytes for each line has room for every row. */
#define YARDCHECK_ROW_BYTES 28

/*
 * Opens a checker whose plan has 64 step numbers, tells it the lines of the text one after the other, and writes their rows to the page
 * from its first byte on. It ends when no line is left, or when fewer than YARDCHECK_ROW_BYTES bytes of the page are free: then the rest
 * of the text is not told.
 *
 * Returns how many bytes of the page are written. Bytes of the page behind them are as they were. The text is only read.
 *
 * text, page   must not be NULL (also where a length is 0), must not overlap, and must have at least the bytes that the lengths say.
 */
size_t yardcheck_run(const unsigned char *text, size_t text_len, unsigned char *page, size_t page_len);

#ifdef __cplusplus
}
#endif

#endif
