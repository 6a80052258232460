/* Recipe pages and plain forms from Cooklang event sheets.
 *
 * Link with target/staticlib/librecipe.a (made by `tools/build.py recipe`; x86-64). The library allocates nothing, keeps
 * nothing between calls, calls nothing but memcpy, memmove and memset, and may be used from several threads at once as
 * long as each lends its own memory. No input makes it read or write outside what is lent, loop for ever or stop the
 * program: this is proved of its source, as is what is said below of answers and of what is left in memory.
 *
 * A slice is a pointer and a length. A pointer must not be null, also where its length is 0, and must be aligned for
 * its type. What is written to (words, bytes, out) must overlap nothing else that is lent.
 *
 * Fields of sheets, pages and plain forms spell tab, LF, CR and backslash by escapes: \t, \n, \r and \\.
 */
#ifndef RECIPE_H
#define RECIPE_H

#include <stddef.h>
#include <stdint.h>

#ifdef __cplusplus
extern "C" {
#endif

/* How many words and bytes of work memory a call needs. They never change from call to call. */
size_t recipe_words(void);
size_t recipe_bytes(void);

/* Collects a recipe: reads an event sheet, the text that it was made from, a unit list and the flags (1 modes, 2 inline
 * quantities, 4 advanced units, added), and writes the recipe page to the front of `out`.
 *
 * The answer holds a number in its upper 32 bits. 0: the page was written, and the lower 32 bits are its length in bytes.
 * Else the input was refused by that number (docs/FINDINGS.md says what each means), and the lower 32 bits are the line
 * of the sheet, from 1, or 0 where no line is at fault. 1 is also the answer where work memory is too short, and 20 where
 * the page is longer than `out`. Of an `out` of 4,294,967,296 bytes or more the first 4,294,967,295 are used.
 *
 * Afterwards `words`, `bytes` and all of `out` past the page are zero; after a refusal all of `out` is.
 * What the memory held before does not matter.
 */
uint64_t recipe_collect(const uint8_t *sheet, size_t sheet_length,
                        const uint8_t *text, size_t text_length,
                        const uint8_t *units, size_t units_length,
                        uint32_t flags,
                        uint32_t *words, size_t words_length,
                        uint8_t *bytes, size_t bytes_length,
                        uint8_t *out, size_t out_length);

/* The plain form: the bytes of a sheet without modes and implicit references that yields the same recipe, written to the
 * front of `out`. Collected with the same text, units and flags it is accepted, its page is the sheet's in all bytes above
 * the findings, and its own plain form is itself. What is lent, the answer and what is left are as for recipe_collect.
 *
 * Beside the refusals 1 to 20: 21 the sheet has an `error` line (the first is told); 22 a component in a step in components
 * mode; 23 an implicit reference that is not to the last component of its name without a reference mark; 24 the form is
 * longer than 65,536 bytes, or passes a limit when it is collected. 21 to 24 come before 20.
 */
uint64_t recipe_plain_form(const uint8_t *sheet, size_t sheet_length,
                           const uint8_t *text, size_t text_length,
                           const uint8_t *units, size_t units_length,
                           uint32_t flags,
                           uint32_t *words, size_t words_length,
                           uint8_t *bytes, size_t bytes_length,
                           uint8_t *out, size_t out_length);

/* The two halves of an answer. */
static inline uint32_t recipe_number(uint64_t answer) { return (uint32_t)(answer >> 32); }
static inline uint32_t recipe_value(uint64_t answer) { return (uint32_t)answer; }

#ifdef __cplusplus
}
#endif

#endif
