/*
 * Ruihmento: a proved judge and runner for lane routines.
 *
 * Link with the archive libruihmento.a, which `./archive` makes.
 * It needs nothing but memcpy and memset.
 *
 * What holds of every function here:
 *
 *  - A slice is passed as a pointer and the number of its bytes. Any number
 *    of bytes will do; the pointer of a slice of 0 bytes is never followed,
 *    but must not be NULL.
 *  - The slices of one call must not overlap. The text is never written, and
 *    nothing is kept when the call returns.
 *  - An answer is four 32-bit little-endian numbers, 16 bytes. It goes into
 *    the first 16 bytes of the answer slice, whose later bytes stay, and the
 *    call returns 1. Where the answer slice is shorter than 16 bytes the call
 *    returns 0, and nothing else happens. (ruihmento_run_each writes many
 *    answers, and returns how many.)
 *  - Nothing is allocated, and a call uses less than 256 KiB of stack,
 *    whatever the text (measured by a test, not proved). Calls on different
 *    slices may be made from several threads.
 *
 * The four numbers are code, place, need and steps:
 *
 *   code   given when                                        place
 *    0     accepted, or the run ended                        0
 *    1     text above 4,096 bytes                            0
 *    2     byte outside the text rules, name too long,       token start
 *          bad number, bad constant of a float
 *    3     token not allowed, or text ends too soon          token, or text length
 *    4     nesting above 32                                  token
 *    5     unknown name                                      name
 *    6     name already open                                 name
 *    7     block length not 1, 2, 4, 8, 16, 32 or 64         that number
 *    8     wrong kind                                        operator, =, if or while
 *    9     wrong length                                      operator, = or name
 *   10     length-1 target where the context is longer       =
 *   11     65th declaration                                  name
 *   12     memory shorter than need                          0
 *   13     budget spent with a step still due                first token of its statement
 *
 * A place is a byte offset in the text. Need is how many bytes of memory the
 * text needs, at most 16,384, and 0 with codes 1 to 11. Steps is how many
 * steps were taken.
 */
#ifndef RUIHMENTO_H
#define RUIHMENTO_H

#include <stddef.h>
#include <stdint.h>

#ifdef __cplusplus
extern "C" {
#endif

/* The bytes of an answer, and of one record of the table of variables. */
#define RUIHMENTO_RECORD_BYTES 16

/* The most declarations of a text: a table of so many records holds them all. */
#define RUIHMENTO_MOST_DECLARATIONS 64

/* The kinds in a record of the table of variables. */
#define RUIHMENTO_INT 0
#define RUIHMENTO_BOOL 1
#define RUIHMENTO_FLOAT 2

/*
 * Judges a text: codes 0 to 11, steps 0.
 */
uint32_t ruihmento_judge(const uint8_t *text, size_t text_len,
                         uint8_t *answer, size_t answer_len);

/*
 * Judges a text, then runs it over the memory for at most `budget` steps.
 *
 * With codes 1 to 12 no byte of the memory changes and steps is 0. With code
 * 13 steps is the budget, and the memory is as after exactly those steps.
 * Bytes outside the text's variables never change.
 */
uint32_t ruihmento_run(const uint8_t *text, size_t text_len,
                       uint8_t *memory, size_t memory_len,
                       uint32_t budget,
                       uint8_t *answer, size_t answer_len);

/*
 * Judges a text once, then runs it over each of many images, each as
 * ruihmento_run would over that image alone; returns how many were run.
 *
 *   text      the program's text
 *   images    the memories side by side: image k is the bytes from k * size
 *             to (k + 1) * size
 *   size      the bytes of one image; where they are fewer than an accepted
 *             text needs, each image is answered code 12
 *   budget    the most steps of each image; none takes from another's
 *   answers   takes the answer of image k into the 16 bytes from 16 * k on
 *
 * As many images are run as stand whole in `images` and have room for their
 * answer in `answers`; none where `size` is 0. Every other byte of both stays.
 * Where none is run 0 is returned, of a refused text as of an accepted one: ask
 * ruihmento_judge. A text that needs no memory wants a `size` of 1 or more too.
 * A text that is refused gives each image its refusal, and changes no byte of
 * `images`. What one image holds, and how it ends, is nothing to another.
 */
size_t ruihmento_run_each(const uint8_t *text, size_t text_len,
                          uint8_t *images, size_t images_len,
                          size_t size,
                          uint32_t budget,
                          uint8_t *answers, size_t answers_len);

/*
 * Judges a text and lists where its variables lie in memory.
 *
 * Code, place and need are those of ruihmento_judge; the fourth number is how
 * many declarations the text has, 0 for a text that is refused. For an
 * accepted text the table takes one record of 16 bytes for each declaration
 * in text order, as many as fit whole: the place of its name, its kind
 * (0 int, 1 bool, 2 float), its length in lanes and its address, each a 32-bit
 * little-endian number. Every other byte of the table stays, and all of it
 * where the text is refused.
 *
 * A lane of an int is 4 bytes, little-endian two's complement; a lane of a
 * bool is one byte, false exactly at 0; a lane of a float is 4 bytes, an IEEE
 * single little-endian, and every not-a-number that a run stores is 7FC00000.
 * The lanes of a block lie side by side.
 */
uint32_t ruihmento_variables(const uint8_t *text, size_t text_len,
                             uint8_t *table, size_t table_len,
                             uint8_t *answer, size_t answer_len);

#ifdef __cplusplus
}
#endif

#endif
