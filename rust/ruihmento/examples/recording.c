/*
 * A recording: three blocks of samples side by side, run in one call that
 * judges the text once.
 */
#include <stdio.h>
#include <string.h>

#include "ruihmento.h"

enum { BLOCKS = 3, IMAGE = 12, REST = 2 };

/* The 32-bit little-endian number with this index. */
static uint32_t number(const uint8_t *bytes, size_t index)
{
    const uint8_t *at = bytes + 4 * index;
    return at[0] | (uint32_t)at[1] << 8 | (uint32_t)at[2] << 16 | (uint32_t)at[3] << 24;
}

/* Runs a text over each image, and prints each answer with its image. */
static size_t run(const char *text, uint8_t *images, size_t images_len, uint32_t budget)
{
    uint8_t answers[BLOCKS * RUIHMENTO_RECORD_BYTES];
    size_t count = ruihmento_run_each((const uint8_t *)text, strlen(text), images, images_len,
                                      IMAGE, budget, answers, sizeof answers);
    for (size_t k = 0; k < count; k++) {
        const uint8_t *answer = answers + k * RUIHMENTO_RECORD_BYTES;
        const uint8_t *image = images + k * IMAGE;
        printf("%u %u %u %u:", (unsigned)number(answer, 0), (unsigned)number(answer, 1),
               (unsigned)number(answer, 2), (unsigned)number(answer, 3));
        for (size_t at = 0; at < IMAGE; at++)
            printf(" %02x", image[at]);
        printf("\n");
    }
    return count;
}

int main(void)
{
    /* Each image has a flag, three unused bytes, a sample and a count. */
    const char *routine =
        "bool ok; int s; int n = 0; "
        "if (ok) while (0 < s) { s = s - 1; n = n + 1; } else ;";
    uint8_t images[BLOCKS * IMAGE + REST] = {
        1, 0xaa, 0xaa, 0xaa, 2, 0, 0, 0, 0xaa, 0xaa, 0xaa, 0xaa,
        0, 0xaa, 0xaa, 0xaa, 2, 0, 0, 0, 0xaa, 0xaa, 0xaa, 0xaa,
        1, 0xaa, 0xaa, 0xaa, 9, 0, 0, 0, 0xaa, 0xaa, 0xaa, 0xaa,
        0xee, 0xee,
    };

    /* The third block spends its budget; the two bytes behind it are no image and stay. */
    if (run(routine, images, sizeof images, 20) != BLOCKS)
        return 1;
    if (images[BLOCKS * IMAGE] != 0xee || images[BLOCKS * IMAGE + 1] != 0xee)
        return 1;

    /* A text that is refused gives each image its refusal, and changes no byte. */
    if (run("bool ok; int s", images, 2 * IMAGE, 20) != 2)
        return 1;

    /* Where there is no room for an answer, no image is run. */
    uint8_t answers[RUIHMENTO_RECORD_BYTES - 1];
    size_t count = ruihmento_run_each((const uint8_t *)";", 1, images, sizeof images, IMAGE, 20,
                                      answers, sizeof answers);
    return count == 0 ? 0 : 1;
}
