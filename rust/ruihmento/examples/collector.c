/*
 * A small collector: lists a routine's variables, puts samples where they
 * belong, runs the routine and prints what it left.
 */
#include <stdio.h>
#include <string.h>

#include "ruihmento.h"

/* The 32-bit little-endian number with this index. */
static uint32_t number(const uint8_t *bytes, size_t index)
{
    const uint8_t *at = bytes + 4 * index;
    return at[0] | (uint32_t)at[1] << 8 | (uint32_t)at[2] << 16 | (uint32_t)at[3] << 24;
}

static void print_answer(const uint8_t *answer)
{
    printf("%u %u %u %u\n", (unsigned)number(answer, 0), (unsigned)number(answer, 1),
           (unsigned)number(answer, 2), (unsigned)number(answer, 3));
}

/* Runs a routine over floats, and prints what it left; 0 where its variable is a float and it ends. */
static int amplitudes(void)
{
    const char *routine = "float block[2] v; if (v < 0.0) v = -v; else ;";
    const uint8_t *text = (const uint8_t *)routine;
    float levels[2] = {-1.5f, 0.25f};
    uint8_t answer[RUIHMENTO_RECORD_BYTES];
    uint8_t record[RUIHMENTO_RECORD_BYTES];
    uint8_t memory[sizeof levels];

    ruihmento_variables(text, strlen(routine), record, sizeof record, answer, sizeof answer);
    if (number(answer, 2) != sizeof memory || number(record, 1) != RUIHMENTO_FLOAT)
        return 1;
    /* A lane is a float as this processor has it. */
    memcpy(memory, levels, sizeof memory);
    ruihmento_run(text, strlen(routine), memory, sizeof memory, 1000, answer, sizeof answer);
    if (number(answer, 0) != 0)
        return 1;
    memcpy(levels, memory, sizeof memory);
    printf("%g %g\n", levels[0], levels[1]);
    return 0;
}

int main(void)
{
    const char *routine =
        "bool block[4] ok; int block[4] s; int block[4] t = 10; "
        "if (ok) { if (s < t) s = s + t; else s = s - t; } else ;";
    const uint8_t *text = (const uint8_t *)routine;
    const size_t text_len = strlen(routine);
    const uint8_t flags[4] = {1, 0, 1, 0};
    const uint8_t samples[16] = {4, 0, 0, 0, 7, 0, 0, 0, 25, 0, 0, 0, 90, 0, 0, 0};
    uint8_t answer[RUIHMENTO_RECORD_BYTES];
    uint8_t table[3 * RUIHMENTO_RECORD_BYTES];
    uint8_t memory[48];

    ruihmento_variables(text, text_len, table, sizeof table, answer, sizeof answer);
    print_answer(answer);
    if (number(answer, 0) != 0 || number(answer, 2) > sizeof memory)
        return 1;

    memset(memory, 0xaa, sizeof memory);
    memcpy(memory + number(table, 3), flags, sizeof flags);
    memcpy(memory + number(table, 7), samples, sizeof samples);

    ruihmento_run(text, text_len, memory, sizeof memory, 1000, answer, sizeof answer);
    print_answer(answer);
    for (size_t at = 0; at < sizeof memory; at++)
        printf("%02x%s", memory[at], at % 16 == 15 ? "\n" : "");

    ruihmento_judge((const uint8_t *)"int x", 5, answer, sizeof answer);
    print_answer(answer);
    if (ruihmento_judge(text, text_len, answer, 15) != 0)
        return 1;
    return amplitudes();
}
