/* Document 01's tally through the C interface: compiled, opened, run by table and by text, its rows in one call, and calls that are refused; then every
 * function with NULL and length 0 in the place of each slice that may be empty; then a process that divides. Prints what `expected` holds. */
#include "rabtishu.h"

#include <stdio.h>
#include <string.h>

static const char tally[] =
    "entity tally is port (clk : in std_logic; d : in integer; total : out integer := 0); end tally;\n"
    "architecture a of tally is begin process variable s : integer := 0; begin\n"
    "while s < 10 loop s := s + d; wait until clk = '1'; end loop;\n"
    "total <= s; s := 0; wait until clk = '1';\n"
    "end process; end a;\n";

/* A process without data inputs and outputs: its rows are empty. */
static const char bare[] =
    "entity bare is port (clk : in std_logic); end bare;\n"
    "architecture a of bare is begin process begin wait until clk = '1'; end process; end a;\n";

/* A process that divides: the mean of a sum of seconds, what is left over, and the minutes and seconds of the mean. */
static const char mean[] =
    "entity mean is port (clk : in std_logic; sum, count : in integer; minutes, seconds, over : out integer := 0); end mean;\n"
    "architecture a of mean is begin process variable m : integer := 0; begin\n"
    "m := sum / count; minutes <= m / 60; seconds <= m rem 60; over <= sum mod count; m := m * 60;\n"
    "wait until clk = '1'; end process; end a;\n";

/* Refused are a count of 0, the least integer by -1, and a mean that is no integer times 60. */
static const int32_t means[] = {1000, 3, -1000, 3, 5, 0, INT32_MIN, -1, 1000, -3, INT32_MAX, 2, 59, 60};

static const int32_t rows[] = {7, 7, 1, -5, INT32_MIN, 20};

static const uint8_t *text = (const uint8_t *)tally;
static const size_t length = sizeof tally - 1;

static void told(const char *what, const uint32_t answer[3])
{
    printf("%s: %u %u %u\n", what, answer[0], answer[1], answer[2]);
}

/* Every byte of a buffer is the guard byte. */
static int guarded(const void *bytes, size_t n)
{
    const uint8_t *b = bytes;
    for (size_t k = 0; k < n; k++)
        if (b[k] != 0xa5)
            return 0;
    return 1;
}

static void row_told(int row, const int32_t state[49], int32_t total, const uint32_t answer[3])
{
    if (answer[0])
        printf("%d refused %u\n", row, answer[0]);
    else
        printf("%d %d %u %d\n", row, state[0], answer[2], total);
}

/* The trace of the six rows, by the table where an image is given, else from the text. */
static void trace(const uint8_t *image, size_t n)
{
    int32_t state[49];
    uint32_t answer[3];
    if (image)
        rabtishu_fresh(image, n, state, answer);
    else
        rabtishu_direct_fresh(text, length, state, answer);
    told("fresh", answer);
    printf("place %d output %d variable %d last %d\n", state[0], state[1], state[17], state[48]);
    for (int k = 0; k < 6; k++) {
        int32_t total = 99;
        if (image)
            rabtishu_cycle(image, n, state, &rows[k], 1, &total, 1, answer);
        else
            rabtishu_direct(text, length, state, &rows[k], 1, &total, 1, answer);
        row_told(k, state, total, answer);
    }
}

/* A refused call alters neither state nor row. */
static void refused(const uint8_t *image, size_t n, int32_t place, int32_t slot)
{
    int32_t state[49] = {0}, before[49], row = 99;
    uint32_t answer[3];
    state[0] = place;
    state[48] = slot;
    memcpy(before, state, sizeof state);
    rabtishu_cycle(image, n, state, rows, 1, &row, 1, answer);
    told("table", answer);
    printf("%s\n", memcmp(before, state, sizeof state) || row != 99 ? "altered" : "untouched");
    rabtishu_direct(text, length, state, rows, 1, &row, 1, answer);
    told("text", answer);
    printf("%s\n", memcmp(before, state, sizeof state) || row != 99 ? "altered" : "untouched");
}

/* The first rows in one call, with a guard before and behind the output rows, which are lent as 99, and the answers. The state is the caller's. */
static void many(const char *what, const uint8_t *image, size_t n, int32_t state[49], size_t count, size_t ni, size_t no, size_t na)
{
    int32_t outputs[8], before[49];
    uint32_t answers[20], answer[3];
    int same = 1;
    memset(outputs, 0xa5, sizeof outputs);
    memset(answers, 0xa5, sizeof answers);
    memcpy(before, state, sizeof before);
    for (size_t k = 1; k <= no; k++)
        outputs[k] = 99;
    rabtishu_cycles(image, n, state, count, rows, ni, outputs + 1, no, answers + 1, na, answer);
    told(what, answer);
    if (answer[0] == 0)
        for (size_t k = 0; k < count; k++)
            printf("%zu: %u %u %u output %d\n", k, answers[1 + 3 * k], answers[2 + 3 * k], answers[3 + 3 * k], outputs[1 + k]);
    for (size_t k = 1; k <= no; k++)
        same = same && outputs[k] == 99;
    printf("outputs %s\n", same ? "untouched" : "altered");
    printf("answers %s\n", guarded(answers, sizeof answers) ? "untouched" : "altered");
    printf("state %s: ", memcmp(before, state, sizeof before) ? "altered" : "untouched");
    printf("place %d output %d variable %d\n", state[0], state[1], state[17]);
    same = guarded(outputs, 4) && guarded(outputs + 1 + no, 4) && guarded(answers, 4) && guarded(answers + 1 + na, 4);
    printf("guards %s\n", same ? "untouched" : "altered");
}

/* The six rows in one call, lengths that are not the count's due, no rows, a cut image, and states that are refused row by row. */
static void in_one_call(const uint8_t *image, size_t n)
{
    int32_t state[49];
    uint32_t answer[3];
    rabtishu_fresh(image, n, state, answer);
    many("six rows", image, n, state, 6, 6, 6, 18);
    rabtishu_fresh(image, n, state, answer);
    many("two rows of one value", image, n, state, 2, 1, 2, 6);
    many("six rows with five outputs", image, n, state, 6, 6, 5, 18);
    many("six rows with six answers", image, n, state, 6, 6, 6, 6);
    many("as many rows as can be counted", image, n, state, SIZE_MAX, 6, 6, 18);
    many("no rows", image, n, state, 0, 0, 0, 0);
    many("no rows of a cut image", image, n - 1, state, 0, 0, 0, 0);
    rabtishu_cycles(image, n, state, 0, NULL, 0, NULL, 0, NULL, 0, answer);
    told("no rows without buffers", answer);
    rabtishu_cycles(NULL, 0, state, 0, NULL, 0, NULL, 0, NULL, 0, answer);
    told("no rows without image and buffers", answer);
    rabtishu_cycles(image, n, state, 1, NULL, 0, NULL, 0, NULL, 0, answer);
    told("one row without buffers", answer);
    state[0] = 1;
    many("place 1", image, n, state, 2, 2, 2, 6);
    state[0] = 70000;
    many("place 70000", image, n, state, 2, 2, 2, 6);
}

static void state_told(const int32_t state[49])
{
    printf("%s\n", guarded(state, 49 * sizeof state[0]) ? "untouched" : "altered");
}

/* NULL for the text or the image. */
static void without_bytes(void)
{
    uint8_t image[4];
    int32_t state[49], row = 99;
    uint32_t answer[3];
    memset(image, 0xa5, sizeof image);
    memset(state, 0xa5, sizeof state);
    rabtishu_compile(NULL, 0, image, sizeof image, answer);
    told("compile without text", answer);
    printf("%s\n", guarded(image, sizeof image) ? "untouched" : "altered");
    rabtishu_compile(NULL, 0, NULL, 0, answer);
    told("compile without text and buffer", answer);
    rabtishu_open(NULL, 0, answer);
    told("open without image", answer);
    rabtishu_fresh(NULL, 0, state, answer);
    told("fresh without image", answer);
    state_told(state);
    rabtishu_cycle(NULL, 0, state, rows, 1, &row, 1, answer);
    told("cycle without image", answer);
    rabtishu_cycle(NULL, 0, state, NULL, 0, NULL, 0, answer);
    told("cycle without image and rows", answer);
    state_told(state);
    rabtishu_direct_fresh(NULL, 0, state, answer);
    told("direct fresh without text", answer);
    state_told(state);
    rabtishu_direct(NULL, 0, state, rows, 1, &row, 1, answer);
    told("direct without text", answer);
    rabtishu_direct(NULL, 0, state, NULL, 0, NULL, 0, answer);
    told("direct without text and rows", answer);
    state_told(state);
    printf("row %d\n", row);
    printf("token at 0 without text: %zu\n", rabtishu_token_at(NULL, 0, 0));
    printf("token at 5 without text: %zu\n", rabtishu_token_at(NULL, 0, 5));
}

/* NULL for the buffer, the input row or the output row: too short for tally. */
static void without_room(const uint8_t *image, size_t n)
{
    int32_t state[49], row = 99;
    uint32_t answer[3];
    rabtishu_compile(text, length, NULL, 0, answer);
    told("compile without buffer", answer);
    memset(state, 0xa5, sizeof state);
    rabtishu_cycle(image, n, state, NULL, 0, &row, 1, answer);
    told("cycle without inputs", answer);
    rabtishu_cycle(image, n, state, rows, 1, NULL, 0, answer);
    told("cycle without outputs", answer);
    rabtishu_direct(text, length, state, NULL, 0, &row, 1, answer);
    told("direct without inputs", answer);
    rabtishu_direct(text, length, state, rows, 1, NULL, 0, answer);
    told("direct without outputs", answer);
    state_told(state);
    printf("row %d\n", row);
}

/* NULL for both rows of a process that has neither inputs nor outputs: cycles are performed. */
static void with_empty_rows(void)
{
    const uint8_t *process = (const uint8_t *)bare;
    const size_t n = sizeof bare - 1;
    uint8_t image[64];
    int32_t state[49];
    uint32_t answer[3];
    rabtishu_compile(process, n, image, sizeof image, answer);
    told("bare", answer);
    const size_t size = answer[2];
    rabtishu_fresh(image, size, state, answer);
    told("bare, fresh", answer);
    rabtishu_cycle(image, size, state, NULL, 0, NULL, 0, answer);
    told("bare, cycle", answer);
    printf("place %d\n", state[0]);
    uint32_t answers[9];
    rabtishu_cycles(image, size, state, 3, NULL, 0, NULL, 0, answers, 9, answer);
    told("bare, three rows", answer);
    for (int k = 0; k < 3; k++)
        told("row", answers + 3 * k);
    rabtishu_cycles(image, size, state, SIZE_MAX, NULL, 0, NULL, 0, NULL, 0, answer);
    told("bare, as many rows as can be counted", answer);
    rabtishu_direct_fresh(process, n, state, answer);
    told("bare, direct fresh", answer);
    rabtishu_direct(process, n, state, NULL, 0, NULL, 0, answer);
    told("bare, direct", answer);
    printf("place %d\n", state[0]);
}

/* The row of a process that divides, by the table where an image is given, else from the text. */
static void divided(int k, const uint8_t *image, size_t n, int32_t state[49])
{
    int32_t outputs[3] = {99, 99, 99};
    uint32_t answer[3];
    if (image)
        rabtishu_cycle(image, n, state, means + 2 * k, 2, outputs, 3, answer);
    else
        rabtishu_direct((const uint8_t *)mean, sizeof mean - 1, state, means + 2 * k, 2, outputs, 3, answer);
    printf("%d by %d: %u %u %u", means[2 * k], means[2 * k + 1], answer[0], answer[1], answer[2]);
    printf(" minutes %d seconds %d over %d", outputs[0], outputs[1], outputs[2]);
    printf(" place %d variable %d\n", state[0], state[17]);
}

/* Seven rows that divide, by table, by text and in one call: 16 and 18 with the line of their operator, and nothing else written. */
static void division(void)
{
    uint8_t image[256];
    int32_t state[49], outputs[21];
    uint32_t answer[3], answers[21];
    rabtishu_compile((const uint8_t *)mean, sizeof mean - 1, image, sizeof image, answer);
    told("mean", answer);
    const size_t size = answer[2];
    rabtishu_fresh(image, size, state, answer);
    for (int k = 0; k < 7; k++)
        divided(k, image, size, state);
    rabtishu_direct_fresh((const uint8_t *)mean, sizeof mean - 1, state, answer);
    for (int k = 0; k < 7; k++)
        divided(k, NULL, 0, state);
    rabtishu_fresh(image, size, state, answer);
    for (int k = 0; k < 21; k++)
        outputs[k] = 99;
    rabtishu_cycles(image, size, state, 7, means, 14, outputs, 21, answers, 21, answer);
    told("mean, seven rows", answer);
    for (int k = 0; k < 7; k++) {
        printf("%d: %d %d %d ", k, outputs[3 * k], outputs[3 * k + 1], outputs[3 * k + 2]);
        told("answer", answers + 3 * k);
    }
    printf("place %d variable %d\n", state[0], state[17]);
}

int main(void)
{
    uint8_t image[256];
    int32_t state[49];
    uint32_t answer[3];

    memset(image, 0xa5, sizeof image);
    rabtishu_compile(text, length, image, 133, answer);
    told("133 bytes", answer);
    printf("%s\n", guarded(image, sizeof image) ? "untouched" : "altered");
    rabtishu_compile(text, length, image, 134, answer);
    told("134 bytes", answer);
    printf("%s\n", guarded(image + 134, sizeof image - 134) ? "untouched" : "altered");
    memset(image, 0xa5, sizeof image);
    rabtishu_compile(text, length, image, sizeof image, answer);
    told("256 bytes", answer);
    printf("%s\n", guarded(image + 134, sizeof image - 134) ? "untouched" : "altered");

    rabtishu_open(image, 134, answer);
    told("opened", answer);
    rabtishu_open(image, 133, answer);
    told("cut", answer);

    trace(image, 134);
    trace(NULL, 0);
    in_one_call(image, 134);

    refused(image, 134, 513, 0);
    refused(image, 134, 65536 + 512, 0);
    refused(image, 134, -1, 0);
    refused(image, 134, 512, 1);

    memset(state, 0xa5, sizeof state);
    rabtishu_fresh(image, 133, state, answer);
    told("fresh of a cut image", answer);
    printf("%s\n", guarded(state, sizeof state) ? "untouched" : "altered");
    rabtishu_direct_fresh((const uint8_t *)"entity 5", 8, state, answer);
    told("fresh of a wrong text", answer);
    printf("%s\n", guarded(state, sizeof state) ? "untouched" : "altered");

    printf("token at 0: %zu\n", rabtishu_token_at(text, length, 0));
    printf("token at 1: %zu\n", rabtishu_token_at(text, length, 1));
    printf("token at 7: %zu\n", rabtishu_token_at(text, length, 7));
    printf("token at the end: %zu\n", rabtishu_token_at(text, length, length));

    without_bytes();
    without_room(image, 134);
    with_empty_rows();
    division();
    return 0;
}
