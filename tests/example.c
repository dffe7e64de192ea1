/* Reads the job in the file named first and prints its rows, eight words a line, then the totals; or its refusal. */
#include "eak_capacity.h"
#include <inttypes.h>
#include <stdio.h>

int main(int count, char **names) {
    static uint8_t job[65536];
    static int64_t rows[1024 * EAK_ROW_WORDS];
    FILE *file = fopen(count == 2 ? names[1] : "", "rb");
    if (!file) return perror("the job's file"), 2;
    size_t bytes = fread(job, 1, sizeof job, file);
    if (fgetc(file) != EOF) return puts("refused 10 0"), 1;
    if (ferror(file)) return perror(names[1]), 2;
    struct eak_run_answer ran = eak_run(job, bytes, rows, sizeof rows / sizeof rows[0]);
    if (!ran.accepted) return printf("refused %" PRIu32 " %zu\n", ran.number, ran.number == 9 ? ran.needed : ran.offset), 1;
    for (size_t i = 0; i < ran.rows * EAK_ROW_WORDS; i++)
        printf("%" PRId64 "%c", rows[i], i % EAK_ROW_WORDS == 7 ? '\n' : ' ');
    printf("rows %zu failed %" PRIu64 " checks %" PRIu64 "\n", ran.rows, ran.failed, ran.checks);
    return 0;
}
