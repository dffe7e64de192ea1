/* The stack that the calls take: runs each call on the jobs in the files named, on a painted stack, and prints the most bytes that
 * each wrote below its caller, 128 at least. A first call of each is not counted: there the loader finds memset, on the same stack.
 * The exit status is 0 only if all stay below EAK_STACK_BYTES. Link with -pthread. */
#define _GNU_SOURCE
#include "eak_capacity.h"
#include <pthread.h>
#include <stdio.h>
#include <string.h>

enum { STACK = 1 << 20, PAINT = 0xA5, MARGIN = 128 };

static _Alignas(4096) uint8_t stack[STACK];
static uint8_t job[1 << 20];
static int64_t rows[8192 * EAK_ROW_WORDS];
static uint8_t written[EAK_BLOCK_BYTES(64)];
static uint32_t sets[64 * EAK_SET_WORDS];
static uint8_t printed[EAK_PAGE_BYTES(1024)];
static size_t bytes, kept;

static void size(void) { kept += eak_size(job, bytes).rows; }
static void fault(void) { kept += eak_fault(job, bytes).number; }
static void run(void) { kept += eak_run(job, bytes, rows, sizeof rows / sizeof rows[0]).rows; }
static void page(void) { kept += eak_page(rows, sizeof rows / sizeof rows[0], 1024, printed, sizeof printed).bytes; }
static void take_down(void) { kept += eak_take_down(0, 0.7f).value; }
static void version(void) { kept += eak_version(); }
static void write_block(void) { kept += eak_write_block(64, sets, sizeof sets / sizeof sets[0], written, sizeof written).bytes; }
static void write_building(void) { kept += eak_write_building(written, sizeof written).bytes; }
static void write_end(void) { kept += eak_write_end(written, sizeof written).bytes; }

/* The call that writes a command, with values in range. */
#define WRITES(command, ...)                                                  \
    static void write_##command(void) {                                       \
        struct eak_##command values = {__VA_ARGS__};                          \
        kept += eak_write_##command(values, written, sizeof written).bytes;   \
    }
WRITES(settings, 350, 140, 120)
WRITES(joint, 255, 1, 2, 3)
WRITES(column, 3000, 1, 2, 3, 4, 5, 6)
WRITES(beam, 6000, 1, 2, 3, 4, -5, 6, 7)
WRITES(hingeless, 3000, 255, 0, 1, 2, -3, 4)
WRITES(wall_base, 4000, 250, 1, 2, 3, 4)
WRITES(storey, 1, 2, 3, 4, 5, 6)
WRITES(soil, 1, 80.0f, 1)
WRITES(footing, 2000, 3000, 1, 2, -3, 4, -5, 6, -7, 8, -9, 10, 11, 12, 3)
WRITES(detail, 2, 131, 250, 1000, 1)
WRITES(basement, 0, 255, -1, 2, -3, 4, 5, 6)

static const struct {
    const char *name;
    void (*call)(void);
} calls[] = {
    {"eak_size", size},
    {"eak_fault", fault},
    {"eak_run", run},
    {"eak_page", page},
    {"eak_take_down", take_down},
    {"eak_version", version},
    {"eak_write_settings", write_settings},
    {"eak_write_joint", write_joint},
    {"eak_write_column", write_column},
    {"eak_write_beam", write_beam},
    {"eak_write_hingeless", write_hingeless},
    {"eak_write_wall_base", write_wall_base},
    {"eak_write_storey", write_storey},
    {"eak_write_soil", write_soil},
    {"eak_write_footing", write_footing},
    {"eak_write_detail", write_detail},
    {"eak_write_basement", write_basement},
    {"eak_write_block", write_block},
    {"eak_write_building", write_building},
    {"eak_write_end", write_end},
};
enum { CALLS = sizeof calls / sizeof calls[0] };
static size_t most[CALLS];

/* The bytes between this function's frame and the lowest byte that the call changed. The margin is this function's own. */
static __attribute__((noinline)) size_t taken(void (*call)(void)) {
    volatile uint8_t *top = (uint8_t *)__builtin_frame_address(0) - MARGIN;
    for (volatile uint8_t *at = stack; at < top; at++) *at = PAINT;
    call();
    volatile uint8_t *low = stack;
    while (low < top && *low == PAINT) low++;
    return (size_t)(top - low) + MARGIN;
}

static void *measure(void *unused) {
    for (size_t i = 0; i < CALLS; i++) {
        calls[i].call();
        size_t now = taken(calls[i].call);
        if (now > most[i]) most[i] = now;
    }
    return unused;
}

int main(int count, char **names) {
    pthread_attr_t attributes;
    pthread_t thread;
    for (size_t i = 0; i < sizeof sets / sizeof sets[0]; i++) sets[i] = 1; /* in range: J and J0 are 1 */
    for (int i = 1; i < count; i++) {
        FILE *file = fopen(names[i], "rb");
        if (!file) return perror(names[i]), 2;
        bytes = fread(job, 1, sizeof job, file);
        fclose(file);
        if (pthread_attr_init(&attributes) || pthread_attr_setstack(&attributes, stack, STACK) ||
            pthread_create(&thread, &attributes, measure, NULL) || pthread_join(thread, NULL))
            return fputs("no thread\n", stderr), 2;
    }
    size_t above = 0;
    for (size_t i = 0; i < CALLS; i++) {
        printf("%s %zu\n", calls[i].name, most[i]);
        above += most[i] >= EAK_STACK_BYTES;
    }
    return above || count < 2 || !kept;
}
