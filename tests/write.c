/* Writes a job from records, a call a command, runs it and prints its rows and totals; or what is refused. With an argument it also
 * writes the job to the file named. eak_capacity.h has the units and ranges of the values. */
#include "eak_capacity.h"
#include <inttypes.h>
#include <stdio.h>
#include <stdlib.h>

/* q, gj, gf */
static const struct eak_settings settings = {350, 140, 120};
/* id, rb, rc, eb */
static const struct eak_joint joints[] = {{1, 210000, 380000, 120000}, {2, 560000, 460000, 250000}};
/* length, r1_plus, r2_plus, r1_minus, r2_minus, ve, vr */
static const struct eak_column column = {2500, 180000, 165000, 170000, 185000, 62000, 215000};
/* length, r1_plus, r2_plus, r1_minus, r2_minus, v0, ve, vr */
static const struct eak_beam beam = {5600, 245000, 150000, 140000, 260000, -88000, 55000, 180000};
/* length, id1, id2, me1, me2, v0, vr */
static const struct eak_hingeless member = {3200, 1, 2, 110000, 125000, 35000, 250000};
/* length, thickness, mr, me, ve, vr */
static const struct eak_wall_base wall = {4000, 250, 8500000, 4200000, 1100000, 3200000};
/* me, ve, j, j0, vr, ms */
static const struct eak_storey storeys[] = {
    {3100000, 1020000, 133333333, 133333333, 3000000, 8500000},
    {1300000, 680000, 106666667, 133333333, 2000000, 4000000},
};
/* the same of the two storeys above them, as a block */
static const uint32_t sets[] = {
    600000, 430000, 106666667, 133333333, 1400000, 3000000,
    150000, 160000, 45000000, 133333333, 800000, 2200000,
};
/* place, id, vv, ve, mv, me, vr, mr: of a column below joint 1 and of wall W1 below its base */
static const struct eak_basement column_below = {0, 1, -8000, 45000, 12000, 60000, 160000, 190000};
static const struct eak_basement wall_below = {1, 0, 40000, 900000, -150000, 4000000, 3000000, 12000000};
/* kind, value, sensitive */
static const struct eak_soil soil = {0, 0.7f, 0};
/* b, l, mr, me, nv, ne, xv, xe, yv, ye, hv, he, u, p, flags */
static const struct eak_footing footing = {2200, 2200, 260000, 130000, 800000, 0, 20000, 60000, 0, 0, 15000, 55000, 0, 100000, 4};
/* place, xu, xy, mu, lap */
static const struct eak_detail detail = {2, 131, 250, 1000, 0};
/* of another building, in the order of the same members: its settings, its own joint 1, its members */
static const struct eak_settings other_settings = {150, 120, 100};
static const struct eak_joint other_joint = {1, 90000, 150000, 80000};
static const struct eak_column other_column = {2500, 180000, 165000, 170000, 185000, 62000, 95000};
static const struct eak_hingeless other_member = {2500, 1, 1, 60000, 45000, 0, 60000};

static uint8_t job[65536];
static size_t bytes; /* of the job so far: the next command goes to job + bytes */
static int64_t rows[1024 * EAK_ROW_WORDS];

/* Takes the answer of a write: the job grows by the command, or the program ends. 5: a value is out of range; 11: the job is full. */
static void put(struct eak_write_answer answer, const char *element) {
    if (answer.number) {
        fprintf(stderr, "%s: refused %" PRIu32 "\n", element, answer.number);
        exit(1);
    }
    bytes += answer.bytes;
}

static void write_job(void) {
    put(eak_write_settings(settings, job, sizeof job), "settings");
    for (size_t i = 0; i < sizeof joints / sizeof joints[0]; i++)
        put(eak_write_joint(joints[i], job + bytes, sizeof job - bytes), "joint");
    put(eak_write_column(column, job + bytes, sizeof job - bytes), "column C1");
    put(eak_write_beam(beam, job + bytes, sizeof job - bytes), "beam B1, end 2");
    put(eak_write_hingeless(member, job + bytes, sizeof job - bytes), "member N1 between joints 1 and 2");
    put(eak_write_wall_base(wall, job + bytes, sizeof job - bytes), "wall W1");
    for (size_t i = 0; i < sizeof storeys / sizeof storeys[0]; i++)
        put(eak_write_storey(storeys[i], job + bytes, sizeof job - bytes), "storey of wall W1");
    put(eak_write_block(2, sets, sizeof sets / sizeof sets[0], job + bytes, sizeof job - bytes), "upper storeys of wall W1");
    put(eak_write_basement(column_below, job + bytes, sizeof job - bytes), "basement column below joint 1");
    put(eak_write_basement(wall_below, job + bytes, sizeof job - bytes), "basement of wall W1");
    put(eak_write_soil(soil, job + bytes, sizeof job - bytes), "soil");
    put(eak_write_footing(footing, job + bytes, sizeof job - bytes), "footing F1");
    put(eak_write_detail(detail, job + bytes, sizeof job - bytes), "detail of wall W1");
    put(eak_write_building(job + bytes, sizeof job - bytes), "another building");
    put(eak_write_settings(other_settings, job + bytes, sizeof job - bytes), "its settings");
    put(eak_write_joint(other_joint, job + bytes, sizeof job - bytes), "its joint 1");
    put(eak_write_column(other_column, job + bytes, sizeof job - bytes), "its column C1");
    put(eak_write_hingeless(other_member, job + bytes, sizeof job - bytes), "its member N1");
    put(eak_write_end(job + bytes, sizeof job - bytes), "end");
}

int main(int count, char **names) {
    write_job();
    FILE *file = count == 2 ? fopen(names[1], "wb") : NULL;
    if (count == 2 && (!file || fwrite(job, 1, bytes, file) != bytes || fclose(file))) return perror(names[1]), 2;
    struct eak_run_answer ran = eak_run(job, bytes, rows, sizeof rows / sizeof rows[0]);
    if (!ran.accepted) return printf("refused %" PRIu32 " %zu\n", ran.number, ran.number == 9 ? ran.needed : ran.offset), 1;
    for (size_t i = 0; i < ran.rows * EAK_ROW_WORDS; i++)
        printf("%" PRId64 "%c", rows[i], i % EAK_ROW_WORDS == 7 ? '\n' : ' ');
    printf("rows %zu failed %" PRIu64 " checks %" PRIu64 "\n", ran.rows, ran.failed, ran.checks);
    return 0;
}
