/*
 * Each constant of include/haul.h beside what the library does: every refusal is provoked, both flags are passed, and
 * the bounds are found by trying sizes and lengths. Says which constant is another one, and then ends with status 1.
 */
#include <haul.h>
#include <math.h>
#include <stdio.h>
#include <string.h>

static int wrong = 0;

static void same(const char *name, unsigned long constant, unsigned long seen) {
    if (constant != seen) {
        printf("%s is %lu in include/haul.h, and %lu was seen\n", name, constant, seen);
        wrong = 1;
    }
}

/* The constant's name beside its number. */
#define SAME(constant, seen) same(#constant, constant, seen)

/* No bound is looked for above this. */
enum { TRIED = 100000 };

/* What all calls here lend: two cells are enough for each refusal, four for the flags. */
enum { CELLS = 4 };
static float answer[CELLS], distances[CELLS];
static uint8_t marks[CELLS];
static uint32_t listed[CELLS], adjacent[CELLS], queue[CELLS + 1];
static uint64_t takes;
static uint32_t index_told;

/* Search 1 from one cell of two, with a queue of this length. */
static uint32_t plain(float cell_size, float limit, size_t queue_len) {
    static const uint8_t targets[] = {1, 0};
    return haul_distances_up_to(1, 2, targets, 2, cell_size, limit, answer, 2, marks, 2, queue, queue_len, &takes,
                                &index_told);
}

/* Search 1 on a grid of this size, with slices of no cells: accepted where the size has none. */
static uint32_t sized(int32_t rows, int32_t columns) {
    static const uint8_t targets[] = {0};
    return haul_distances_up_to(rows, columns, targets, 0, 1.0f, 1.0f, answer, 0, marks, 0, queue, 1, &takes,
                                &index_told);
}

/* Search 7 from the first cell of two, with these times and this budget. */
static uint32_t sums(float first_time, float second_time, float budget) {
    static const uint8_t mask[] = {1, 0};
    const float times[] = {first_time, second_time};
    static const float values[] = {7.0f, 9.0f};
    return haul_sum_within_travel_distance(1, 2, mask, 2, 1, 2, times, 2, 1, 2, values, 2, budget, 0, answer, 2,
                                           distances, 2, marks, 2, listed, 2, adjacent, 2, queue, 3, &takes,
                                           &index_told);
}

/* Search 2 from one corner of four cells, those beside it being obstacles; their grid has these rows and columns. */
static uint32_t around(int32_t obstacle_rows, int32_t obstacle_columns, uint32_t diagonals) {
    static const uint8_t corner[] = {1, 0, 0, 0}, beside[] = {0, 1, 1, 0};
    return haul_distance_with_obstacles(2, 2, corner, 4, obstacle_rows, obstacle_columns, beside, 4, 1.0f, diagonals,
                                        answer, 4, marks, 4, queue, 5, &takes, &index_told);
}

static void refusals(void) {
    SAME(HAUL_ACCEPTED, plain(1.0f, 9.0f, 3));
    SAME(HAUL_SIZE_OUT_OF_BOUNDS, sized(-1, 0));
    SAME(HAUL_SIZES_DIFFER, around(4, 1, 0));
    SAME(HAUL_WRONG_LENGTH, plain(1.0f, 9.0f, 2));
    SAME(HAUL_BAD_CELL_SIZE, plain(0.0f, 9.0f, 3));
    SAME(HAUL_BAD_LIMIT, plain(1.0f, NAN, 3));
    SAME(HAUL_NEGATIVE_TIME, sums(2.0f, -1.0f, 9.0f));
    same("the index of HAUL_NEGATIVE_TIME", 1, index_told);
    SAME(HAUL_OVER_BUDGET, sums(2.0f, 4.0f, 2.5f));
    same("the index of HAUL_OVER_BUDGET", 0, index_told);
}

/* A grid file that asks for search 2 on the four cells. Returns how long its answer is. */
static uint32_t file_around(uint8_t diagonals, uint8_t *output, size_t output_len) {
    const uint8_t input[] = {
        1, 3, 0, 2, diagonals, 0,                /* search 2 */
        2, 4, 0, 2, 0, 2, 0,                     /* rows, columns */
        3, 8, 0, 0, 0, 0x80, 0x3F, 0, 0, 0, 0,   /* cell size 1, no limit */
        4, 4, 0, 1, 0, 0, 0,                     /* targets */
        5, 4, 0, 0, 1, 1, 0,                     /* obstacles */
    };
    return haul_answer(input, sizeof input, output, output_len);
}

/* The flags, in a call and in a grid file, whose numbers they are: what is behind the corner is reached, or is not. */
static void flags(void) {
    static uint8_t output[65536];
    static const uint8_t root_of_2[] = {0xF3, 0x04, 0xB5, 0x3F}, infinity[] = {0, 0, 0x80, 0x7F};
    same("the status with HAUL_DIAGONALS_INCLUDE", HAUL_ACCEPTED, around(2, 2, HAUL_DIAGONALS_INCLUDE));
    same("reached with HAUL_DIAGONALS_INCLUDE", 1, isfinite(answer[3]) != 0);
    same("the status with HAUL_DIAGONALS_EXCLUDE", HAUL_ACCEPTED, around(2, 2, HAUL_DIAGONALS_EXCLUDE));
    same("reached with HAUL_DIAGONALS_EXCLUDE", 0, isfinite(answer[3]) != 0);
    same("the length with HAUL_DIAGONALS_INCLUDE", 34, file_around(HAUL_DIAGONALS_INCLUDE, output, sizeof output));
    same("reached with HAUL_DIAGONALS_INCLUDE in a file", 1, memcmp(output + 30, root_of_2, 4) == 0);
    same("the length with HAUL_DIAGONALS_EXCLUDE", 34, file_around(HAUL_DIAGONALS_EXCLUDE, output, sizeof output));
    same("unreached with HAUL_DIAGONALS_EXCLUDE in a file", 1, memcmp(output + 30, infinity, 4) == 0);
}

/* The most rows and the most columns of a grid without cells, and the most cells of any size. */
static void bounds(void) {
    int32_t rows = 0, columns = 0, most = 0;
    while (rows < TRIED && sized(rows + 1, 0) == HAUL_ACCEPTED) {
        rows++;
    }
    while (columns < TRIED && sized(0, columns + 1) == HAUL_ACCEPTED) {
        columns++;
    }
    SAME(HAUL_SIDE_MAX, (unsigned long)rows);
    SAME(HAUL_SIDE_MAX, (unsigned long)columns);
    /* The more rows, the fewer columns. A size within the bounds is refused for the slices, which are too short. */
    for (int32_t across = columns, down = 1; down <= rows; down++) {
        while (across > 0 && sized(down, across) != HAUL_WRONG_LENGTH) {
            across--;
        }
        most = down * across > most ? down * across : most;
    }
    SAME(HAUL_CELLS_MAX, (unsigned long)most);
}

/* The shortest output that is written to, and the longest answer: search 1 on 32 by 32 cells. */
static void answers(void) {
    static uint8_t output[65536];
    static uint8_t input[24 + 3 + 1024] = {1, 3, 0, 1, 0, 0, 2, 4, 0, 32, 0, 32, 0, 3, 8, 0, 0, 0, 0x80, 0x3F,
                                           0, 0, 0x80, 0x7F, 4, 0, 4};
    size_t shortest = 0;
    while (shortest < sizeof output && file_around(0, output, shortest) == 0) {
        shortest++;
    }
    SAME(HAUL_ANSWER_MAX, shortest);
    SAME(HAUL_ANSWER_MAX, haul_answer(input, sizeof input, output, sizeof output));
}

int main(void) {
    refusals();
    flags();
    bounds();
    answers();
    return wrong;
}
