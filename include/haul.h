/*
 * Extraction sheets for forwarders: eight searches over grids of a forest, proved in Rattle, for C.
 * Link libhaul_c.a, which `.ci/archive` puts in target/staticlib. It is for x86-64 processors and has no
 * instruction beyond SSE2, which all of them have. It links into position-independent executables, and takes nothing
 * from libc but memcpy and memset.
 *
 * Grids. A grid has rows, columns and cells in row-major order; n is rows times columns. Each input grid is passed with
 * its own size, and all must have the same. Bytes: 255 is nodata. Floats: any NaN is nodata, and the searches write a
 * NaN as the bits 0x7FC00000. With n = 0 the answer is empty, and the queue still has its one place.
 *
 * Slices. A slice is a pointer and the number of its elements, not bytes: n, or n + 1 for the queue. A length that is
 * not so is refused, never read or written past. No pointer may be null, also where the length is 0, and each must be
 * aligned for its type. What is written (answer, work buffers, takes, index) must overlap nothing else; input grids may
 * overlap each other.
 *
 * Steps. A machine goes from a cell to its eight neighbours: a straight step is 1 long, a diagonal one the float
 * nearest the root of 2. A way is counted from a target, a landing, outward: of two cells the one that is entered is
 * the one farther from the target.
 *
 * What is left. Work buffers may hold anything before a call. After an accepted call and after HAUL_OVER_BUDGET every
 * work buffer is all zero; after HAUL_OVER_BUDGET the answer is NaN in every cell. Any other refusal leaves the answer
 * and the buffers as they were. `takes` is written by an accepted call only, `index` only by a refusal that has one.
 *
 * The searches keep no state: calls with slices of their own may run at the same time. Nothing is allocated. A search
 * needs about one kilobyte of stack, `haul_answer` more; at a first call the dynamic linker may need three besides.
 *
 * What is not proved. That a NaN in an answer has the bits 0x7FC00000, and how much stack a call needs, is seen by runs
 * alone.
 */
#ifndef HAUL_H
#define HAUL_H

#include <stddef.h>
#include <stdint.h>

#ifdef __cplusplus
extern "C" {
#endif

/* The bounds of a grid: 1024 by 1024 and 32,767 by 32 are within them. */
#define HAUL_SIDE_MAX 32767    /* rows, and columns */
#define HAUL_CELLS_MAX 1048576 /* rows times columns */

/* What a search returns. Where several refusals apply it is the lowest. */
enum {
    HAUL_ACCEPTED = 0,
    HAUL_SIZE_OUT_OF_BOUNDS = 1, /* a grid's rows, columns or cells are below 0 or above the bounds */
    HAUL_SIZES_DIFFER = 2,       /* two input grids differ in rows or columns */
    HAUL_WRONG_LENGTH = 3,       /* a slice has not its length: n, or n + 1 for the queue */
    HAUL_BAD_CELL_SIZE = 4,      /* the cell size is not finite or not above 0 */
    HAUL_BAD_LIMIT = 5,          /* the limit is NaN; in searches 7 and 8 also where it is not above 0 */
    HAUL_NEGATIVE_TIME = 6,      /* a time is below 0 (-0.0 is not); `index` is the first such cell's */
    HAUL_OVER_BUDGET = 7         /* search 7: a cell reached from a mask cell lies above the budget; `index` is the
                                    first such mask cell's */
};

/* `diagonals` of search 2: may a machine go between two obstacles that meet at a corner? */
enum {
    HAUL_DIAGONALS_INCLUDE = 0, /* it may */
    HAUL_DIAGONALS_EXCLUDE = 1  /* it may not; any number but 0 says this */
};

/*
 * Search 1: how far each cell is from the nearest target over open ground, up to a limit; a target is at 0 under any
 * limit. Cells whose target is nodata are not entered and are NaN in the answer.
 */
uint32_t haul_distances_up_to(
    int32_t rows, int32_t columns,              /* size of the targets */
    const uint8_t *targets, size_t targets_len, /* a target is neither 0 nor 255 */
    float cell_size,                            /* edge of a cell, finite and above 0; the answer is in its unit */
    float limit,                                /* what a cell holds that is not nearer, in cells; INFINITY for none */
    float *answer, size_t answer_len,           /* out: distance times cell size, the limit times cell size too */
    uint8_t *marks, size_t marks_len,           /* work buffer, n */
    uint32_t *queue, size_t queue_len,          /* work buffer, n + 1 */
    uint64_t *takes,                            /* out: how many cells were taken from the queue */
    uint32_t *index);                           /* not written by this search */

/*
 * Search 2: how far each cell is from the nearest target around obstacles such as ditches; infinity where there is no
 * way. A target on an obstacle is started from.
 */
uint32_t haul_distance_with_obstacles(
    int32_t rows, int32_t columns,                   /* size of the targets */
    const uint8_t *targets, size_t targets_len,      /* a target is neither 0 nor 255 */
    int32_t obstacle_rows, int32_t obstacle_columns, /* size of the obstacles */
    const uint8_t *obstacles, size_t obstacles_len,  /* an obstacle is not 0: nodata is one */
    float cell_size,                                 /* edge of a cell, finite and above 0 */
    uint32_t diagonals,                              /* HAUL_DIAGONALS_INCLUDE or HAUL_DIAGONALS_EXCLUDE */
    float *answer, size_t answer_len,                /* out: distance times cell size */
    uint8_t *marks, size_t marks_len,                /* work buffer, n */
    uint32_t *queue, size_t queue_len,               /* work buffer, n + 1 */
    uint64_t *takes,                                 /* out: how many cells were taken from the queue */
    uint32_t *index);                                /* not written by this search */

/*
 * Search 3: how long the way from each cell to the nearest target takes over the terrain, up to a limit; a target is at
 * 0 under any limit. A step costs half its length times the sum of both cells' times. Where target or time is nodata, a
 * cell is neither started from nor entered, and is NaN in the answer.
 */
uint32_t haul_travel_distances_up_to(
    int32_t rows, int32_t columns,              /* size of the targets */
    const uint8_t *targets, size_t targets_len, /* a target is neither 0 nor 255 */
    int32_t time_rows, int32_t time_columns,    /* size of the times */
    const float *times, size_t times_len,       /* time to cross a cell, not below 0 */
    float limit,                                /* what a cell holds that is not nearer; INFINITY for none */
    float *answer, size_t answer_len,           /* out: travel time */
    uint8_t *marks, size_t marks_len,           /* work buffer, n */
    uint32_t *queue, size_t queue_len,          /* work buffer, n + 1 */
    uint64_t *takes,                            /* out: how many cells were taken from the queue */
    uint32_t *index);                           /* out, with HAUL_NEGATIVE_TIME */

/*
 * Search 4: the value at the target that is nearest to each cell over open ground; 0 where there is no target. Cells
 * whose target is nodata may be entered. A target whose value is nodata passes NaN on.
 */
uint32_t haul_value_at_closest_target(
    int32_t rows, int32_t columns,              /* size of the targets */
    const uint8_t *targets, size_t targets_len, /* a target is neither 0 nor 255 */
    int32_t value_rows, int32_t value_columns,  /* size of the values */
    const float *values, size_t values_len,     /* read at the targets */
    float *answer, size_t answer_len,           /* out: value at the nearest target */
    float *distances, size_t distances_len,     /* work buffer, n */
    uint8_t *marks, size_t marks_len,           /* work buffer, n */
    uint32_t *queue, size_t queue_len,          /* work buffer, n + 1 */
    uint64_t *takes,                            /* out: how many cells were taken from the queue */
    uint32_t *index);                           /* not written by this search */

/*
 * Search 5: the value at the target that is nearest to each cell by travel time; 0 where none is reached. A step costs
 * its length times the time of the cell that is entered; a cell whose time is nodata is not entered. Where the value is
 * nodata, a cell is neither started from nor entered, and is NaN in the answer.
 */
uint32_t haul_value_at_closest_travel_target(
    int32_t rows, int32_t columns,              /* size of the targets */
    const uint8_t *targets, size_t targets_len, /* a target is not 0: in this search 255 is one too */
    int32_t time_rows, int32_t time_columns,    /* size of the times */
    const float *times, size_t times_len,       /* time to cross a cell, not below 0 */
    int32_t value_rows, int32_t value_columns,  /* size of the values */
    const float *values, size_t values_len,     /* read at the targets; nodata bars a cell */
    float *answer, size_t answer_len,           /* out: value at the nearest target */
    float *distances, size_t distances_len,     /* work buffer, n */
    uint8_t *marks, size_t marks_len,           /* work buffer, n */
    uint32_t *queue, size_t queue_len,          /* work buffer, n + 1 */
    uint64_t *takes,                            /* out: how many cells were taken from the queue */
    uint32_t *index);                           /* out, with HAUL_NEGATIVE_TIME */

/*
 * Search 6: as search 5, for the cells whose travel time is below a limit; the others are 0 in the answer. A target has
 * its own value under any limit.
 */
uint32_t haul_value_at_closest_less_than_travel_target(
    int32_t rows, int32_t columns,              /* size of the targets */
    const uint8_t *targets, size_t targets_len, /* a target is not 0: in this search 255 is one too */
    int32_t time_rows, int32_t time_columns,    /* size of the times */
    const float *times, size_t times_len,       /* time to cross a cell, not below 0 */
    int32_t value_rows, int32_t value_columns,  /* size of the values */
    const float *values, size_t values_len,     /* read at the targets; nodata bars a cell */
    float limit,                                /* a travel time must be below it */
    float *answer, size_t answer_len,           /* out: value at the nearest target */
    float *distances, size_t distances_len,     /* work buffer, n */
    uint8_t *marks, size_t marks_len,           /* work buffer, n */
    uint32_t *queue, size_t queue_len,          /* work buffer, n + 1 */
    uint64_t *takes,                            /* out: how many cells were taken from the queue */
    uint32_t *index);                           /* out, with HAUL_NEGATIVE_TIME */

/*
 * Search 7: for each mask cell the sum of the values of all cells that can be reached from it. Steps cost as in search
 * 3, and a cell whose time is nodata is not entered. The whole reach must lie within the budget, else the call is
 * refused by HAUL_OVER_BUDGET. With the adjacent flag, a cell above, below, left or right of a reached cell that is
 * itself not reached is added too, once for each mask cell; with an infinite budget none is.
 */
uint32_t haul_sum_within_travel_distance(
    int32_t rows, int32_t columns,             /* size of the mask */
    const uint8_t *mask, size_t mask_len,      /* a mask cell is neither 0 nor 255 */
    int32_t time_rows, int32_t time_columns,   /* size of the times */
    const float *times, size_t times_len,      /* time to cross a cell, not below 0 */
    int32_t value_rows, int32_t value_columns, /* size of the values */
    const float *values, size_t values_len,    /* what is summed; nodata adds nothing */
    float limit,                               /* the budget, above 0 */
    uint32_t include_adjacent,                 /* the adjacent flag: 0 is no, any other number yes */
    float *answer, size_t answer_len,          /* out: sums; 0 where there is no mask cell */
    float *distances, size_t distances_len,    /* work buffer, n */
    uint8_t *marks, size_t marks_len,          /* work buffer, n */
    uint32_t *listed, size_t listed_len,       /* work buffer, n */
    uint32_t *adjacent, size_t adjacent_len,   /* work buffer, n: marks listed cells and those added beside them */
    uint32_t *queue, size_t queue_len,         /* work buffer, n + 1 */
    uint64_t *takes,                           /* out: how many cells were taken from the queue, over all mask cells */
    uint32_t *index);                          /* out, with HAUL_NEGATIVE_TIME and HAUL_OVER_BUDGET */

/*
 * Search 8: for each cell the sum of the amounts, such as timber, whose travel time to it is within the budget. (From
 * 16,777,216 on budget + 1 may round to the budget, and an amount at exactly the budget is then not counted.) Steps
 * cost as in search 5, but a nodata time counts as the largest float divided by 4. An amount on a cell whose time is
 * nodata goes nowhere.
 */
uint32_t haul_sum_targets_within_travel_distance(
    int32_t rows, int32_t columns,               /* size of the times */
    const float *times, size_t times_len,        /* time to cross a cell, not below 0 */
    int32_t amount_rows, int32_t amount_columns, /* size of the amounts */
    const float *amounts, size_t amounts_len,    /* an amount is neither 0 nor NaN */
    float limit,                                 /* the budget, above 0 */
    float *answer, size_t answer_len,            /* out: sums */
    float *distances, size_t distances_len,      /* work buffer, n */
    uint8_t *marks, size_t marks_len,            /* work buffer, n */
    uint8_t *added, size_t added_len,            /* work buffer, n */
    uint32_t *queue, size_t queue_len,           /* work buffer, n + 1 */
    uint64_t *takes,                             /* out: how many cells were taken from the queue, over all amounts */
    uint32_t *index);                            /* out, with HAUL_NEGATIVE_TIME */

/* An output for `haul_answer` has at least so many bytes, those of the longest answer. */
#define HAUL_ANSWER_MAX 4114

/*
 * The program `haul` as a call: a grid file goes in, its answer file comes out. A file that does not keep the form is
 * answered by refusal 8. Returns how many bytes stand at the front of the output; what follows them there is as it was.
 * Where the output is shorter than HAUL_ANSWER_MAX nothing is written, and 0 is returned. It needs about 40 kilobytes of
 * stack, for the grids that the file holds.
 *
 * The program can't give an exit status: it ends with 0 also where its answer could not be written. The answer itself
 * tells that it is whole. Its fields, each a tag of one byte, a length of two (the lower first) and the content, end
 * exactly where it ends, and after field 0x10, the status, come
 *   - field 0x12 of 8 bytes, the takes, and field 0x13 of 4 bytes a cell, the grid, if the status is 0;
 *   - field 0x11 of 4 bytes, the index, if it is 6 or 7;
 *   - nothing if it is another.
 * An empty or cut output is no answer.
 */
uint32_t haul_answer(
    const uint8_t *input, size_t input_len, /* the grid file */
    uint8_t *output, size_t output_len);    /* out: the answer file */

/*
 * Whether floats are what the proofs suppose: rounded to nearest even, and small ones not taken for 0. A program that was
 * linked with -Ofast or -ffast-math, or that set the processor so, gets other answers from the same archive: a time of
 * -1e-40 is then no time below 0. Ask once, in each thread that changes how floats are computed, with 1.0f and 1e-45f, which
 * is the least float above 0: they are given so that no compiler works out the answer before the call runs. Returns 1
 * where floats are kept, else 0.
 */
uint32_t haul_keeps_binary32(
    float one,    /* 1.0f */
    float least); /* 1e-45f */

#ifdef __cplusplus
}
#endif

#endif
