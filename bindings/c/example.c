/*
 * A small stand with two landings and a ditch: how far is each cell from the nearest landing, if a machine may go
 * between two ditch cells that meet at a corner, and if it may not?
 *
 *     .ci/archive
 *     cc -Iinclude bindings/c/example.c target/staticlib/libhaul_c.a -o example && ./example
 */
#include <haul.h>
#include <math.h>
#include <stdio.h>

enum { ROWS = 5, COLUMNS = 6, CELLS = ROWS * COLUMNS };

static const uint8_t landings[CELLS] = {
    1, 0, 0, 0, 0, 0, /* in the corner */
    0, 0, 0, 0, 0, 0,
    0, 0, 0, 0, 0, 0,
    0, 0, 0, 0, 0, 0,
    0, 1, 0, 0, 0, 0, /* by the road */
};

static const uint8_t ditches[CELLS] = {
    0, 0, 0, 1, 0, 0, /* the ditch runs from north to south, */
    0, 0, 1, 0, 0, 0, /* one cell below the other's corner, */
    0, 0, 0, 1, 0, 0,
    0, 0, 0, 0, 1, 0,
    0, 0, 0, 0, 0, 1, /* and shuts off the east */
};

/* The caller lends every byte: the library allocates nothing. */
static float answer[CELLS];
static uint8_t marks[CELLS];
static uint32_t queue[CELLS + 1];

/* Runs search 2 and prints the sheet, in metres, or why there is none. */
static void print_sheet(const char *title, float cell_size, uint32_t diagonals) {
    uint64_t takes = 0;
    uint32_t index = 0;
    uint32_t status = haul_distance_with_obstacles(ROWS, COLUMNS, landings, CELLS, ROWS, COLUMNS, ditches, CELLS,
                                                   cell_size, diagonals, answer, CELLS, marks, CELLS, queue, CELLS + 1,
                                                   &takes, &index);
    printf("%s\n", title);
    if (status == HAUL_BAD_CELL_SIZE) {
        printf("  refused by %u: the cell size is not finite or not above 0\n", (unsigned)status);
        return;
    }
    if (status != HAUL_ACCEPTED) {
        printf("  refused by %u\n", (unsigned)status);
        return;
    }
    for (int row = 0; row < ROWS; row++) {
        for (int column = 0; column < COLUMNS; column++) {
            float metres = answer[row * COLUMNS + column];
            if (isinf(metres)) {
                printf("     -");
            } else {
                printf(" %5.1f", metres);
            }
        }
        printf("\n");
    }
    printf("  %llu cells were taken from the queue\n", (unsigned long long)takes);
}

int main(void) {
    if (!haul_keeps_binary32(1.0f, 1e-45f)) {
        fprintf(stderr, "floats are not computed as the searches need it: was this linked with -Ofast?\n");
        return 1;
    }
    print_sheet("Between two ditch cells that meet at a corner there is a way:", 10.0f, HAUL_DIAGONALS_INCLUDE);
    print_sheet("There is none:", 10.0f, HAUL_DIAGONALS_EXCLUDE);
    print_sheet("With cells of no size:", 0.0f, HAUL_DIAGONALS_EXCLUDE);
    return 0;
}
