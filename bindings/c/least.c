/* How far is each cell from the landing, if a machine can't go between two ditch cells that meet at a corner? */
#include <haul.h>
#include <stdio.h>

enum { ROWS = 3, COLUMNS = 4, CELLS = ROWS * COLUMNS };

int main(void) {
    static const uint8_t landings[CELLS] = {
        1, 0, 0, 0,
        0, 0, 0, 0,
        0, 0, 0, 0,
    };
    static const uint8_t ditches[CELLS] = {
        0, 0, 1, 0,
        0, 1, 0, 0,
        0, 0, 0, 0,
    };
    float answer[CELLS];
    uint8_t marks[CELLS];
    uint32_t queue[CELLS + 1], index;
    uint64_t takes;
    uint32_t status = haul_distance_with_obstacles(ROWS, COLUMNS, landings, CELLS, ROWS, COLUMNS, ditches, CELLS,
                                                   10.0f, HAUL_DIAGONALS_EXCLUDE, answer, CELLS, marks, CELLS,
                                                   queue, CELLS + 1, &takes, &index);
    if (status != HAUL_ACCEPTED) {
        fprintf(stderr, "refused by %u\n", (unsigned)status);
        return 1;
    }
    for (int cell = 0; cell < CELLS; cell++) {
        printf("%6.1f%s", answer[cell], (cell + 1) % COLUMNS == 0 ? "\n" : "");
    }
    printf("%llu takes\n", (unsigned long long)takes);
    return 0;
}
