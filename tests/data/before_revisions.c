/* A program of before the revisions: it declares the call by its plain name, as the header did then. The library has no
 * such symbol any more, so it does not link. */
#include <stddef.h>
#include <stdint.h>

typedef struct {
    uint8_t kind, number;
    size_t place;
    uint64_t base, states, per_progress;
    size_t rows;
} weigh_answer;

weigh_answer hemtaluq_weigh(const uint8_t *file, size_t file_length, const uint16_t *weights, size_t weight_count,
                            uint16_t *cycle, size_t cycle_length);

int main(void) {
    const uint8_t one_state[] = {1, 0, 1, 0};
    uint16_t cycle[64] = {0};
    return hemtaluq_weigh(one_state, sizeof one_state, cycle, 0, cycle, 64).states != 1;
}
