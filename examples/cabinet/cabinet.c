/* A cabinet's start-up check: loads a plant and its weights, and prints the ceiling for what the buffers hold.
 *
 *     cabinet PLANT WEIGHTS G D CONTENT...
 *
 * PLANT is a plant file, WEIGHTS has two bytes a weight, low byte first, G is the most progress rows, D the most messages that
 * the bus delivers twice (0 where it never does), and CONTENT the messages of each type in the buffers. G, D and CONTENT are
 * decimal digits alone, without sign or space. The exit code is 0 for a ceiling, 1 for a cycle, 2 for a refusal, and 3 for a
 * library of another version than the header's. */
#include "arguments.h"

static int show_cycle(const uint8_t *plant, size_t length, const uint16_t *weights, size_t count) {
    uint16_t cycle[HEMTALUQ_CYCLE_ENTRIES];
    hemtaluq_weigh_answer answer = hemtaluq_weigh(plant, length, weights, count, cycle, HEMTALUQ_CYCLE_ENTRIES);
    if (answer.kind != HEMTALUQ_CYCLE) return refuse(answer.number, answer.place);
    printf("no ceiling: these rows can go on for ever without a fresh reading:");
    for (size_t i = 0; i < answer.rows; i++) printf(" %u", (unsigned)cycle[i]);
    printf("\n");
    return 1;
}

int main(int argc, char **argv) {
    static uint8_t plant[HEMTALUQ_LONGEST_FILE + 1];
    uint16_t weights[HEMTALUQ_MOST_TYPES + 1] = {0};
    uint32_t contents[HEMTALUQ_MOST_TYPES + 1] = {0};
    if (hemtaluq_version() != HEMTALUQ_VERSION) {
        fprintf(stderr, "cabinet: the library has version %u, the header %u\n", (unsigned)hemtaluq_version(), HEMTALUQ_VERSION);
        return 3;
    }
    if (argc < 5) {
        fprintf(stderr, "usage: cabinet PLANT WEIGHTS G D CONTENT...\n");
        return 2;
    }
    size_t length = load(argv[1], plant, sizeof plant), count = load_weights(argv[2], weights), amounts = contents_of(argv + 5, contents);
    hemtaluq_quote_answer answer = hemtaluq_quote(plant, length, weights, count, contents, amounts, number_of(argv[3]), number_of(argv[4]));
    if (answer.kind == HEMTALUQ_REFUSED && answer.number == HEMTALUQ_NOT_PASSING) return show_cycle(plant, length, weights, count);
    if (answer.kind == HEMTALUQ_REFUSED) return refuse(answer.number, answer.place);
    printf("at most %llu steps without a fresh reading (price class %u)\n", (unsigned long long)answer.ceiling, (unsigned)answer.price_class);
    return 0;
}
