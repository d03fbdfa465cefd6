/* What cabinet.c and panel.c do alike: the files and numbers of their command lines, and faults in words. */
#include <stdio.h>
#include "hemtaluq.h"

static const char *in_words(unsigned number) {
    static const char *const words[] = {
        "no fault", "the plant file ends too soon", "a count of the plant file is outside limits",
        "a machine has no states or more than 64", "a map byte has bits that may not stand", "a row names no state of its machine",
        "a row names no type", "the plant has more than 1,024 rows", "bytes remain after the last row", "there is not one weight for each type",
        "a weight is above 1,000", "the list for a cycle is too short", "there is no such machine", "the machine is too large to list",
        "the list is too short for the cycles", "the set ends within an entry", "a number of the set is outside limits",
        "an entry of the set is no quiet cycle", "the set has no entry or more than 256", "no fault", "there is not one content for each type",
        "a content, G or D is not a number up to 1,000,000", "the weights do not pass", "the list of numbers ends early or goes on",
        "a number of the list is outside its values or the limits", "the buffer is too short for the file",
        "a row is equal to an earlier row of its machine", "there is no such row, or it cannot happen now",
        "there is no such type, or no message of it is present", "1,000,000 of its sort were counted, and no more are"};
    return number < sizeof words / sizeof words[0] ? words[number] : "unknown";
}

static int refuse(unsigned number, size_t place) {
    printf("refused with %u at %zu: %s\n", number, place, in_words(number));
    return 2;
}

/* The bytes of a file, at most `room`; none where it cannot be opened. */
static size_t load(const char *name, uint8_t *bytes, size_t room) {
    FILE *file = fopen(name, "rb");
    size_t length = file ? fread(bytes, 1, room, file) : 0;
    if (file) fclose(file);
    return length;
}

/* The weights of a file, of two bytes each, low byte first; how many there are. Half a weight is one weight too many for any plant. */
static size_t load_weights(const char *name, uint16_t weights[HEMTALUQ_MOST_TYPES + 1]) {
    uint8_t bytes[2 * HEMTALUQ_MOST_TYPES + 2];
    size_t held = load(name, bytes, sizeof bytes);
    for (size_t t = 0; t < held / 2; t++) weights[t] = (uint16_t)(bytes[2 * t] | bytes[2 * t + 1] << 8);
    return held % 2 ? HEMTALUQ_MOST_TYPES + 1 : held / 2;
}

/* A number of the command line. The largest one stands for a word that is no number and for a number above 32 bits: the
 * call refuses it, at the word's place and after the faults that come before. */
static uint32_t number_of(const char *word) {
    uint64_t number = 0;
    if (*word == '\0') return UINT32_MAX;
    for (; *word != '\0'; word++) {
        if (*word < '0' || *word > '9') return UINT32_MAX;
        number = 10 * number + (uint64_t)(*word - '0');
        if (number > UINT32_MAX) return UINT32_MAX;
    }
    return (uint32_t)number;
}

/* The contents that words of the command line say; how many there are. Of more than a plant can have types, one too many will do. */
static size_t contents_of(char **words, uint32_t contents[HEMTALUQ_MOST_TYPES + 1]) {
    size_t count = 0;
    for (; *words && count <= HEMTALUQ_MOST_TYPES; words++) contents[count++] = number_of(*words);
    return count;
}
