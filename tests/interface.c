/* Calls every function of the C interface at its edges. The expected answers are written from the scope document. */
#include <stdio.h>
#include <string.h>
#include "hemtaluq.h"

#define LENGTH(list) (sizeof(list) / sizeof((list)[0]))
/* The linker's name of a call. */
#define TEXT(symbol) #symbol
#define SYMBOL(call) TEXT(call)

static int checks, failed;

static void check(const char *what, int good) {
    checks++;
    if (!good) {
        failed++;
        printf("interface.c: wrong: %s\n", what);
    }
}

/* Lists of length 0 with a valid pointer; null_pointers has them with none. */
static const uint8_t no_bytes[1] = {0};
static const uint16_t no_weights[1] = {0};
static const uint32_t no_numbers[1] = {0};
static uint16_t no_entries[1];

static const uint8_t plant_a[] = {2, 2, 2, 2, 0x06, 1, 0, 0x1B, 1, 0, 1, 2, 2, 0x0A, 1, 0, 0x07, 1, 0, 1};
static const uint8_t plant_b[] = {2, 2, 2, 2, 0x06, 1, 0, 0x0B, 1, 0, 1, 2, 2, 0x0A, 1, 0, 0x07, 1, 0, 1};
static const uint8_t one_state[] = {1, 0, 1, 0};
static const uint16_t weights_2_1[] = {2, 1};

/* The list that says plant A. */
#define LIST_A 2, 2, 2, 2, 0, 1, 1, 0, 0, 0, 1, 0, 2, 1, 1, 0, 2, 2, 0, 1, 2, 0, 0, 0, 1, 0, 1, 1, 0, 0
static const uint16_t list_a[] = {LIST_A};

/* Plant A with the probe's first row written once more, behind its other row. */
static const uint8_t twin_row[] = {2, 2, 2, 2, 0x06, 1, 0, 0x1B, 1, 0, 1, 2, 3, 0x0A, 1, 0, 0x07, 1, 0, 1, 0x0B, 0, 1, 0};

/* Four machines of 255 rows and one of so many that they are so many in all, as a file and as a list; the length. The rows of a machine leave
 * state 0, and no two of them are equal: by the state entered, by progress, and by sending type 0 or nothing. */
static size_t file_of_rows(uint8_t *file, int rows) {
    size_t at = 0;
    file[at++] = 5;
    file[at++] = 1;
    for (int m = 0; m < 5; m++) {
        int own = m < 4 ? 255 : rows - 4 * 255;
        file[at++] = 64;
        file[at++] = (uint8_t)own;
        for (int k = 0; k < own; k++) {
            int entered = k % 64, progress = k / 64 % 2, sends = k / 128;
            file[at++] = (uint8_t)((entered > 0) << 1 | sends << 2 | progress << 4);
            if (entered > 0) file[at++] = (uint8_t)entered;
            if (sends) file[at++] = 0;
        }
    }
    return at;
}

static size_t list_of_rows(uint16_t *list, int rows) {
    size_t at = 0;
    list[at++] = 5;
    list[at++] = 1;
    for (int m = 0; m < 5; m++) {
        int own = m < 4 ? 255 : rows - 4 * 255;
        list[at++] = 64;
        list[at++] = (uint16_t)own;
        for (int k = 0; k < own; k++) {
            uint16_t row[6] = {0, (uint16_t)(k % 64), (uint16_t)(k / 128), 0, (uint16_t)(k / 64 % 2), 0};
            memcpy(list + at, row, sizeof row);
            at += 6;
        }
    }
    return at;
}

/* The largest plant: 16 machines of 64 states, 64 types, 1,024 rows of five bytes. No state of a row can be left out: the first row of a
 * machine leaves state 1, and each row leaves another state than the one before it. A row takes one of the types 0 to 31 and sends one of the others. */
static uint8_t largest[HEMTALUQ_LONGEST_FILE + 1];
static uint16_t longest_list[HEMTALUQ_LONGEST_LIST + 1];

static void make_largest(void) {
    size_t at = 0;
    largest[at++] = 16;
    largest[at++] = 64;
    for (int m = 0; m < 16; m++) {
        largest[at++] = 64;
        largest[at++] = 64;
        for (int k = 0; k < 64; k++) {
            largest[at++] = 0x0F;
            largest[at++] = (uint8_t)((k + 1) % 64);
            largest[at++] = (uint8_t)((k + 2) % 64);
            largest[at++] = (uint8_t)(32 + k % 32);
            largest[at++] = (uint8_t)((k + m) % 32);
        }
    }
    check("the longest file has 5,154 bytes", at == HEMTALUQ_LONGEST_FILE && at == 5154);
}

static void make_longest_list(void) {
    size_t at = 0;
    longest_list[at++] = 16;
    longest_list[at++] = 64;
    for (int m = 0; m < 16; m++) {
        longest_list[at++] = 64;
        longest_list[at++] = 64;
        for (int k = 0; k < 64; k++) {
            uint16_t row[6] = {(uint16_t)((k + 1) % 64), (uint16_t)((k + 2) % 64), 3, (uint16_t)((k + m) % 32), 0, (uint16_t)(32 + k % 32)};
            memcpy(longest_list + at, row, sizeof row);
            at += 6;
        }
    }
    check("the longest list has 6,178 numbers", at == HEMTALUQ_LONGEST_LIST && at == 6178);
}

static void read_is(const char *what, const uint8_t *file, size_t length, hemtaluq_read_answer e) {
    hemtaluq_read_answer a = hemtaluq_read(file, length);
    check(what, a.kind == e.kind && a.number == e.number && a.types == e.types && a.place == e.place && a.machines == e.machines && a.rows == e.rows);
}

static void read_refused(const char *what, const uint8_t *file, size_t length, uint8_t number, size_t place) {
    hemtaluq_read_answer e = {HEMTALUQ_REFUSED, number, 0, place, 0, 0};
    read_is(what, file, length, e);
}

static void reading(void) {
    hemtaluq_read_answer a = {HEMTALUQ_COUNTS, 0, 2, 0, 2, 4}, most = {HEMTALUQ_COUNTS, 0, 64, 0, 16, 1024};
    const uint8_t machines_17[] = {17, 0}, states_65[] = {1, 0, 65, 0}, map[] = {1, 0, 1, 1, 0x20};
    const uint8_t state[] = {1, 0, 2, 1, 0x01, 2}, type[] = {1, 1, 1, 1, 0x04, 1}, more[] = {1, 0, 1, 0, 0};
    static uint8_t rows[2 + 5 * 2 + 1025 * 3];
    /* A fifth machine without rows ends with its count. */
    size_t last_count = file_of_rows(rows, 4 * 255) - 1;
    read_is("plant A", plant_a, sizeof plant_a, a);
    read_is("the largest plant", largest, HEMTALUQ_LONGEST_FILE, most);
    read_refused("an empty file", no_bytes, 0, HEMTALUQ_FILE_ENDS, 0);
    read_refused("the largest plant cut", largest, HEMTALUQ_LONGEST_FILE - 1, HEMTALUQ_FILE_ENDS, HEMTALUQ_LONGEST_FILE - 1);
    read_refused("17 machines", machines_17, sizeof machines_17, HEMTALUQ_COUNT_LIMITS, 0);
    read_refused("65 states", states_65, sizeof states_65, HEMTALUQ_STATE_LIMITS, 2);
    read_refused("bit 5", map, sizeof map, HEMTALUQ_MAP_BYTE, 4);
    read_refused("state 2 of 2", state, sizeof state, HEMTALUQ_NOT_A_STATE, 5);
    read_refused("type 1 of 1", type, sizeof type, HEMTALUQ_NOT_A_TYPE, 5);
    read_refused("1,025 rows", rows, file_of_rows(rows, 1025), HEMTALUQ_TOTAL_ROWS, last_count);
    read_refused("a byte too many", more, sizeof more, HEMTALUQ_BYTES_REMAIN, 4);
    read_refused("a byte after the largest plant", largest, sizeof largest, HEMTALUQ_BYTES_REMAIN, HEMTALUQ_LONGEST_FILE);
}

/* Bits 2 and 3 together: the type sent, then the type taken. Of the bits 5 to 7 none stands beside them. */
static void reading_both(void) {
    hemtaluq_read_answer one = {HEMTALUQ_COUNTS, 0, 2, 0, 1, 1};
    const uint8_t both[] = {1, 2, 1, 1, 0x0C, 0, 1}, same[] = {1, 2, 1, 1, 0x1C, 1, 1}, whole[] = {1, 2, 3, 1, 0x1F, 2, 1, 1, 0};
    const uint8_t sent[] = {1, 2, 1, 1, 0x0C, 2, 2}, taken[] = {1, 2, 1, 1, 0x0C, 0, 2}, no_types[] = {1, 0, 1, 1, 0x0C, 0, 0};
    const uint8_t bit_5[] = {1, 2, 1, 1, 0x2C, 0, 1}, bit_6[] = {1, 2, 1, 1, 0x4C, 0, 1}, bit_7[] = {1, 2, 1, 1, 0x8C, 0, 1}, more[] = {1, 2, 1, 1, 0x0C, 0, 1, 0};
    read_is("bits 2 and 3", both, sizeof both, one);
    read_is("bits 2, 3 and 4 with one type", same, sizeof same, one);
    read_is("bits 0 to 4", whole, sizeof whole, one);
    read_refused("bits 2, 3 and 5", bit_5, sizeof bit_5, HEMTALUQ_MAP_BYTE, 4);
    read_refused("bits 2, 3 and 6", bit_6, sizeof bit_6, HEMTALUQ_MAP_BYTE, 4);
    read_refused("bits 2, 3 and 7", bit_7, sizeof bit_7, HEMTALUQ_MAP_BYTE, 4);
    read_refused("both types wrong, at the type sent", sent, sizeof sent, HEMTALUQ_NOT_A_TYPE, 5);
    read_refused("type 2 of 2 taken", taken, sizeof taken, HEMTALUQ_NOT_A_TYPE, 6);
    read_refused("both, and no types", no_types, sizeof no_types, HEMTALUQ_NOT_A_TYPE, 5);
    read_refused("both, the type sent missing", both, 5, HEMTALUQ_FILE_ENDS, 5);
    read_refused("both, the type taken missing", both, 6, HEMTALUQ_FILE_ENDS, 6);
    read_refused("both, and a byte too many", more, sizeof more, HEMTALUQ_BYTES_REMAIN, 7);
}

/* Behind a row that leaves state 1, each row differs from the one that sends type 0 and stays in state 0 in one thing: the state left, the state
 * entered, the type, taking it, sending nothing, progress, and taking type 0 or 1 as well. The last takes type 0 and sends type 1. The file and its list. */
static const uint8_t differing[] = {1, 2, 2, 11, 0x01, 1, 0x05, 0, 0, 0x07, 1, 0, 0, 0x07, 0, 1, 0, 0x04, 1, 0x08, 0, 0x00, 0x14, 0,
                                    0x0C, 0, 0, 0x0C, 0, 1, 0x0C, 1, 0};
static const uint16_t differing_list[] = {1, 2, 2, 11, 1, 1, 0, 0, 0, 0, 0, 0, 1, 0, 0, 0, 1, 0, 1, 0, 0, 0, 0, 1, 1, 0, 0, 0,
                                          0, 0, 1, 1, 0, 0, 0, 0, 2, 0, 0, 0, 0, 0, 0, 0, 0, 0, 0, 0, 1, 0, 1, 0,
                                          0, 0, 3, 0, 0, 0, 0, 0, 3, 1, 0, 0, 0, 0, 3, 0, 0, 1};

/* A row that equals an earlier row of its machine, as read, is refused at its map byte; the same row in another machine is not. */
static void reading_twins(void) {
    hemtaluq_read_answer two = {HEMTALUQ_COUNTS, 0, 0, 0, 2, 2}, eleven = {HEMTALUQ_COUNTS, 0, 2, 0, 1, 11}, most = {HEMTALUQ_COUNTS, 0, 1, 0, 5, 1024};
    const uint8_t both[] = {1, 2, 1, 2, 0x0C, 0, 1, 0x0D, 0, 0, 1}, taken[] = {1, 2, 1, 2, 0x0C, 0, 1, 0x0C, 0, 2};
    const uint8_t implied[] = {1, 0, 1, 2, 0x10, 0x11, 0}, machines[] = {2, 0, 1, 1, 0x10, 1, 1, 0x10};
    const uint8_t state[] = {1, 0, 1, 2, 0x00, 0x01, 1}, type[] = {1, 1, 1, 2, 0x04, 0, 0x04, 1}, map[] = {1, 0, 1, 2, 0x00, 0x20}, ends[] = {1, 0, 1, 2, 0x00, 0x01};
    const uint8_t missing[] = {1, 0, 1, 3, 0x00, 0x00}, wrong[] = {1, 0, 1, 3, 0x00, 0x00, 0x20}, more[] = {1, 0, 1, 2, 0x00, 0x00, 0}, states[] = {2, 0, 1, 2, 0x00, 0x00, 0};
    static uint8_t rows[2 + 5 * 2 + 1024 * 3];
    /* Without rows the fifth machine has two bytes, and the last row of the fourth three. */
    size_t last = file_of_rows(rows, 4 * 255) - 2 - 3, length = file_of_rows(rows, 1024);
    read_refused("a twin row behind another row", twin_row, sizeof twin_row, HEMTALUQ_TWIN_ROW, 20);
    read_refused("a twin row that leaves out another field", implied, sizeof implied, HEMTALUQ_TWIN_ROW, 5);
    read_is("the same row in two machines", machines, sizeof machines, two);
    read_is("rows that differ in one thing", differing, sizeof differing, eleven);
    read_refused("a twin row that takes and sends", both, sizeof both, HEMTALUQ_TWIN_ROW, 7);
    read_refused("a wrong type taken of a row that sends first", taken, sizeof taken, HEMTALUQ_NOT_A_TYPE, 9);
    read_refused("a wrong state of a twin row first", state, sizeof state, HEMTALUQ_NOT_A_STATE, 6);
    read_refused("a wrong type first", type, sizeof type, HEMTALUQ_NOT_A_TYPE, 7);
    read_refused("a wrong map byte first", map, sizeof map, HEMTALUQ_MAP_BYTE, 5);
    read_refused("a missing field first", ends, sizeof ends, HEMTALUQ_FILE_ENDS, 6);
    read_refused("a twin row before a missing row", missing, sizeof missing, HEMTALUQ_TWIN_ROW, 5);
    read_refused("a twin row before a wrong map byte", wrong, sizeof wrong, HEMTALUQ_TWIN_ROW, 5);
    read_refused("a twin row before a byte too many", more, sizeof more, HEMTALUQ_TWIN_ROW, 5);
    read_refused("a twin row before the states of the next machine", states, sizeof states, HEMTALUQ_TWIN_ROW, 5);
    read_is("1,024 rows, 255 of a machine leaving one state", rows, length, most);
    /* State left and state entered 0, as the first row has them without a byte. */
    rows[last] = 0x03;
    rows[last + 1] = rows[last + 2] = 0;
    read_refused("the last of 255 rows equal to the first", rows, length, HEMTALUQ_TWIN_ROW, last);
}

/* Weighs with a list of sevens and checks the answer, and that the list from `kept` on still holds sevens. */
static void weigh_is(const char *what, const uint8_t *file, size_t length, const uint16_t *weights, size_t count, size_t room, hemtaluq_weigh_answer e, size_t kept) {
    uint16_t cycle[70];
    int good = 1;
    for (size_t i = 0; i < 70; i++) cycle[i] = 7;
    hemtaluq_weigh_answer a = hemtaluq_weigh(file, length, weights, count, cycle, room);
    for (size_t i = kept; i < 70; i++) good = good && cycle[i] == 7;
    check(what, good && a.kind == e.kind && a.number == e.number && a.place == e.place && a.base == e.base && a.most_states == e.most_states
                    && a.per_progress == e.per_progress && a.per_doubling == e.per_doubling && a.rows == e.rows);
}

static void weighing(void) {
    const uint16_t w10[] = {1, 0}, w11[] = {1, 1}, high[] = {1000, 1001}, three[] = {1, 2, 3};
    hemtaluq_weigh_answer p21 = {HEMTALUQ_PASSED, 0, 0, 10, 2, 9, 4, 0}, p10 = {HEMTALUQ_PASSED, 0, 0, 6, 2, 5, 2, 0};
    hemtaluq_weigh_answer shown = {HEMTALUQ_CYCLE, 0, 0, 0, 0, 0, 0, 2}, none = {HEMTALUQ_PASSED, 0, 0, 0, 1, 0, 0, 0};
    hemtaluq_weigh_answer r9 = {HEMTALUQ_REFUSED, 9, 0, 0, 0, 0, 0, 0}, r10 = {HEMTALUQ_REFUSED, 10, 1, 0, 0, 0, 0, 0}, r11 = {HEMTALUQ_REFUSED, 11, 0, 0, 0, 0, 0, 0};
    uint16_t cycle[64], lower[64];
    for (size_t t = 0; t < 64; t++) lower[t] = t < 32;
    weigh_is("A, weights 2, 1", plant_a, sizeof plant_a, weights_2_1, 2, 64, p21, 0);
    weigh_is("A, weights 1, 0", plant_a, sizeof plant_a, w10, 2, 70, p10, 0);
    weigh_is("A, weights 1, 1", plant_a, sizeof plant_a, w11, 2, 64, shown, 2);
    weigh_is("one state, no types", one_state, sizeof one_state, no_weights, 0, 64, none, 0);
    weigh_is("a weight too many", plant_a, sizeof plant_a, three, 3, 64, r9, 0);
    weigh_is("weight 1,001", plant_a, sizeof plant_a, high, 2, 64, r10, 0);
    weigh_is("a list of 63", plant_a, sizeof plant_a, weights_2_1, 2, 63, r11, 0);
    hemtaluq_weigh_answer a = hemtaluq_weigh(plant_a, sizeof plant_a, w11, 2, cycle, 64);
    check("the probe's rows are shown", a.rows == 2 && ((cycle[0] == 2 && cycle[1] == 3) || (cycle[0] == 3 && cycle[1] == 2)));
    /* A ring of three rows, one of two and one of three: the shortest, in the second machine, and nothing of the first behind it. */
    const uint8_t rings[] = {3, 0, 3, 3, 2, 1, 3, 1, 2, 3, 2, 0, 2, 2, 2, 1, 3, 1, 0, 3, 3, 2, 1, 3, 1, 2, 3, 2, 0};
    weigh_is("three rings, later entries", rings, sizeof rings, no_weights, 0, 64, shown, 2);
    a = hemtaluq_weigh(rings, sizeof rings, no_weights, 0, cycle, 64);
    check("the shortest ring is shown", a.rows == 2 && ((cycle[0] == 3 && cycle[1] == 4) || (cycle[0] == 4 && cycle[1] == 3)));
    /* Every row takes a type that weighs 1 and sends one that weighs 0. S is 16 * 63, n 64 and w 1. */
    a = hemtaluq_weigh(largest, HEMTALUQ_LONGEST_FILE, lower, 64, cycle, 64);
    check("the largest plant passes", a.kind == HEMTALUQ_PASSED && a.base == 1008 + 64 * 1008 && a.most_states == 64 && a.per_progress == 63 + 64 * 64
                                          && a.per_doubling == 64);
}

static void quote_is(const char *what, const uint8_t *file, size_t length, const uint16_t *weights, size_t count, const uint32_t *contents, size_t amounts, uint32_t g, uint32_t d, hemtaluq_quote_answer e) {
    hemtaluq_quote_answer a = hemtaluq_quote(file, length, weights, count, contents, amounts, g, d);
    check(what, a.kind == e.kind && a.number == e.number && a.place == e.place && a.ceiling == e.ceiling && a.price_class == e.price_class);
}

static void quoting(void) {
    const uint32_t c34[] = {3, 4}, most[] = {1000000, 1000000}, above[] = {1000000, 1000001};
    const uint16_t w11[] = {1, 1};
    const uint8_t machines[] = {16, 64, 64, 0, 64, 0, 64, 0, 64, 0, 64, 0, 64, 0, 64, 0, 64, 0, 64, 0, 64, 0, 64, 0, 64, 0, 64, 0, 64, 0, 64, 0, 64, 0};
    hemtaluq_quote_answer q39 = {HEMTALUQ_CEILING, 0, 6, 0, 39}, zero = {HEMTALUQ_CEILING, 0, 0, 0, 0}, top = {HEMTALUQ_CEILING, 0, 43, 0, HEMTALUQ_LARGEST_CEILING};
    /* n is 2 and w 2, so that a doubling adds 4. */
    hemtaluq_quote_answer q51 = {HEMTALUQ_CEILING, 0, 6, 0, 51}, doublings = {HEMTALUQ_CEILING, 0, 22, 0, 39 + 4 * 1000000};
    hemtaluq_quote_answer millions = {HEMTALUQ_CEILING, 0, 23, 0, 10 + 2 * 3000000};
    hemtaluq_quote_answer r20 = {HEMTALUQ_REFUSED, 20, 0, 0, 0}, r21 = {HEMTALUQ_REFUSED, 21, 0, 1, 0}, rg = {HEMTALUQ_REFUSED, 21, 0, 2, 0}, rd = {HEMTALUQ_REFUSED, 21, 0, 3, 0}, r22 = {HEMTALUQ_REFUSED, 22, 0, 0, 0};
    hemtaluq_quote_answer untyped = {HEMTALUQ_REFUSED, 21, 0, 1, 0};
    uint16_t weights[64];
    uint32_t contents[64];
    for (size_t t = 0; t < 64; t++) {
        weights[t] = HEMTALUQ_LARGEST_WEIGHT;
        contents[t] = HEMTALUQ_LARGEST_AMOUNT;
    }
    quote_is("A, contents 3, 4, g 1", plant_a, sizeof plant_a, weights_2_1, 2, c34, 2, 1, 0, q39);
    quote_is("one state", one_state, sizeof one_state, no_weights, 0, no_numbers, 0, 0, 0, zero);
    quote_is("the largest ceiling", machines, sizeof machines, weights, 64, contents, 64, HEMTALUQ_LARGEST_AMOUNT, HEMTALUQ_LARGEST_AMOUNT, top);
    quote_is("contents of 1,000,000", plant_a, sizeof plant_a, weights_2_1, 2, most, 2, 0, 0, millions);
    quote_is("a content too few", plant_a, sizeof plant_a, weights_2_1, 2, c34, 1, 1, 0, r20);
    quote_is("content 1,000,001", plant_a, sizeof plant_a, weights_2_1, 2, above, 2, 1, 0, r21);
    quote_is("g 1,000,001", plant_a, sizeof plant_a, weights_2_1, 2, c34, 2, 1000001, 0, rg);
    quote_is("A, contents 3, 4, g 1, d 3", plant_a, sizeof plant_a, weights_2_1, 2, c34, 2, 1, 3, q51);
    quote_is("d 1,000,000", plant_a, sizeof plant_a, weights_2_1, 2, c34, 2, 1, 1000000, doublings);
    quote_is("d 1,000,001", plant_a, sizeof plant_a, weights_2_1, 2, c34, 2, 1, 1000001, rd);
    quote_is("the largest d of 32 bits", plant_a, sizeof plant_a, weights_2_1, 2, c34, 2, 1, UINT32_MAX, rd);
    quote_is("a content, before g and d", plant_a, sizeof plant_a, weights_2_1, 2, above, 2, 1000001, 1000001, r21);
    quote_is("g, before d", plant_a, sizeof plant_a, weights_2_1, 2, c34, 2, 1000001, 1000001, rg);
    quote_is("d, before weights that do not pass", plant_a, sizeof plant_a, w11, 2, c34, 2, 1, 1000001, rd);
    quote_is("one state, d 1,000,000", one_state, sizeof one_state, no_weights, 0, no_numbers, 0, 0, 1000000, zero);
    quote_is("no types, d 1,000,001", one_state, sizeof one_state, no_weights, 0, no_numbers, 0, 0, 1000001, untyped);
    quote_is("weights that do not pass", plant_a, sizeof plant_a, w11, 2, c34, 2, 1, 0, r22);
}

static void list_is(const char *what, const uint8_t *file, size_t length, uint32_t machine, size_t room, hemtaluq_list_answer e, const uint16_t *after) {
    uint16_t out[8] = {7, 7, 7, 7, 7, 7, 7, 7};
    hemtaluq_list_answer a = hemtaluq_list(file, length, machine, out, room);
    check(what, a.kind == e.kind && a.number == e.number && a.place == e.place && a.entries == e.entries && memcmp(out, after, sizeof out) == 0);
}

static void listing(void) {
    const uint16_t kept[8] = {7, 7, 7, 7, 7, 7, 7, 7}, probe[8] = {2, 2, 3, 7, 7, 7, 7, 7};
    const uint8_t states_25[] = {1, 0, 25, 0};
    hemtaluq_list_answer three = {HEMTALUQ_LISTED, 0, 0, 3}, none = {HEMTALUQ_LISTED, 0, 0, 0};
    hemtaluq_list_answer r12 = {HEMTALUQ_REFUSED, 12, 0, 0}, r13 = {HEMTALUQ_REFUSED, 13, 0, 0}, r14 = {HEMTALUQ_REFUSED, 14, 0, 0};
    list_is("A's machine 1, lent 8", plant_a, sizeof plant_a, 1, 8, three, probe);
    list_is("A's machine 1, lent 3", plant_a, sizeof plant_a, 1, 3, three, probe);
    list_is("A's machine 1, lent 2", plant_a, sizeof plant_a, 1, 2, r14, kept);
    list_is("no rows, lent 0", one_state, sizeof one_state, 0, 0, none, kept);
    list_is("machine 2 of 2", plant_a, sizeof plant_a, 2, 8, r12, kept);
    list_is("machine 4,294,967,295", plant_a, sizeof plant_a, 4294967295u, 8, r12, kept);
    list_is("25 states", states_25, sizeof states_25, 0, 8, r13, kept);
    hemtaluq_list_answer a = hemtaluq_list(largest, HEMTALUQ_LONGEST_FILE, 15, no_entries, 0);
    check("the largest plant's machine 15", a.kind == HEMTALUQ_REFUSED && a.number == HEMTALUQ_MACHINE_SIZE);
}

static void confirm_is(const char *what, const uint8_t *file, size_t length, const uint32_t *set, size_t count, hemtaluq_confirm_answer e) {
    hemtaluq_confirm_answer a = hemtaluq_confirm(file, length, set, count);
    check(what, a.kind == e.kind && a.number == e.number && a.place == e.place && a.message_type == e.message_type && a.sum == e.sum);
}

static void confirming(void) {
    const uint32_t both[] = {0, 1, 2, 0, 1, 1, 1, 2, 2, 3}, wrong[] = {0, 1, 2, 0, 1, 1, 1, 2, 2, 2}, far[] = {0, 1, 2, 0, 4};
    hemtaluq_confirm_answer yes = {HEMTALUQ_CONFIRMED, 0, 0, 0, 0}, no = {HEMTALUQ_NEGATIVE, 0, 0, 1, -1}, least = {HEMTALUQ_NEGATIVE, 0, 0, 63, -16384000000};
    hemtaluq_confirm_answer r15 = {HEMTALUQ_REFUSED, 15, 4, 0, 0}, r16 = {HEMTALUQ_REFUSED, 16, 4, 0, 0}, r17 = {HEMTALUQ_REFUSED, 17, 5, 0, 0};
    hemtaluq_confirm_answer r18 = {HEMTALUQ_REFUSED, 18, 0, 0, 0}, many = {HEMTALUQ_REFUSED, 18, 256 * 5, 0, 0}, a17 = {HEMTALUQ_REFUSED, 17, 0, 0, 0};
    static uint32_t entries[257 * 5], heavy[256 * 67];
    static uint8_t taking[2 + 2 + 64 * 4];
    for (size_t i = 0; i < LENGTH(entries); i++) entries[i] = both[i % 5];
    taking[0] = 1;
    taking[1] = 64;
    taking[2] = taking[3] = 64;
    for (size_t k = 0; k < 64; k++) {
        uint8_t row[4] = {0x0B, (uint8_t)k, (uint8_t)((k + 1) % 64), 63};
        memcpy(taking + 4 + 4 * k, row, 4);
    }
    for (size_t i = 0; i < LENGTH(heavy); i++) {
        size_t j = i % 67;
        heavy[i] = j == 0 ? 0 : j == 1 ? HEMTALUQ_LARGEST_AMOUNT : j == 2 ? 64 : (uint32_t)(j - 3);
    }
    confirm_is("B, both cycles once", plant_b, sizeof plant_b, both, 10, yes);
    confirm_is("B, the panel's cycle alone", plant_b, sizeof plant_b, both, 5, no);
    confirm_is("A, a progress cycle", plant_a, sizeof plant_a, both, 10, a17);
    confirm_is("the list ends", plant_b, sizeof plant_b, both, 4, r15);
    confirm_is("row 4 of 4", plant_b, sizeof plant_b, far, 5, r16);
    confirm_is("a broken chain", plant_b, sizeof plant_b, wrong, 10, r17);
    confirm_is("an empty list", plant_b, sizeof plant_b, no_numbers, 0, r18);
    confirm_is("257 entries", plant_b, sizeof plant_b, entries, LENGTH(entries), many);
    confirm_is("256 entries of 64 rows and 1,000,000 repeats", taking, sizeof taking, heavy, LENGTH(heavy), least);
}

/* Writes to a buffer of sevens and checks the answer, and that the buffer has the file, of no bytes with a refusal, and then still sevens. */
static void write_as(const char *what, const uint16_t *numbers, size_t count, size_t room, hemtaluq_write_answer e, const uint8_t *file) {
    static uint8_t out[HEMTALUQ_LONGEST_FILE + 10];
    int good = 1;
    memset(out, 7, sizeof out);
    hemtaluq_write_answer a = hemtaluq_write(numbers, count, out, room);
    for (size_t i = e.length; i < sizeof out; i++) good = good && out[i] == 7;
    check(what, good && a.kind == e.kind && a.number == e.number && a.place == e.place && a.length == e.length && memcmp(out, file, e.length) == 0);
}

static void write_is(const char *what, const uint16_t *numbers, size_t count, size_t room, const uint8_t *file, size_t length) {
    hemtaluq_write_answer e = {HEMTALUQ_WROTE, 0, 0, length};
    write_as(what, numbers, count, room, e, file);
}

static void write_refused(const char *what, const uint16_t *numbers, size_t count, size_t room, uint8_t number, size_t place) {
    hemtaluq_write_answer e = {HEMTALUQ_REFUSED, number, place, 0};
    write_as(what, numbers, count, room, e, no_bytes);
}

/* A's list with one number changed is refused with 24 there. */
static void changed_refused(const char *what, size_t at, uint16_t number) {
    uint16_t list[] = {LIST_A};
    list[at] = number;
    write_refused(what, list, LENGTH(list), 20, HEMTALUQ_LIST_NUMBER, at);
}

static void writing(void) {
    /* Rows that stay, that leave the state of the row before, and the first row of a second machine, which leaves state 0. */
    const uint16_t left_out[] = {2, 0, 3, 4, 0, 0, 0, 0, 0, 0, 0, 2, 0, 0, 1, 0, 2, 2, 0, 0, 0, 0, 2, 1, 0, 0, 0, 0, 2, 1, 0, 1, 0, 0, 1, 0};
    const uint8_t shortest[] = {2, 0, 3, 4, 0x00, 0x12, 2, 0x01, 2, 0x02, 1, 2, 1, 0x12, 1};
    const uint16_t one[] = {1, 0, 1, 0}, more[] = {LIST_A, 0}, no_types[] = {1, 0, 1, 1, 0, 0, 1, 0, 0, 0}, kind_0[] = {1, 2, 1, 1, 0, 0, 0, 1, 0, 0};
    const uint16_t machines_17[] = {17}, rows_256[] = {1, 0, 1, 256}, most[] = {65535, 65535};
    const size_t last_count = 2 + 4 * (2 + 6 * 255) + 1;
    static uint16_t rows[2 + 5 * 2 + 6 * 1025];
    static uint8_t file[2 + 5 * 2 + 1024 * 3];
    size_t length = file_of_rows(file, 1024);
    write_is("A's list, lent 20", list_a, LENGTH(list_a), sizeof plant_a, plant_a, sizeof plant_a);
    write_is("A's list, lent 30", list_a, LENGTH(list_a), 30, plant_a, sizeof plant_a);
    write_is("states left out", left_out, LENGTH(left_out), sizeof shortest, shortest, sizeof shortest);
    write_is("one state", one, LENGTH(one), 30, one_state, sizeof one_state);
    write_is("1,024 rows, 255 of a machine leaving one state, written", rows, list_of_rows(rows, 1024), length, file, length);
    write_is("the longest list", longest_list, HEMTALUQ_LONGEST_LIST, HEMTALUQ_LONGEST_FILE, largest, HEMTALUQ_LONGEST_FILE);
    write_refused("an empty list", no_weights, 0, 20, HEMTALUQ_LIST_LENGTH, 0);
    write_refused("A's list cut", list_a, LENGTH(list_a) - 1, 20, HEMTALUQ_LIST_LENGTH, 29);
    write_refused("a number too many", more, LENGTH(more), 30, HEMTALUQ_LIST_LENGTH, 30);
    write_refused("a number too many, before the room", more, LENGTH(more), 0, HEMTALUQ_LIST_LENGTH, 30);
    write_refused("the longest list cut", longest_list, HEMTALUQ_LONGEST_LIST - 1, HEMTALUQ_LONGEST_FILE, HEMTALUQ_LIST_LENGTH, HEMTALUQ_LONGEST_LIST - 1);
    write_refused("a number after the longest list", longest_list, LENGTH(longest_list), HEMTALUQ_LONGEST_FILE, HEMTALUQ_LIST_LENGTH, HEMTALUQ_LONGEST_LIST);
    changed_refused("no machines", 0, 0);
    changed_refused("65 types", 1, 65);
    changed_refused("no states", 2, 0);
    changed_refused("a list of 65 states", 2, 65);
    changed_refused("a row of A leaves state 2", 4, 2);
    changed_refused("a row of A enters state 2", 5, 2);
    changed_refused("kind 4", 6, 4);
    changed_refused("a row of A sends type 2", 7, 2);
    changed_refused("progress 2", 14, 2);
    changed_refused("a sixth number for kind 1", 9, 1);
    changed_refused("a sixth number for kind 2", 15, 1);
    changed_refused("the last number, 65,535", 29, 65535);
    write_refused("a wrong number before a missing one", machines_17, LENGTH(machines_17), 20, HEMTALUQ_LIST_NUMBER, 0);
    write_refused("a wrong number before the room", most, LENGTH(most), 0, HEMTALUQ_LIST_NUMBER, 0);
    write_refused("256 rows, before they are missing", rows_256, LENGTH(rows_256), 20, HEMTALUQ_LIST_NUMBER, 3);
    write_refused("a list of 1,025 rows, at the count", rows, list_of_rows(rows, 1025), length, HEMTALUQ_LIST_NUMBER, last_count);
    write_refused("a row that sends, and no types", no_types, LENGTH(no_types), 20, HEMTALUQ_LIST_NUMBER, 7);
    write_refused("kind 0 with type 1", kind_0, LENGTH(kind_0), 20, HEMTALUQ_LIST_NUMBER, 7);
    write_refused("A's list, lent 19", list_a, LENGTH(list_a), 19, HEMTALUQ_OUTPUT_ROOM, 0);
    write_refused("A's list, lent 0", list_a, LENGTH(list_a), 0, HEMTALUQ_OUTPUT_ROOM, 0);
    write_refused("the longest list, lent 5,153", longest_list, HEMTALUQ_LONGEST_LIST, HEMTALUQ_LONGEST_FILE - 1, HEMTALUQ_OUTPUT_ROOM, 0);
}

/* Kind 3: the fourth number is the type taken, the sixth the type sent. Fourth, fifth and sixth number are judged in this order. */
static void writing_both(void) {
    const uint16_t both[] = {1, 2, 1, 1, 0, 0, 3, 1, 0, 0}, same[] = {1, 2, 1, 1, 0, 0, 3, 1, 1, 1}, all[] = {1, 2, 3, 1, 2, 1, 3, 0, 1, 1};
    const uint8_t both_file[] = {1, 2, 1, 1, 0x0C, 0, 1}, same_file[] = {1, 2, 1, 1, 0x1C, 1, 1}, all_file[] = {1, 2, 3, 1, 0x1F, 2, 1, 1, 0};
    const uint16_t taken[] = {1, 2, 1, 1, 0, 0, 3, 2, 2, 2}, progress[] = {1, 2, 1, 1, 0, 0, 3, 1, 2, 2}, sent[] = {1, 2, 1, 1, 0, 0, 3, 1, 1, 2};
    const uint16_t none[] = {1, 0, 1, 1, 0, 0, 3, 0, 0, 0}, kind_0[] = {1, 2, 1, 1, 0, 0, 0, 0, 0, 1}, more[] = {1, 2, 1, 1, 0, 0, 3, 1, 0, 0, 0};
    const uint16_t five[] = {2, 2, 2, 2, 0, 1, 1, 0, 0, 1, 0, 2, 1, 1, 2, 2, 0, 1, 2, 0, 0, 1, 0, 1, 1, 0};
    write_is("kind 3", both, LENGTH(both), sizeof both_file, both_file, sizeof both_file);
    write_is("kind 3 with one type", same, LENGTH(same), sizeof same_file, same_file, sizeof same_file);
    write_is("kind 3 with all fields", all, LENGTH(all), sizeof all_file, all_file, sizeof all_file);
    write_refused("kind 3, a wrong fourth number first", taken, LENGTH(taken), 20, HEMTALUQ_LIST_NUMBER, 7);
    write_refused("kind 3, a wrong fifth number before the sixth", progress, LENGTH(progress), 20, HEMTALUQ_LIST_NUMBER, 8);
    write_refused("kind 3, a wrong sixth number", sent, LENGTH(sent), 20, HEMTALUQ_LIST_NUMBER, 9);
    write_refused("kind 3, the sixth number missing", sent, LENGTH(sent) - 1, 20, HEMTALUQ_LIST_LENGTH, 9);
    write_refused("kind 3, and no types", none, LENGTH(none), 20, HEMTALUQ_LIST_NUMBER, 7);
    write_refused("kind 0 with a sixth number", kind_0, LENGTH(kind_0), 20, HEMTALUQ_LIST_NUMBER, 9);
    write_refused("kind 3, and a number too many", more, LENGTH(more), 20, HEMTALUQ_LIST_LENGTH, 10);
    write_refused("kind 3, lent 6", both, LENGTH(both), sizeof both_file - 1, HEMTALUQ_OUTPUT_ROOM, 0);
    write_refused("A's list of before, with five numbers a row", five, LENGTH(five), 20, HEMTALUQ_LIST_NUMBER, 9);
}

/* A row that equals an earlier row of its machine is refused at its first number; the same row in another machine is not. */
static void writing_twins(void) {
    const uint16_t behind[] = {2, 2, 2, 2, 0, 1, 1, 0, 0, 0, 1, 0, 2, 1, 1, 0, 2, 3, 0, 1, 2, 0, 0, 0, 1, 0, 1, 1, 0, 0, 0, 1, 2, 0, 0, 0};
    const uint16_t machines[] = {2, 0, 1, 1, 0, 0, 0, 0, 1, 0, 1, 1, 0, 0, 0, 0, 1, 0}, more[] = {1, 0, 1, 2, 0, 0, 0, 0, 0, 0, 0, 0, 0, 0, 0, 0, 7};
    const uint16_t state[] = {1, 0, 1, 2, 0, 0, 0, 0, 0, 0, 0, 1, 0, 0, 0, 0}, progress[] = {1, 0, 1, 2, 0, 0, 0, 0, 0, 0, 0, 0, 0, 0, 2, 0};
    const uint16_t sixth[] = {1, 0, 1, 2, 0, 0, 0, 0, 0, 0, 0, 0, 0, 0, 0, 1}, both[] = {1, 2, 1, 2, 0, 0, 3, 1, 0, 0, 0, 0, 3, 1, 0, 0};
    const uint16_t next[] = {1, 0, 1, 3, 0, 0, 0, 0, 0, 0, 0, 0, 0, 0, 0, 0, 7}, states[] = {2, 0, 1, 2, 0, 0, 0, 0, 0, 0, 0, 0, 0, 0, 0, 0, 65};
    const uint8_t two[] = {2, 0, 1, 1, 0x10, 1, 1, 0x10};
    static uint16_t rows[2 + 5 * 2 + 6 * 1024];
    size_t count = list_of_rows(rows, 1024), last = 2 + 4 * (2 + 6 * 255) - 6;
    write_refused("a list with a twin row behind another row", behind, LENGTH(behind), 30, HEMTALUQ_TWIN_ROW, 30);
    write_refused("a list with a twin row of kind 3", both, LENGTH(both), 30, HEMTALUQ_TWIN_ROW, 10);
    write_is("a list with the same row in two machines", machines, LENGTH(machines), sizeof two, two, sizeof two);
    write_is("a list of rows that differ in one thing", differing_list, LENGTH(differing_list), sizeof differing, differing, sizeof differing);
    write_refused("a wrong state of a row first", state, LENGTH(state), 20, HEMTALUQ_LIST_NUMBER, 11);
    write_refused("a wrong fifth number first", progress, LENGTH(progress), 20, HEMTALUQ_LIST_NUMBER, 14);
    write_refused("a wrong sixth number first", sixth, LENGTH(sixth), 20, HEMTALUQ_LIST_NUMBER, 15);
    write_refused("a missing sixth number first", sixth, LENGTH(sixth) - 1, 20, HEMTALUQ_LIST_LENGTH, 15);
    write_refused("a twin row before a missing number", next, LENGTH(next) - 1, 20, HEMTALUQ_TWIN_ROW, 10);
    write_refused("a twin row before a wrong number", next, LENGTH(next), 20, HEMTALUQ_TWIN_ROW, 10);
    write_refused("a twin row before the next machine", states, LENGTH(states), 20, HEMTALUQ_TWIN_ROW, 10);
    write_refused("a twin row before a number too many", more, LENGTH(more), 20, HEMTALUQ_TWIN_ROW, 10);
    write_refused("a twin row before the room", behind, LENGTH(behind), 0, HEMTALUQ_TWIN_ROW, 30);
    memset(rows + last, 0, 6 * sizeof *rows);
    write_refused("the last of 255 rows equal to the first, in a list", rows, count, HEMTALUQ_LONGEST_FILE, HEMTALUQ_TWIN_ROW, last);
}

/* The other calls refuse a file with a twin row before they look at what else they are given. */
static void refusing_twins(void) {
    const uint16_t kept[8] = {7, 7, 7, 7, 7, 7, 7, 7};
    hemtaluq_weigh_answer weighed = {HEMTALUQ_REFUSED, HEMTALUQ_TWIN_ROW, 20, 0, 0, 0, 0, 0};
    hemtaluq_quote_answer quoted = {HEMTALUQ_REFUSED, HEMTALUQ_TWIN_ROW, 0, 20, 0};
    hemtaluq_list_answer listed = {HEMTALUQ_REFUSED, HEMTALUQ_TWIN_ROW, 20, 0};
    hemtaluq_confirm_answer confirmed = {HEMTALUQ_REFUSED, HEMTALUQ_TWIN_ROW, 20, 0, 0};
    weigh_is("weigh, a twin row", twin_row, sizeof twin_row, no_weights, 0, 0, weighed, 0);
    quote_is("quote, a twin row", twin_row, sizeof twin_row, no_weights, 0, no_numbers, 0, 1000001, 0, quoted);
    list_is("list, a twin row", twin_row, sizeof twin_row, 2, 0, listed, kept);
    confirm_is("confirm, a twin row", twin_row, sizeof twin_row, no_numbers, 0, confirmed);
}

/* A row that takes type 1 and sends type 0 without leaving its state, one that takes 0 and sends 1, and one that takes and sends one type: its effect is
 * the message sent less the message taken, and zero where both are of one type. */
static void taking_and_sending(void) {
    const uint8_t down[] = {1, 2, 1, 1, 0x0C, 0, 1}, up[] = {1, 2, 1, 1, 0x0C, 1, 0}, same[] = {1, 2, 1, 1, 0x0C, 1, 1};
    const uint16_t w03[] = {0, 3}, w33[] = {3, 3}, cycle[8] = {1, 0, 7, 7, 7, 7, 7, 7};
    const uint32_t c52[] = {5, 2}, set[] = {0, 4, 1, 0};
    /* S is 0, n 1 and w 3; the ceiling is 3 * 2 + 3 * 1. */
    hemtaluq_weigh_answer passes = {HEMTALUQ_PASSED, 0, 0, 0, 1, 3, 3, 0}, shown = {HEMTALUQ_CYCLE, 0, 0, 0, 0, 0, 0, 1};
    hemtaluq_quote_answer nine = {HEMTALUQ_CEILING, 0, 4, 0, 9}, r22 = {HEMTALUQ_REFUSED, 22, 0, 0, 0};
    hemtaluq_list_answer listed = {HEMTALUQ_LISTED, 0, 0, 2};
    hemtaluq_confirm_answer less_1 = {HEMTALUQ_NEGATIVE, 0, 0, 1, -4}, less_0 = {HEMTALUQ_NEGATIVE, 0, 0, 0, -4}, balanced = {HEMTALUQ_CONFIRMED, 0, 0, 0, 0};
    weigh_is("takes a type of weight 3, sends one of 0", down, sizeof down, w03, 2, 64, passes, 0);
    weigh_is("takes a type of weight 0, sends one of 3", up, sizeof up, w03, 2, 64, shown, 1);
    weigh_is("takes and sends types of one weight", down, sizeof down, w33, 2, 64, shown, 1);
    weigh_is("takes and sends one type", same, sizeof same, w03, 2, 64, shown, 1);
    quote_is("takes a type of weight 3, contents 5, 2, g 1", down, sizeof down, w03, 2, c52, 2, 1, 0, nine);
    quote_is("takes and sends one type, no ceiling", same, sizeof same, w03, 2, c52, 2, 1, 0, r22);
    list_is("takes and sends, listed", down, sizeof down, 0, 8, listed, cycle);
    confirm_is("takes type 1 four times", down, sizeof down, set, 4, less_1);
    confirm_is("takes type 0 four times", up, sizeof up, set, 4, less_0);
    confirm_is("takes and sends one type four times", same, sizeof same, set, 4, balanced);
}

/* The other calls read what was written: plant A, and then plant B, whose file is as long, into the same buffer. */
static void written_is_read(void) {
    const uint32_t c34[] = {3, 4}, both[] = {0, 1, 2, 0, 1, 1, 1, 2, 2, 3};
    const uint16_t probe[8] = {2, 2, 3, 7, 7, 7, 7, 7};
    uint16_t list[] = {LIST_A};
    uint8_t file[30];
    hemtaluq_read_answer counts = {HEMTALUQ_COUNTS, 0, 2, 0, 2, 4};
    hemtaluq_weigh_answer passes = {HEMTALUQ_PASSED, 0, 0, 10, 2, 9, 4, 0};
    hemtaluq_quote_answer q39 = {HEMTALUQ_CEILING, 0, 6, 0, 39};
    hemtaluq_list_answer three = {HEMTALUQ_LISTED, 0, 0, 3};
    hemtaluq_confirm_answer balanced = {HEMTALUQ_CONFIRMED, 0, 0, 0, 0};
    size_t length = hemtaluq_write(list, LENGTH(list), file, sizeof file).length;
    read_is("A as written", file, length, counts);
    weigh_is("A as written, weights 2, 1", file, length, weights_2_1, 2, 64, passes, 0);
    quote_is("A as written, contents 3, 4, g 1", file, length, weights_2_1, 2, c34, 2, 1, 0, q39);
    list_is("A's machine 1 as written", file, length, 1, 8, three, probe);
    list[14] = 0;
    length = hemtaluq_write(list, LENGTH(list), file, sizeof file).length;
    confirm_is("B as written, both cycles once", file, length, both, 10, balanced);
}

/* A list of length 0 may have a null pointer: each list of each call, alone and with the others, as far as the call judges it. */
static void null_pointers(void) {
    const uint32_t c34[] = {3, 4};
    hemtaluq_weigh_answer ends = {HEMTALUQ_REFUSED, 1, 0, 0, 0, 0, 0, 0}, none = {HEMTALUQ_PASSED, 0, 0, 0, 1, 0, 0, 0};
    hemtaluq_weigh_answer r9 = {HEMTALUQ_REFUSED, 9, 0, 0, 0, 0, 0, 0};
    hemtaluq_quote_answer no_plant = {HEMTALUQ_REFUSED, 1, 0, 0, 0}, zero = {HEMTALUQ_CEILING, 0, 0, 0, 0};
    hemtaluq_quote_answer nine = {HEMTALUQ_REFUSED, 9, 0, 0, 0}, r20 = {HEMTALUQ_REFUSED, 20, 0, 0, 0};
    hemtaluq_confirm_answer no_file = {HEMTALUQ_REFUSED, 1, 0, 0, 0}, r18 = {HEMTALUQ_REFUSED, 18, 0, 0, 0};
    hemtaluq_list_answer l = hemtaluq_list(NULL, 0, 0, NULL, 0);
    check("list, no file and no room, null", l.kind == HEMTALUQ_REFUSED && l.number == HEMTALUQ_FILE_ENDS && l.place == 0 && l.entries == 0);
    l = hemtaluq_list(one_state, sizeof one_state, 0, NULL, 0);
    check("list, no rows and no room, null", l.kind == HEMTALUQ_LISTED && l.number == 0 && l.place == 0 && l.entries == 0);
    l = hemtaluq_list(plant_a, sizeof plant_a, 1, NULL, 0);
    check("list, cycles and no room, null", l.kind == HEMTALUQ_REFUSED && l.number == HEMTALUQ_LISTING_ROOM && l.place == 0 && l.entries == 0);
    hemtaluq_weigh_answer w = hemtaluq_weigh(NULL, 0, NULL, 0, NULL, 0);
    check("weigh, three null lists", w.kind == HEMTALUQ_REFUSED && w.number == HEMTALUQ_FILE_ENDS && w.place == 0);
    w = hemtaluq_weigh(one_state, sizeof one_state, NULL, 0, NULL, 0);
    check("weigh, no weights and no room, null", w.kind == HEMTALUQ_REFUSED && w.number == HEMTALUQ_CYCLE_ROOM && w.place == 0);
    weigh_is("weigh, no file, null", NULL, 0, weights_2_1, 2, 64, ends, 0);
    weigh_is("weigh, no types, weights null", one_state, sizeof one_state, NULL, 0, 64, none, 0);
    weigh_is("weigh, types, weights null", plant_a, sizeof plant_a, NULL, 0, 64, r9, 0);
    read_refused("read, no file, null", NULL, 0, HEMTALUQ_FILE_ENDS, 0);
    quote_is("quote, three null lists", NULL, 0, NULL, 0, NULL, 0, 0, 0, no_plant);
    quote_is("quote, no types, weights and contents null", one_state, sizeof one_state, NULL, 0, NULL, 0, 0, 0, zero);
    quote_is("quote, weights null", plant_a, sizeof plant_a, NULL, 0, c34, 2, 1, 0, nine);
    quote_is("quote, contents null", plant_a, sizeof plant_a, weights_2_1, 2, NULL, 0, 1, 0, r20);
    confirm_is("confirm, no file and no set, null", NULL, 0, NULL, 0, no_file);
    confirm_is("confirm, no set, null", plant_b, sizeof plant_b, NULL, 0, r18);
    hemtaluq_write_answer n = hemtaluq_write(NULL, 0, NULL, 0);
    check("write, no numbers and no room, null", n.kind == HEMTALUQ_REFUSED && n.number == HEMTALUQ_LIST_LENGTH && n.place == 0 && n.length == 0);
    n = hemtaluq_write(list_a, LENGTH(list_a), NULL, 0);
    check("write, no room, null", n.kind == HEMTALUQ_REFUSED && n.number == HEMTALUQ_OUTPUT_ROOM && n.place == 0 && n.length == 0);
    write_refused("write, no numbers, null", NULL, 0, 20, HEMTALUQ_LIST_LENGTH, 0);
}

/* ---- watchers */

/* The watcher of these checks, and bytes on both sides of it that no call may touch. */
static struct {
    uint8_t below[64];
    hemtaluq_watcher watcher;
    uint8_t above[64];
} guarded;
static hemtaluq_watcher *const watcher = &guarded.watcher;

static int guards_stand(void) {
    int good = 1;
    for (size_t i = 0; i < sizeof guarded.below; i++) good = good && guarded.below[i] == 7 && guarded.above[i] == 7;
    return good;
}

static int same_bytes(const hemtaluq_watcher *a, const hemtaluq_watcher *b) {
    return memcmp(a, b, sizeof *a) == 0;
}

/* Opens over a struct of sevens. */
static hemtaluq_watch_answer opened(const uint8_t *file, size_t length, const uint16_t *weights, size_t count, const uint32_t *contents, size_t amounts) {
    memset(&guarded, 7, sizeof guarded);
    return hemtaluq_watch_open(watcher, file, length, weights, count, contents, amounts);
}

static void open_is(const char *what, const uint8_t *file, size_t length, const uint16_t *weights, size_t count, const uint32_t *contents, size_t amounts,
                    uint64_t left) {
    hemtaluq_watch_answer a = opened(file, length, weights, count, contents, amounts);
    check(what, a.kind == HEMTALUQ_REMAINING && a.number == 0 && a.place == 0 && a.left == left && guards_stand());
}

/* A refused opening leaves zeros alone. */
static void open_refused(const char *what, const uint8_t *file, size_t length, const uint16_t *weights, size_t count, const uint32_t *contents, size_t amounts,
                         uint8_t number, size_t place) {
    static hemtaluq_watcher zeros;
    hemtaluq_watch_answer a = opened(file, length, weights, count, contents, amounts);
    check(what, a.kind == HEMTALUQ_REFUSED && a.number == number && a.place == place && a.left == 0 && same_bytes(watcher, &zeros) && guards_stand());
}

enum event { ROW, LOSS, DOUBLING };

static hemtaluq_watch_answer answer_to(enum event event, uint32_t number) {
    if (event == ROW) return hemtaluq_watch_row(watcher, number);
    return event == LOSS ? hemtaluq_watch_loss(watcher, number) : hemtaluq_watch_doubling(watcher, number);
}

static void event_is(const char *what, enum event event, uint32_t number, uint64_t left) {
    hemtaluq_watch_answer a = answer_to(event, number);
    check(what, a.kind == HEMTALUQ_REMAINING && a.number == 0 && a.place == 0 && a.left == left && guards_stand());
}

/* A refused event changes no byte. */
static void event_refused(const char *what, enum event event, uint32_t number, uint8_t fault) {
    hemtaluq_watcher before = *watcher;
    hemtaluq_watch_answer a = answer_to(event, number);
    check(what, a.kind == HEMTALUQ_REFUSED && a.number == fault && a.place == 0 && a.left == 0 && same_bytes(watcher, &before) && guards_stand());
}

/* So many times the events of a list; whether each was accepted. */
static int repeated(uint32_t times, const enum event *events, const uint32_t *numbers, size_t count) {
    int good = 1;
    for (uint32_t i = 0; i < times; i++)
        for (size_t k = 0; k < count; k++) good = answer_to(events[k], numbers[k]).kind == HEMTALUQ_REMAINING && good;
    return good;
}

static const uint32_t contents_3_4[] = {3, 4};

static void open_a(void) {
    opened(plant_a, sizeof plant_a, weights_2_1, 2, contents_3_4, 2);
}

/* Each fault of an opening, at its place, and in the order of quoting: the file, the weights, the contents, and then whether the weights pass. */
static void opening(void) {
    const uint8_t machines_17[] = {17, 0}, states_65[] = {1, 0, 65, 0}, map[] = {1, 0, 1, 1, 0x20}, state[] = {1, 0, 2, 1, 0x01, 2};
    const uint8_t type[] = {1, 1, 1, 1, 0x04, 1}, more[] = {1, 0, 1, 0, 0};
    const uint16_t w11[] = {1, 1}, high[] = {1000, 1001}, three[] = {2, 1, 1};
    const uint32_t most[] = {1000000, 1000000}, above[] = {1000000, 1000001}, c345[] = {3, 4, 5};
    static uint8_t rows[2 + 5 * 2 + 1025 * 3];
    size_t last_count = file_of_rows(rows, 4 * 255) - 1, length = file_of_rows(rows, 1025);
    open_is("a watcher on A", plant_a, sizeof plant_a, weights_2_1, 2, contents_3_4, 2, 30);
    open_is("a watcher on one state", one_state, sizeof one_state, no_weights, 0, no_numbers, 0, 0);
    open_is("a watcher, contents of 1,000,000", plant_a, sizeof plant_a, weights_2_1, 2, most, 2, 10 + 2 * 3000000);
    open_refused("opening, an empty file", no_bytes, 0, weights_2_1, 2, contents_3_4, 2, HEMTALUQ_FILE_ENDS, 0);
    open_refused("opening, the largest plant cut", largest, HEMTALUQ_LONGEST_FILE - 1, no_weights, 0, no_numbers, 0, HEMTALUQ_FILE_ENDS,
                 HEMTALUQ_LONGEST_FILE - 1);
    open_refused("opening, 17 machines", machines_17, sizeof machines_17, no_weights, 0, no_numbers, 0, HEMTALUQ_COUNT_LIMITS, 0);
    open_refused("opening, 65 states", states_65, sizeof states_65, no_weights, 0, no_numbers, 0, HEMTALUQ_STATE_LIMITS, 2);
    open_refused("opening, bit 5", map, sizeof map, no_weights, 0, no_numbers, 0, HEMTALUQ_MAP_BYTE, 4);
    open_refused("opening, state 2 of 2", state, sizeof state, no_weights, 0, no_numbers, 0, HEMTALUQ_NOT_A_STATE, 5);
    open_refused("opening, type 1 of 1", type, sizeof type, no_weights, 0, no_numbers, 0, HEMTALUQ_NOT_A_TYPE, 5);
    open_refused("opening, 1,025 rows", rows, length, no_weights, 0, no_numbers, 0, HEMTALUQ_TOTAL_ROWS, last_count);
    open_refused("opening, a byte too many", more, sizeof more, no_weights, 0, no_numbers, 0, HEMTALUQ_BYTES_REMAIN, 4);
    open_refused("opening, a byte after the largest plant", largest, sizeof largest, no_weights, 0, no_numbers, 0, HEMTALUQ_BYTES_REMAIN,
                 HEMTALUQ_LONGEST_FILE);
    open_refused("opening, a twin row", twin_row, sizeof twin_row, weights_2_1, 2, contents_3_4, 2, HEMTALUQ_TWIN_ROW, 20);
    open_refused("opening, a weight too many", plant_a, sizeof plant_a, three, 3, above, 2, HEMTALUQ_WEIGHT_COUNT, 0);
    open_refused("opening, weight 1,001", plant_a, sizeof plant_a, high, 2, contents_3_4, 1, HEMTALUQ_WEIGHT_LIMIT, 1);
    open_refused("opening, a content too few", plant_a, sizeof plant_a, w11, 2, above, 1, HEMTALUQ_CONTENT_COUNT, 0);
    open_refused("opening, a content too many", plant_a, sizeof plant_a, weights_2_1, 2, c345, 3, HEMTALUQ_CONTENT_COUNT, 0);
    open_refused("opening, content 1,000,001", plant_a, sizeof plant_a, w11, 2, above, 2, HEMTALUQ_AMOUNT_LIMIT, 1);
    open_refused("opening, weights that do not pass", plant_a, sizeof plant_a, w11, 2, contents_3_4, 2, HEMTALUQ_NOT_PASSING, 0);
}

/* The lists of length 0 that an opening is given may have null pointers. */
static void opening_null(void) {
    open_refused("opening, three null lists", NULL, 0, NULL, 0, NULL, 0, HEMTALUQ_FILE_ENDS, 0);
    open_refused("opening, no file, null", NULL, 0, weights_2_1, 2, contents_3_4, 2, HEMTALUQ_FILE_ENDS, 0);
    open_refused("opening, weights null", plant_a, sizeof plant_a, NULL, 0, contents_3_4, 2, HEMTALUQ_WEIGHT_COUNT, 0);
    open_refused("opening, contents null", plant_a, sizeof plant_a, weights_2_1, 2, NULL, 0, HEMTALUQ_CONTENT_COUNT, 0);
    open_is("a watcher without types, weights and contents null", one_state, sizeof one_state, NULL, 0, NULL, 0, 0);
}

/* Zeros alone, which a refused opening leaves as well, are a watcher of no plant. */
static void without_plant(void) {
    memset(&guarded, 7, sizeof guarded);
    memset(watcher, 0, sizeof *watcher);
    event_refused("zeros, row 0", ROW, 0, HEMTALUQ_ROW_IMPOSSIBLE);
    event_refused("zeros, the largest row", ROW, UINT32_MAX, HEMTALUQ_ROW_IMPOSSIBLE);
    event_refused("zeros, a loss", LOSS, 0, HEMTALUQ_MESSAGE_ABSENT);
    event_refused("zeros, a doubling", DOUBLING, 0, HEMTALUQ_MESSAGE_ABSENT);
    opened(plant_a, sizeof plant_a - 1, weights_2_1, 2, contents_3_4, 2);
    event_refused("a refused opening, row 0", ROW, 0, HEMTALUQ_ROW_IMPOSSIBLE);
    event_refused("a refused opening, a loss", LOSS, 0, HEMTALUQ_MESSAGE_ABSENT);
    event_refused("a refused opening, a doubling", DOUBLING, 1, HEMTALUQ_MESSAGE_ABSENT);
    open_is("a watcher opens after a refusal", plant_a, sizeof plant_a, weights_2_1, 2, contents_3_4, 2, 30);
}

/* Plant A: 3 requests and 4 answers, F 10, n 2, w 2, so W is 10; G is 9 and n * w 4. What is left never depends on the present contents. */
static void watching(void) {
    open_a();
    event_is("A, the panel asks", ROW, 0, 29);
    event_refused("A, it has asked already", ROW, 0, HEMTALUQ_ROW_IMPOSSIBLE);
    event_is("A, an answer arrives", ROW, 1, 38);
    event_refused("A, no answer was asked for", ROW, 1, HEMTALUQ_ROW_IMPOSSIBLE);
    event_is("A, a request doubled", DOUBLING, 0, 42);
    event_is("A, an answer lost", LOSS, 1, 42);
    event_refused("A, row 4 of 4", ROW, 4, HEMTALUQ_ROW_IMPOSSIBLE);
    event_refused("A, row 256", ROW, 256, HEMTALUQ_ROW_IMPOSSIBLE);
    event_refused("A, row 65,536", ROW, 65536, HEMTALUQ_ROW_IMPOSSIBLE);
    event_refused("A, the largest row", ROW, UINT32_MAX, HEMTALUQ_ROW_IMPOSSIBLE);
    event_refused("A, type 2 of 2 lost", LOSS, 2, HEMTALUQ_MESSAGE_ABSENT);
    event_refused("A, type 64 lost", LOSS, 64, HEMTALUQ_MESSAGE_ABSENT);
    event_refused("A, type 256 lost", LOSS, 256, HEMTALUQ_MESSAGE_ABSENT);
    event_refused("A, the largest type lost", LOSS, UINT32_MAX, HEMTALUQ_MESSAGE_ABSENT);
    event_refused("A, type 2 of 2 doubled", DOUBLING, 2, HEMTALUQ_MESSAGE_ABSENT);
    event_refused("A, type 256 doubled", DOUBLING, 256, HEMTALUQ_MESSAGE_ABSENT);
    event_refused("A, the largest type doubled", DOUBLING, UINT32_MAX, HEMTALUQ_MESSAGE_ABSENT);
    event_is("A, a second answer lost", LOSS, 1, 42);
    event_is("A, the last answer lost", LOSS, 1, 42);
    event_refused("A, no answer to lose", LOSS, 1, HEMTALUQ_MESSAGE_ABSENT);
    event_refused("A, no answer to double", DOUBLING, 1, HEMTALUQ_MESSAGE_ABSENT);
    event_is("A, the panel asks again", ROW, 0, 41);
    event_refused("A, no answer is there", ROW, 1, HEMTALUQ_ROW_IMPOSSIBLE);
    event_is("A, the probe takes a request", ROW, 2, 40);
    event_is("A, the probe answers", ROW, 3, 39);
    event_is("A, the answer arrives", ROW, 1, 48);
}

/* A row that takes and sends one type needs a message, takes first, and leaves as many; one that takes type 1 sends type 0. */
static void watching_both(void) {
    const uint8_t same[] = {1, 2, 1, 2, 0x1C, 1, 1, 0x0C, 0, 1};
    const uint16_t w03[] = {0, 3};
    const uint32_t c01[] = {0, 1};
    /* F is 0, n 1, w 3, and G 3. */
    open_is("a watcher on rows that take and send", same, sizeof same, w03, 2, c01, 2, 3);
    event_is("a row takes and sends the one message", ROW, 0, 6);
    event_is("a row takes type 1 and sends type 0", ROW, 1, 5);
    event_refused("what a row sends itself does not help it", ROW, 0, HEMTALUQ_ROW_IMPOSSIBLE);
    event_is("what the row sent is there", LOSS, 0, 5);
    event_refused("what the row took is not there", DOUBLING, 1, HEMTALUQ_MESSAGE_ABSENT);
}

/* The lists as the header describes them, and a copy of the struct, which is a second watcher. */
static void watcher_lists(void) {
    static const uint8_t table_a[4][6] = {{0, 0, 1, 0, 64, 0}, {0, 1, 0, 64, 1, 1}, {1, 0, 1, 64, 0, 0}, {1, 1, 0, 1, 64, 0}};
    static const uint64_t sizes_a[5] = {20, 4, 2, 9, 4};
    int rows = 1;
    open_a();
    hemtaluq_watcher *w = watcher, first = *watcher;
    for (size_t k = 0; k < 4; k++) rows = rows && memcmp(w->table + 8 * k, table_a[k], 6) == 0;
    check("a watcher has no padding", sizeof *w == sizeof w->copy + sizeof w->table + sizeof w->sizes + sizeof w->states + sizeof w->contents
                                                       + sizeof w->counts);
    check("the copy of A's file", memcmp(w->copy, plant_a, sizeof plant_a) == 0);
    check("A's rows", rows);
    check("A's sizes and figures", memcmp(w->sizes, sizes_a, sizeof sizes_a) == 0);
    event_is("A, the probe takes the first request", ROW, 2, 29);
    event_is("A, an answer doubled", DOUBLING, 1, 33);
    check("the states, contents and counts after two events", w->states[0] == 0 && w->states[1] == 1 && w->contents[0] == 2 && w->contents[1] == 5
                                                                  && w->counts[0] == 33 && w->counts[1] == 0 && w->counts[2] == 1);
    check("the plant stays", memcmp(w->copy, first.copy, sizeof w->copy) == 0 && memcmp(w->table, first.table, sizeof w->table) == 0
                                 && memcmp(w->sizes, first.sizes, sizeof w->sizes) == 0);
    hemtaluq_watch_answer a = hemtaluq_watch_row(&first, 2), b = hemtaluq_watch_doubling(&first, 1);
    check("a copy is a second watcher", a.left == 29 && b.left == 33 && same_bytes(w, &first));
}

/* The largest plant: row 64 * m + k of machine m leaves state k + 1. Its machines are in state 0, which their last rows leave. */
static void watching_largest(void) {
    uint16_t lower[64];
    uint32_t contents[64];
    for (size_t t = 0; t < 64; t++) {
        lower[t] = t < 32;
        contents[t] = 1;
    }
    /* S is 16 * 63, n 64 and w 1; the contents of types 0 to 31 weigh 32. */
    open_is("a watcher on the largest plant", largest, HEMTALUQ_LONGEST_FILE, lower, 64, contents, 64, 1008 + 64 * 1008 + 64 * 32);
    event_refused("the first row of machine 15 leaves state 1", ROW, 64 * 15, HEMTALUQ_ROW_IMPOSSIBLE);
    event_is("the last row", ROW, 1023, 1008 + 64 * 1008 + 64 * 32 - 1);
    event_is("the first row of machine 15 afterwards", ROW, 64 * 15, 1008 + 64 * 1008 + 64 * 32 - 2);
    event_refused("row 1,024", ROW, 1024, HEMTALUQ_ROW_IMPOSSIBLE);
    event_is("type 63 doubled", DOUBLING, 63, 1008 + 64 * 1008 + 64 * 32 - 2 + 64);
}

/* 1,000,000 progress rows and 1,000,000 doublings, and what follows them. With no request and 1,000,000 answers W is 1,000,000. */
static void watching_limits(void) {
    const uint32_t answers[] = {0, HEMTALUQ_LARGEST_AMOUNT}, round[] = {0, 1}, request[] = {0};
    const enum event rows[] = {ROW, ROW}, doubled[] = {DOUBLING};
    const uint64_t million = 1000000;
    open_is("a watcher with 1,000,000 answers", plant_a, sizeof plant_a, weights_2_1, 2, answers, 2, 10 + 2 * million);
    check("999,999 readings", repeated(HEMTALUQ_PROGRESS_ROWS - 1, rows, round, 2));
    event_is("the panel asks for the millionth", ROW, 0, 10 + 2 * million + 8 * (million - 1) - 1);
    event_is("the millionth reading", ROW, 1, 10 + 10 * million);
    event_refused("a reading that nobody asked for", ROW, 1, HEMTALUQ_ROW_IMPOSSIBLE);
    event_is("the panel asks once more", ROW, 0, 10 + 10 * million - 1);
    event_refused("without an answer", ROW, 1, HEMTALUQ_ROW_IMPOSSIBLE);
    event_is("the probe takes one of the requests", ROW, 2, 10 + 10 * million - 2);
    event_is("the probe sends an answer", ROW, 3, 10 + 10 * million - 3);
    event_refused("a progress row after 1,000,000", ROW, 1, HEMTALUQ_EVENT_LIMIT);
    event_is("a doubling after 1,000,000 progress rows", DOUBLING, 0, 10 + 10 * million - 3 + 4);
    check("999,998 more doublings", repeated(HEMTALUQ_DOUBLINGS - 2, doubled, request, 1));
    event_is("the millionth doubling", DOUBLING, 1, 10 + 14 * million - 3);
    event_refused("a doubling after 1,000,000", DOUBLING, 0, HEMTALUQ_EVENT_LIMIT);
    event_refused("type 2 of 2 doubled, after 1,000,000", DOUBLING, 2, HEMTALUQ_MESSAGE_ABSENT);
    event_is("one of two answers lost", LOSS, 1, 10 + 14 * million - 3);
    event_refused("a progress row after both", ROW, 1, HEMTALUQ_EVENT_LIMIT);
    event_is("the other answer lost", LOSS, 1, 10 + 14 * million - 3);
    event_refused("an absent answer doubled, after 1,000,000", DOUBLING, 1, HEMTALUQ_MESSAGE_ABSENT);
    event_is("a quiet row after both", ROW, 2, 10 + 14 * million - 4);
    check("the counts after both", watcher->counts[0] == 10 + 14 * million - 4 && watcher->counts[1] == million && watcher->counts[2] == million);
    open_is("a new opening counts anew", plant_a, sizeof plant_a, weights_2_1, 2, contents_3_4, 2, 30);
    event_is("a first row", ROW, 0, 29);
    event_is("a first reading", ROW, 1, 38);
    event_is("a first doubling", DOUBLING, 1, 42);
}

static uint64_t seed = 2006;

static uint32_t drawn(uint32_t below) {
    seed = seed * UINT64_C(6364136223846793005) + UINT64_C(1442695040888963407);
    return (uint32_t)(seed >> 33) % below;
}

/* Bytes that no call handed back: any, small ones, the largest alone, or a watcher with some of its bytes changed. */
static void make_strange(uint32_t kind) {
    uint8_t *bytes = (uint8_t *)watcher;
    open_a();
    for (size_t i = 0; i < sizeof *watcher && kind < 3; i++) bytes[i] = (uint8_t)(kind == 0 ? drawn(256) : kind == 1 ? drawn(3) : 255);
    for (int i = 0; i < 60 && kind > 2; i++) bytes[drawn(8) ? drawn(sizeof *watcher) : sizeof watcher->copy + drawn(32)] = (uint8_t)drawn(256);
    for (int i = 0; i < 3 && kind > 3; i++) watcher->counts[i] = drawn(2) ? UINT64_MAX - drawn(3) : drawn(3);
    for (int i = 0; i < 2 && kind > 4; i++) watcher->contents[i] = drawn(2) ? UINT64_MAX : drawn(2);
}

/* An event on such bytes: nothing outside is touched, a refusal changes nothing, the plant stays, and no sum wraps. */
static int withstands(enum event event, uint32_t number) {
    hemtaluq_watcher before = *watcher;
    hemtaluq_watch_answer a = answer_to(event, number);
    int good = guards_stand() && (a.kind == HEMTALUQ_REMAINING || (a.kind == HEMTALUQ_REFUSED && same_bytes(watcher, &before)));
    good = good && memcmp(watcher, &before, sizeof before.copy + sizeof before.table + sizeof before.sizes) == 0;
    if (a.kind == HEMTALUQ_REFUSED) return good && a.left == 0;
    if (event == DOUBLING) return good && watcher->counts[0] >= before.counts[0] && number < 64 && watcher->contents[number] >= before.contents[number];
    if (event == LOSS) return good && number < 64 && watcher->contents[number] < before.contents[number];
    /* A row counts as a progress row, or takes one away. */
    return good && (watcher->counts[1] > before.counts[1] ? watcher->counts[0] >= before.counts[0] : watcher->counts[0] <= before.counts[0]);
}

static void watching_strange(void) {
    int good = 1, accepted = 0;
    for (uint32_t i = 0; i < 240; i++) {
        make_strange(i % 6);
        for (uint32_t k = 0; k < 6; k++) {
            enum event event = k < 4 ? ROW : k < 5 ? LOSS : DOUBLING;
            uint64_t left = watcher->counts[0];
            good = good && withstands(event, drawn(8) ? drawn(event == ROW ? 5 : 3) : drawn(2) ? drawn(2000) : UINT32_MAX - drawn(2));
            accepted += watcher->counts[0] != left;
        }
    }
    check("bytes that no call handed back", good);
    check("events on them are accepted, too", accepted > 20);
}

int main(void) {
    check("the header has version 7", HEMTALUQ_VERSION == 7);
    check("the library has the header's version", hemtaluq_version() == HEMTALUQ_VERSION);
    check("write has revision 2, and read revision 1", !strcmp(SYMBOL(hemtaluq_write), "hemtaluq_write_v2") && !strcmp(SYMBOL(hemtaluq_read), "hemtaluq_read_v1"));
    make_largest();
    make_longest_list();
    reading();
    reading_both();
    reading_twins();
    weighing();
    quoting();
    listing();
    confirming();
    writing();
    writing_both();
    writing_twins();
    taking_and_sending();
    refusing_twins();
    written_is_read();
    null_pointers();
    opening();
    opening_null();
    without_plant();
    watching();
    watching_both();
    watcher_lists();
    watching_largest();
    watching_limits();
    watching_strange();
    printf("interface.c: %d checks, %d failed\n", checks, failed);
    return failed != 0;
}
