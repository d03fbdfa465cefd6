/* A cabinet designer's tool: writes the plant file that a list of numbers says, the shortest there is.
 *
 *     designer LIST PLANT
 *
 * LIST is a text file of whole numbers, in the order that hemtaluq_write in hemtaluq.h has, and PLANT the plant file to write. Between
 * numbers stand blanks, tabs or line ends; # begins a comment that goes to the end of its line. A number is decimal digits alone, without
 * sign. A list that cannot be opened counts as empty. The exit code is 0 for a file written, 2 for a refusal, with which PLANT is neither
 * made nor touched, 1 for a PLANT that cannot be written, and 3 for a library of another version than the header's. */
#include <stdio.h>
#include <string.h>
#include "hemtaluq.h"

/* A list that goes on behind its plant is refused at its first extra number, whose index is at most HEMTALUQ_LONGEST_LIST, and no number
 * behind that one is looked at. So of a longer list this many numbers get the same answer as all of them. */
#define MOST_NUMBERS (HEMTALUQ_LONGEST_LIST + 1)

/* Stands for a word that is no number from 0 to 65,535. It is right at no place of a list, where 255 is the largest number that can be: the
 * call refuses it as a wrong number, at the word's index and after the faults that come before. */
#define NO_NUMBER UINT16_MAX

/* How many numbers a row of a list has. */
#define ROW_NUMBERS 6

/* The numbers of a list, and the line that each stands on. */
static uint16_t numbers[MOST_NUMBERS];
static size_t lines[MOST_NUMBERS], count;

static int is_blank(int byte) {
    return byte == ' ' || byte == '\t' || byte == '\r' || byte == '\n';
}

/* The first byte of the next word, or EOF; the line that it stands on. */
static int next_word(FILE *file, size_t *line) {
    int byte, comment = 0;
    while ((byte = getc(file)) != EOF) {
        comment = (comment || byte == '#') && byte != '\n';
        *line += byte == '\n';
        if (!comment && !is_blank(byte)) break;
    }
    return byte;
}

static uint16_t with_digit(uint16_t number, int byte) {
    uint32_t longer = 10 * (uint32_t)number + (uint32_t)(byte - '0');
    return byte < '0' || byte > '9' || longer > NO_NUMBER ? NO_NUMBER : (uint16_t)longer;
}

/* The number that a word is, from its first byte on. */
static uint16_t number_from(FILE *file, int byte) {
    uint16_t number = 0;
    for (; byte != EOF && byte != '#' && !is_blank(byte); byte = getc(file)) number = with_digit(number, byte);
    if (byte != EOF) ungetc(byte, file);
    return number;
}

static void load(const char *name) {
    FILE *file = fopen(name, "rb");
    size_t line = 1;
    int byte;
    if (!file) return;
    while (count < MOST_NUMBERS && (byte = next_word(file, &line)) != EOF) {
        lines[count] = line;
        numbers[count++] = number_from(file, byte);
    }
    fclose(file);
}

/* A buffer for the longest file is never too short, so that 25 does not come. */
static const char *in_words(unsigned number) {
    if (number == HEMTALUQ_LIST_LENGTH) return "the list of numbers ends early or goes on";
    return number == HEMTALUQ_LIST_NUMBER ? "a number of the list is outside its values or the limits" : "a row is equal to an earlier row of its machine";
}

/* The index of the row that a twin row is equal to. The call has found it among the rows of the machine. */
static size_t earlier_row(size_t place) {
    size_t earlier = place - ROW_NUMBERS;
    while (memcmp(numbers + earlier, numbers + place, ROW_NUMBERS * sizeof *numbers) != 0) earlier -= ROW_NUMBERS;
    return earlier;
}

/* An index is hard to find in a text, so the line is told as well. */
static int refuse(unsigned number, size_t place) {
    printf("refused with %u at %zu: %s ", number, place, in_words(number));
    if (number == HEMTALUQ_TWIN_ROW) printf("(line %zu; the earlier row is in line %zu)\n", lines[place], lines[earlier_row(place)]);
    else if (place < count) printf("(line %zu)\n", lines[place]);
    else if (count > 0) printf("(after line %zu)\n", lines[count - 1]);
    else printf("(no number)\n");
    return 2;
}

static int store(const char *name, const uint8_t *bytes, size_t length) {
    FILE *file = fopen(name, "wb");
    int stored = file && fwrite(bytes, 1, length, file) == length;
    if (file && fclose(file) != 0) stored = 0;
    if (!stored) {
        fprintf(stderr, "designer: %s cannot be written\n", name);
        return 1;
    }
    printf("wrote %zu bytes\n", length);
    return 0;
}

int main(int argc, char **argv) {
    static uint8_t plant[HEMTALUQ_LONGEST_FILE];
    if (hemtaluq_version() != HEMTALUQ_VERSION) {
        fprintf(stderr, "designer: the library has version %u, the header %u\n", (unsigned)hemtaluq_version(), HEMTALUQ_VERSION);
        return 3;
    }
    if (argc != 3) {
        fprintf(stderr, "usage: designer LIST PLANT\n");
        return 2;
    }
    load(argv[1]);
    hemtaluq_write_answer answer = hemtaluq_write(numbers, count, plant, sizeof plant);
    if (answer.kind == HEMTALUQ_REFUSED) return refuse(answer.number, answer.place);
    return store(argv[2], plant, answer.length);
}
