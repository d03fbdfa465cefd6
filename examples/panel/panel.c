/* An operator's panel: follows a run of a plant event by event, and prints beside each event how many quiet steps are left.
 *
 *     panel PLANT WEIGHTS CONTENT...
 *
 * PLANT is a plant file, WEIGHTS has two bytes a weight, low byte first, and CONTENT the messages of each type in the buffers as the
 * run opens, with all machines in state 0. Events come from standard input, one a line, and each is answered as it comes: `row 3`,
 * `loss 0` for a message of type 0 that the bus lost, `doubling 1` for one of type 1 that it delivered twice. Between the words stand
 * blanks or tabs; # begins a comment, and a line without a word is passed over. Numbers are decimal digits alone, without sign. An
 * event that is refused changes nothing, and a line that says no event is told and passed over. The exit code is 0 where all events
 * were accepted, 1 where one was refused or a line said none, 2 for an opening that was refused or a line that could not be printed,
 * and 3 for a library of another version than the header's. */
#include <string.h>
#include "../cabinet/arguments.h"

/* The most bytes of a line without its comment. A longer one is no event. */
#define LONGEST_LINE 80

/* What stands between words. */
#define BLANKS " \t\r"

/* Reads a line without its comment; its length, of a longer one LONGEST_LINE + 1, or -1 at the end. The byte that ends a text in C is in no
 * word of an event; a letter stands for it that is in none, either. */
static int next_line(char line[LONGEST_LINE + 2]) {
    int byte, length = 0, comment = 0, begun = 0;
    for (; (byte = getchar()) != EOF && byte != '\n'; begun = 1) {
        comment = comment || byte == '#';
        if (!comment && length <= LONGEST_LINE) line[length++] = byte ? (char)byte : 'x';
    }
    line[length] = '\0';
    return begun || byte == '\n' ? length : -1;
}

/* The next word of a text, cut from what follows it; NULL where there is none. */
static const char *cut_word(char **text) {
    char *word = *text + strspn(*text, BLANKS), *end = word + strcspn(word, BLANKS);
    *text = *end ? end + 1 : end;
    *end = '\0';
    return *word ? word : NULL;
}

/* Makes the call of an event that two words say; whether they say one. */
static int happens(hemtaluq_watcher *watcher, const char *kind, const char *digits, hemtaluq_watch_answer *answer) {
    if (strspn(digits, "0123456789") != strlen(digits)) return 0;
    /* The largest number of 32 bits stands for a larger one: no plant has such a row or type. */
    uint32_t number = number_of(digits);
    if (!strcmp(kind, "row")) *answer = hemtaluq_watch_row(watcher, number);
    else if (!strcmp(kind, "loss")) *answer = hemtaluq_watch_loss(watcher, number);
    else if (!strcmp(kind, "doubling")) *answer = hemtaluq_watch_doubling(watcher, number);
    else return 0;
    return 1;
}

static void show_left(uint64_t left) {
    printf("%llu %s left\n", (unsigned long long)left, left == 1 ? "step" : "steps");
}

/* Answers a line; whether it is an event that was accepted, or says nothing. */
static int answer_line(hemtaluq_watcher *watcher, char *line, int length, unsigned long number) {
    const char *kind = cut_word(&line), *digits = cut_word(&line), *more = cut_word(&line);
    hemtaluq_watch_answer answer;
    if (!kind && length <= LONGEST_LINE) return 1;
    if (length > LONGEST_LINE || !digits || more || !happens(watcher, kind, digits, &answer)) {
        printf("line %lu: expected row, loss or doubling and a number\n", number);
        return 0;
    }
    printf("%s %s: ", kind, digits);
    if (answer.kind == HEMTALUQ_REFUSED) printf("refused with %u: %s\n", (unsigned)answer.number, in_words(answer.number));
    else show_left(answer.left);
    return answer.kind != HEMTALUQ_REFUSED;
}

/* Answers all lines; whether each is an event that was accepted, or says nothing. */
static int watch(hemtaluq_watcher *watcher) {
    char line[LONGEST_LINE + 2];
    int length, good = 1;
    for (unsigned long number = 1; !fflush(stdout) && (length = next_line(line)) >= 0; number++)
        good = answer_line(watcher, line, length, number) && good;
    return good;
}

int main(int argc, char **argv) {
    static uint8_t plant[HEMTALUQ_LONGEST_FILE + 1];
    static hemtaluq_watcher watcher;
    uint16_t weights[HEMTALUQ_MOST_TYPES + 1] = {0};
    uint32_t contents[HEMTALUQ_MOST_TYPES + 1] = {0};
    if (hemtaluq_version() != HEMTALUQ_VERSION) {
        fprintf(stderr, "panel: the library has version %u, the header %u\n", (unsigned)hemtaluq_version(), HEMTALUQ_VERSION);
        return 3;
    }
    if (argc < 3) {
        fprintf(stderr, "usage: panel PLANT WEIGHTS CONTENT...\n");
        return 2;
    }
    size_t length = load(argv[1], plant, sizeof plant), count = load_weights(argv[2], weights), amounts = contents_of(argv + 3, contents);
    hemtaluq_watch_answer answer = hemtaluq_watch_open(&watcher, plant, length, weights, count, contents, amounts);
    if (answer.kind == HEMTALUQ_REFUSED) return refuse(answer.number, answer.place);
    show_left(answer.left);
    int good = watch(&watcher);
    return ferror(stdout) ? 2 : !good;
}
