/* Hemtaluq: ceilings for plants on a message bus. The C interface of the proved calls.
 *
 * A plant is given as the bytes of a plant file, which hemtaluq_write makes from a list of numbers. Every call reads what it
 * is given anew, judges every length and every number of it, and keeps nothing. No call allocates, blocks, or keeps a pointer.
 * What a watcher keeps is a struct that the caller lends to each call on it.
 *
 * The caller's part: every pointer is aligned and valid for its length, and a list that a call may write to (cycle, out, a
 * watcher) overlaps nothing else that the call is given. The pointer of a list of length 0 may be null.
 *
 * Every answer has a kind. With HEMTALUQ_REFUSED, number and place say which fault was met first and where. Fields that
 * an answer does not use are 0, and a list that was lent keeps its contents unless the kind says that it was written; a
 * refused opening alone clears the watcher that it was lent.
 *
 * A row sends a message, takes one, does both or neither. A row that does both can happen when the type taken is present; it
 * takes first, then sends. Where both types are one, it needs one such message and leaves as many as it found.
 *
 * No machine has a row twice. A row that is equal to an earlier row of its machine, the one before it or any other, in state
 * left, state entered, type sent, type taken and progress is a twin row, also where the two leave out other fields; the same
 * row in another machine is none. Every call that takes a file, and hemtaluq_write, refuses it with HEMTALUQ_TWIN_ROW: after
 * the faults of the row's own bytes or numbers, and before the next byte or number is looked at.
 *
 * Versions: the linker's name of a call carries its revision, which the macros below add. A call whose struct or arguments
 * change, or the form of a list that it takes, gets the next revision, and then an object compiled with the old header does
 * not link: its symbol is missing.
 * HEMTALUQ_VERSION rises with every change of what this header declares, also where structs and arguments stay (a kind,
 * what a kind promises, a fault number, a limit). hemtaluq_version answers the version of the library that was linked, so
 * a program can see at its start whether that is the library of its header: hemtaluq_version() == HEMTALUQ_VERSION.
 * 1: the first. 2: the cycle that weigh shows is a shortest one. 3: write, with kind 8 and numbers 23 to 25. 4: number 26;
 * files and lists with a twin row were accepted before. 5: a row can take and send; a row of write's list has six numbers,
 * with kind 3; the longest file and the longest list are longer; files with such rows were refused with 4 before. 6: weigh
 * hands back per_doubling and quote takes d, the most doublings; the largest ceiling is larger; quotes of before are those
 * with d 0. 7: the calls on a watcher, with kind 9 and numbers 27 to 29.
 */
#ifndef HEMTALUQ_H
#define HEMTALUQ_H

#include <stddef.h>
#include <stdint.h>

#define HEMTALUQ_VERSION 7

#define hemtaluq_read hemtaluq_read_v1
#define hemtaluq_weigh hemtaluq_weigh_v2
#define hemtaluq_quote hemtaluq_quote_v2
#define hemtaluq_list hemtaluq_list_v1
#define hemtaluq_confirm hemtaluq_confirm_v1
#define hemtaluq_write hemtaluq_write_v2

#ifdef __cplusplus
extern "C" {
#endif

/* The version of the library. Its symbol has no revision, for what it means never changes. */
uint32_t hemtaluq_version(void);

/* What an answer is. */
enum hemtaluq_kind {
    HEMTALUQ_REFUSED = 0,   /* a fault: number and place */
    HEMTALUQ_COUNTS = 1,    /* read: the file reads as a plant */
    HEMTALUQ_PASSED = 2,    /* weigh: every quiet simple cycle weighs below zero */
    HEMTALUQ_CYCLE = 3,     /* weigh: a shortest quiet simple cycle that weighs zero or more was written to the lent list */
    HEMTALUQ_CEILING = 4,   /* quote: a ceiling and its price class */
    HEMTALUQ_LISTED = 5,    /* list: the simple cycles were written to the lent list */
    HEMTALUQ_CONFIRMED = 6, /* confirm: the set is balanced */
    HEMTALUQ_NEGATIVE = 7,  /* confirm: a type's sum is below zero */
    HEMTALUQ_WROTE = 8,     /* write: the shortest file of the plant was written to the lent buffer */
    HEMTALUQ_REMAINING = 9  /* a call on a watcher: opened, or the event was accepted; how many quiet rows are left */
};

/* The number of a refusal, and what its place is. */
enum hemtaluq_fault {
    HEMTALUQ_FILE_ENDS = 1,         /* the file ends before a byte that it needs; the file's length */
    HEMTALUQ_COUNT_LIMITS = 2,      /* count of machines or of types outside limits; that byte */
    HEMTALUQ_STATE_LIMITS = 3,      /* a machine with 0 or more than 64 states; that byte */
    HEMTALUQ_MAP_BYTE = 4,          /* one of bits 5 to 7 of a map byte; that byte */
    HEMTALUQ_NOT_A_STATE = 5,       /* not a state of the machine; that byte */
    HEMTALUQ_NOT_A_TYPE = 6,        /* not a type; that byte */
    HEMTALUQ_TOTAL_ROWS = 7,        /* more than 1,024 rows so far; that byte */
    HEMTALUQ_BYTES_REMAIN = 8,      /* bytes remain after the last row; the first of them */
    HEMTALUQ_WEIGHT_COUNT = 9,      /* not one weight for each type; 0 */
    HEMTALUQ_WEIGHT_LIMIT = 10,     /* a weight above 1,000; its index */
    HEMTALUQ_CYCLE_ROOM = 11,       /* the lent cycle list is shorter than 64; 0 */
    HEMTALUQ_NO_MACHINE = 12,       /* no such machine; 0 */
    HEMTALUQ_MACHINE_SIZE = 13,     /* the machine has more than 24 states or 48 rows; 0 */
    HEMTALUQ_LISTING_ROOM = 14,     /* the lent listing is shorter than the entries needed; 0 */
    HEMTALUQ_SET_ENDS = 15,         /* the list ends within an entry; the list's length */
    HEMTALUQ_SET_NUMBER = 16,       /* machine, repeats, row count or row number outside limits; its index */
    HEMTALUQ_NOT_QUIET_CYCLE = 17,  /* not a quiet simple cycle of the machine; index of the entry's first number */
    HEMTALUQ_SET_ENTRIES = 18,      /* the list is empty, or a 257th entry begins; the index where it begins */
    HEMTALUQ_CONTENT_COUNT = 20,    /* not one content for each type; 0 */
    HEMTALUQ_AMOUNT_LIMIT = 21,     /* a content, g or d above 1,000,000; its index, for g the type count, for d one more */
    HEMTALUQ_NOT_PASSING = 22,      /* the weights do not pass; 0 */
    HEMTALUQ_LIST_LENGTH = 23,      /* the list of numbers ends early, or goes on; the index of the missing or first extra number */
    HEMTALUQ_LIST_NUMBER = 24,      /* a number of the list outside its values or the limits; its index */
    HEMTALUQ_OUTPUT_ROOM = 25,      /* the lent buffer is shorter than the file; 0 */
    HEMTALUQ_TWIN_ROW = 26,         /* a row equal to an earlier row of its machine; the row's map byte; in the writer's list the row's first number */
    HEMTALUQ_ROW_IMPOSSIBLE = 27,   /* a row that the plant lacks, or that cannot happen now; 0 */
    HEMTALUQ_MESSAGE_ABSENT = 28,   /* a loss or doubling of a type that the plant lacks, or of which no message is present; 0 */
    HEMTALUQ_EVENT_LIMIT = 29       /* a progress row that can happen, or a doubling, after 1,000,000 of its own sort; 0 */
};

/* Limits. */
#define HEMTALUQ_MOST_MACHINES 16
#define HEMTALUQ_MOST_TYPES 64
#define HEMTALUQ_MOST_STATES 64         /* of one machine */
#define HEMTALUQ_MOST_ROWS 1024         /* of all machines together */
#define HEMTALUQ_LONGEST_FILE 5154      /* bytes of the longest file that reads as a plant, and of the longest that write writes */
#define HEMTALUQ_LONGEST_LIST 6178      /* numbers of the longest list that says a plant */
#define HEMTALUQ_LARGEST_WEIGHT 1000
#define HEMTALUQ_LARGEST_AMOUNT 1000000 /* a content, g, d, or the repeats of an entry */
#define HEMTALUQ_CYCLE_ENTRIES 64       /* the least length of the list lent to hemtaluq_weigh */
#define HEMTALUQ_LISTED_STATES 24       /* the most states of a machine that is listed */
#define HEMTALUQ_LISTED_ROWS 48         /* the most rows of a machine that is listed */
#define HEMTALUQ_MOST_ENTRIES 256       /* of a cycle set */
#define HEMTALUQ_LARGEST_CEILING UINT64_C(8256127513008)
#define HEMTALUQ_PROGRESS_ROWS 1000000  /* the most progress rows that a watcher accepts */
#define HEMTALUQ_DOUBLINGS 1000000      /* the most doublings that a watcher accepts */

/* The counts of machines, types and rows of a plant file. */
typedef struct {
    uint8_t kind;    /* HEMTALUQ_COUNTS or HEMTALUQ_REFUSED */
    uint8_t number;  /* refused: the number of the fault */
    uint8_t types;   /* counts: message types, 0 to 64 */
    size_t place;    /* refused: where it was met */
    size_t machines; /* counts: machines, 1 to 16 */
    size_t rows;     /* counts: rows of all machines, 0 to 1,024 */
} hemtaluq_read_answer;

hemtaluq_read_answer hemtaluq_read(const uint8_t *file, size_t file_length);

/* Whether weights pass: one for each type, 0 to 1,000. The list cycle has at least 64 entries.
 * Passed: from any states and any contents, in whichever order the machines move and whatever the bus loses, the quiet
 * rows that happen number at most base + most_states * W + per_progress * g + per_doubling * d, where W sums weight times
 * opening content over the types, g counts the progress rows that happen and d the doublings: a doubling adds one message
 * of a type that is present, as a bus does that delivers a message twice. The list keeps its contents.
 * Cycle: the first entries of the list are the rows of a shortest quiet simple cycle that weighs zero or more, in running
 * order: no such cycle of any machine has fewer rows. Which of equally short ones it is, and with which of its rows it
 * begins, is free. The later entries of the list are kept. */
typedef struct {
    uint8_t kind;          /* HEMTALUQ_PASSED, HEMTALUQ_CYCLE or HEMTALUQ_REFUSED */
    uint8_t number;        /* refused: the number of the fault */
    size_t place;          /* refused: where it was met */
    uint64_t base;         /* passed: F */
    uint64_t most_states;  /* passed: n, the most states in one machine */
    uint64_t per_progress; /* passed: G */
    uint64_t per_doubling; /* passed: n * w, w being the largest weight */
    size_t rows;           /* cycle: how many rows are shown, 1 to 64 */
} hemtaluq_weigh_answer;

hemtaluq_weigh_answer hemtaluq_weigh(const uint8_t *file, size_t file_length, const uint16_t *weights, size_t weight_count,
                                     uint16_t *cycle, size_t cycle_length);

/* The ceiling F + n * W + G * g + n * w * d for weights as above, contents (one for each type), g and d; contents, g and d
 * are at most 1,000,000 each. No run that opens with these contents, from any states, with at most g progress rows and at
 * most d doublings, has more quiet rows. For a bus that never delivers a message twice, d is 0. */
typedef struct {
    uint8_t kind;         /* HEMTALUQ_CEILING or HEMTALUQ_REFUSED */
    uint8_t number;       /* refused: the number of the fault */
    uint32_t price_class; /* ceiling: how many of the 43 edges 1, 2, 4, ... are not above it, 0 to 43 */
    size_t place;         /* refused: where it was met */
    uint64_t ceiling;     /* ceiling: the figure, at most HEMTALUQ_LARGEST_CEILING */
} hemtaluq_quote_answer;

hemtaluq_quote_answer hemtaluq_quote(const uint8_t *file, size_t file_length, const uint16_t *weights, size_t weight_count,
                                     const uint32_t *contents, size_t content_count, uint32_t g, uint32_t d);

/* Every simple cycle of one machine, quiet or not, each once: its row count, then its rows, beginning with the row that
 * leaves its lowest state; cycles in ascending order of their row numbers, compared from the first row on. */
typedef struct {
    uint8_t kind;   /* HEMTALUQ_LISTED or HEMTALUQ_REFUSED */
    uint8_t number; /* refused: the number of the fault */
    size_t place;   /* refused: where it was met */
    size_t entries; /* listed: how many entries of out were used; the rest is kept */
} hemtaluq_list_answer;

hemtaluq_list_answer hemtaluq_list(const uint8_t *file, size_t file_length, uint32_t machine, uint16_t *out, size_t out_length);

/* Whether a set of repeated quiet cycles sends at least what it takes of each type. The list holds 1 to 256 entries:
 * machine, repeats (1 to 1,000,000), row count (1 to 64), rows, which may begin anywhere on the cycle. */
typedef struct {
    uint8_t kind;        /* HEMTALUQ_CONFIRMED, HEMTALUQ_NEGATIVE or HEMTALUQ_REFUSED */
    uint8_t number;      /* refused: the number of the fault */
    size_t place;        /* refused: where it was met */
    size_t message_type; /* negative: the lowest type whose sum is below zero */
    int64_t sum;         /* negative: that sum */
} hemtaluq_confirm_answer;

hemtaluq_confirm_answer hemtaluq_confirm(const uint8_t *file, size_t file_length, const uint32_t *set, size_t set_length);

/* The shortest file of a plant: every file that reads as the same types, machines and rows has at least as many bytes. The
 * list says the plant: count of machines (1 to 16), count of types (0 to 64), then for each machine its states (1 to 64), its
 * count of rows (0 to 255; of all machines at most 1,024) and six numbers for each row: state left, state entered, kind
 * (0 neither, 1 sends, 2 takes, 3 takes and sends), type (the type sent for kind 1, the type taken for kinds 2 and 3, 0 for
 * kind 0), progress (0 or 1) and, for kind 3, the type sent (0 for other kinds). Its numbers are judged one by one in this
 * order, and behind the sixth number of a row whether the row is a twin row; a number too many comes after all of them, and
 * a short buffer last.
 * Wrote: the first length bytes of out are the file, which hemtaluq_read and all other calls read as the list's types,
 * machines and rows. The later bytes of out are kept. A buffer of HEMTALUQ_LONGEST_FILE bytes is never too short. */
typedef struct {
    uint8_t kind;   /* HEMTALUQ_WROTE or HEMTALUQ_REFUSED */
    uint8_t number; /* refused: the number of the fault */
    size_t place;   /* refused: where it was met */
    size_t length;  /* wrote: how many bytes the file has */
} hemtaluq_write_answer;

hemtaluq_write_answer hemtaluq_write(const uint16_t *numbers, size_t number_count, uint8_t *out, size_t out_length);

/* A watcher follows a run of a plant event by event and says how many quiet rows are left: the ceiling for the progress rows
 * and doublings so far, less the quiet rows so far. It is this struct, which the caller keeps and lends to each call on it: a
 * copy of the plant file and the table of its rows, then what the run has come to. There is no heap, and no call gets the
 * file again. A copy of the struct is a second watcher.
 * Only these calls may write to it. Zeros alone stand for a watcher whose opening was refused. Of any other struct that no
 * call handed back an answer means nothing; but no call leaves the struct, no sum of it wraps, and a refusal changes nothing. */
typedef struct {
    uint8_t copy[8192];    /* the bytes of the plant file */
    uint8_t table[8192];   /* its rows, eight bytes each: machine, state left, state entered, type sent, type taken (64: none), progress */
    uint64_t sizes[5];     /* the file's length, the counts of rows and of types, G, and n * w */
    uint8_t states[16];    /* the state of each machine */
    uint64_t contents[64]; /* the messages of each type */
    uint64_t counts[3];    /* the quiet rows left, and the progress rows and doublings so far */
} hemtaluq_watcher;

typedef struct {
    uint8_t kind;   /* HEMTALUQ_REMAINING or HEMTALUQ_REFUSED */
    uint8_t number; /* refused: the number of the fault */
    size_t place;   /* refused: where it was met; of an event 0 */
    uint64_t left;  /* remaining: how many quiet rows are left, at most HEMTALUQ_LARGEST_CEILING */
} hemtaluq_watch_answer;

/* The exports behind the calls on a watcher: its lists one by one, each of the length that stands there. */
hemtaluq_watch_answer hemtaluq_watch_open_v1(uint8_t copy[8192], uint8_t table[8192], uint64_t sizes[5], uint8_t states[16],
                                             uint64_t contents[64], uint64_t counts[3], const uint8_t *file, size_t file_length,
                                             const uint16_t *weights, size_t weight_count, const uint32_t *opening,
                                             size_t opening_count);
hemtaluq_watch_answer hemtaluq_watch_row_v1(const uint8_t table[8192], const uint64_t sizes[5], uint8_t states[16],
                                            uint64_t contents[64], uint64_t counts[3], uint32_t row);
hemtaluq_watch_answer hemtaluq_watch_loss_v1(const uint64_t sizes[5], uint64_t contents[64], const uint64_t counts[3],
                                             uint32_t message_type);
hemtaluq_watch_answer hemtaluq_watch_doubling_v1(const uint64_t sizes[5], uint64_t contents[64], uint64_t counts[3],
                                                 uint32_t message_type);

/* Opens a watcher on a plant file, weights and the contents with which the run opens, all machines in state 0, whatever the
 * struct held. Remaining: the ceiling of hemtaluq_quote with g 0 and d 0. Refused: with the numbers and places of hemtaluq_quote,
 * and the struct is zeros alone: rows get 27 then, losses and doublings 28. */
static inline hemtaluq_watch_answer hemtaluq_watch_open(hemtaluq_watcher *watcher, const uint8_t *file, size_t file_length,
                                                        const uint16_t *weights, size_t weight_count,
                                                        const uint32_t *contents, size_t content_count) {
    return hemtaluq_watch_open_v1(watcher->copy, watcher->table, watcher->sizes, watcher->states, watcher->contents,
                                  watcher->counts, file, file_length, weights, weight_count, contents, content_count);
}

/* A row happened. A progress row adds G to what is left, another one takes 1 away. Refused with 27 where the plant has no such
 * row, its machine is in another state, or no message of the type taken is present; with 29 where it could happen but is
 * a progress row after 1,000,000 of them. A refused event changes nothing. */
static inline hemtaluq_watch_answer hemtaluq_watch_row(hemtaluq_watcher *watcher, uint32_t row) {
    return hemtaluq_watch_row_v1(watcher->table, watcher->sizes, watcher->states, watcher->contents, watcher->counts, row);
}

/* A message of this type was lost: what is left stays. Refused with 28 where the plant has no such type or no message of it is
 * present. */
static inline hemtaluq_watch_answer hemtaluq_watch_loss(hemtaluq_watcher *watcher, uint32_t message_type) {
    return hemtaluq_watch_loss_v1(watcher->sizes, watcher->contents, watcher->counts, message_type);
}

/* A message of this type was delivered twice, which adds n * w to what is left. Refused with 28 as a loss is, and with 29
 * after 1,000,000 doublings. */
static inline hemtaluq_watch_answer hemtaluq_watch_doubling(hemtaluq_watcher *watcher, uint32_t message_type) {
    return hemtaluq_watch_doubling_v1(watcher->sizes, watcher->contents, watcher->counts, message_type);
}

#ifdef __cplusplus
}
#endif

#endif
