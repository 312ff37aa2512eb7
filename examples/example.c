/* The library from C. The events of standard input are given to a ledger as a text, to another one by one, and to a third as a list;
 * what comes of them is compared, and printed as the program `ledger` prints it. Lines have to be laid out as events. */
#include "kalanhav.h"

#include <inttypes.h>
#include <stdio.h>
#include <stdlib.h>
#include <string.h>

enum {
    MANDATE_ROWS = 128,
    COLLECTION_ROWS = 256,
    TEXT = 256, /* KALANHAV_TEXT_LEAST or more */
    INPUT = 1 << 16,
    OUTPUT = INPUT * KALANHAV_ANSWER_BYTES + KALANHAV_LISTING_ROOM
};

typedef struct output {
    size_t length;
    char bytes[OUTPUT];
} output;

static void expect(int is_so, const char *what)
{
    if (!is_so) {
        fprintf(stderr, "example: %s\n", what);
        exit(1);
    }
}

static void start(kalanhav_book *book)
{
    static uint64_t memory[KALANHAV_CELLS(MANDATE_ROWS, COLLECTION_ROWS)];
    expect(kalanhav_book_start(book, memory, MANDATE_ROWS, COLLECTION_ROWS) == 0, "the ledger was not opened");
}

/* The place behind what was written. */
static uint8_t *end_of(output *out)
{
    return (uint8_t *)out->bytes + out->length;
}

static void list(kalanhav_book *book, output *out)
{
    expect(kalanhav_book_list_positions(book, end_of(out), OUTPUT - out->length) == 0, "the listing was refused");
    out->length += book->state[KALANHAV_WRITTEN];
}

/* ---- as a text, in pieces: a partial line stays at the front */

static void by_text(const char *input, size_t length, output *out)
{
    kalanhav_book book;
    uint8_t text[TEXT];
    start(&book);
    for (size_t taken = 0; taken < length;) {
        size_t filled = book.state[KALANHAV_FILLED];
        size_t added = length - taken < TEXT - filled ? length - taken : TEXT - filled;
        memcpy(text + filled, input + taken, added);
        expect(kalanhav_book_take_text(&book, text, TEXT, added, end_of(out), OUTPUT - out->length) == 0, "the text was refused");
        expect(book.state[KALANHAV_PAST] == 0, "a line was not taken");
        taken += added;
        out->length += book.state[KALANHAV_WRITTEN];
    }
    expect(kalanhav_book_end_text(&book, end_of(out), OUTPUT - out->length) == 0, "the end was refused");
    out->length += book.state[KALANHAV_WRITTEN];
    list(&book, out);
}

/* ---- one by one, and then a query for each position */

static void write_position(kalanhav_book *book, uint64_t kind, uint64_t number, output *out)
{
    int64_t cents;
    expect(kalanhav_book_position(book, kind, number, &cents) == 0, "a query was refused");
    if (cents != 0 || kind == 4) {
        out->length += sprintf((char *)end_of(out), "%2" PRIu64 "%6" PRIu64 "%18" PRId64 "\n", kind, number, cents);
    }
}

static void by_event(const uint64_t *events, size_t count, output *out)
{
    static const uint64_t parties[] = {KALANHAV_CREDITORS, KALANHAV_DEBTORS, KALANHAV_BANKS};
    kalanhav_book book;
    start(&book);
    for (size_t i = 0; i < count; i++) {
        uint64_t answer = kalanhav_book_take_event(&book, events + i * KALANHAV_EVENT_CELLS);
        out->length += sprintf((char *)end_of(out), "%6zu%3" PRIu64 "\n", i + 1, answer);
    }
    expect(kalanhav_book_is_fit(&book) && kalanhav_book_is_safe(&book), "the ledger left unfit memory");
    for (uint64_t kind = 1; kind <= 3; kind++) {
        for (uint64_t number = 1; number <= parties[kind - 1]; number++) {
            write_position(&book, kind, number, out);
        }
    }
    write_position(&book, 4, 0, out);
}

/* ---- as a list: the positions alone */

static void by_list(const uint64_t *events, size_t count, output *out)
{
    kalanhav_book book;
    start(&book);
    expect(kalanhav_book_replay(&book, events, count * KALANHAV_EVENT_CELLS) == 0, "the list was refused");
    list(&book, out);
}

/* The nine fields of each line; the input ends in a byte 0. */
static size_t read_events(char *input, uint64_t *events)
{
    size_t cells = 0;
    char *at = input, *end;
    for (uint64_t field = strtoull(at, &end, 10); end != at; field = strtoull(at, &end, 10)) {
        events[cells++] = field;
        at = end;
    }
    expect(cells % KALANHAV_EVENT_CELLS == 0, "a line is not laid out as an event");
    return cells / KALANHAV_EVENT_CELLS;
}

int main(void)
{
    static char input[INPUT];
    static uint64_t events[INPUT];
    static output texts, singles, lists;
    size_t length = fread(input, 1, INPUT - 1, stdin);
    expect(feof(stdin) != 0, "the input is too long for the example");
    size_t count = read_events(input, events);
    by_text(input, length, &texts);
    by_event(events, count, &singles);
    by_list(events, count, &lists);
    expect(texts.length == singles.length && memcmp(texts.bytes, singles.bytes, texts.length) == 0, "text and events differ");
    size_t answers = count * KALANHAV_ANSWER_BYTES;
    expect(texts.length == answers + lists.length && memcmp(texts.bytes + answers, lists.bytes, lists.length) == 0, "text and list differ");
    fwrite(texts.bytes, 1, texts.length, stdout);
    return 0;
}
