/* Kalanhav for C: a ledger of SEPA direct debits. Link target/staticlib/libforeign.a, which `examples/library` writes (x86-64).
 *
 * All memory is lent by the caller, and a call keeps none of it: nothing is stored elsewhere, so calls on different memory may run at
 * the same time. Slices must not overlap, no pointer is null, and those to 64-bit cells are aligned to 8 bytes. A length counts cells, or
 * bytes of a text. Any content and any lengths are answered. kalanhav_take_text uses some 165 KiB of stack, the others less than 4 KiB.
 *
 * A call answers 0 where it was done, else the number of a refusal (docs/REFUSALS.md); then no cell and no byte that was lent has changed.
 * The two tests, kalanhav_is_fit and kalanhav_is_safe, answer true or false.
 * Whether a collection stands paid is asked by a return of it, kind 8, given to a copy of state, cents and tables: 0 or 17 says yes
 * (docs/EVENTS.md, "Does a plan stand paid?"). The cells of a row are those of crates/tables/specs/MandateColumn and CollectionColumn.
 * The contracts stand in crates/foreign/src, the rules in crates/model/specs. Most callers use the functions kalanhav_book_... below. */
#ifndef KALANHAV_H
#define KALANHAV_H

#include <stdbool.h>
#include <stddef.h>
#include <stdint.h>

#ifdef __cplusplus
extern "C" {
#endif

/* Lengths. The rows lent are 1 to these; all other tables have exactly these lengths, else memory is unfit. */
#define KALANHAV_ROW_CELLS 9
#define KALANHAV_MANDATE_ROWS 4096
#define KALANHAV_COLLECTION_ROWS 16384
#define KALANHAV_CREDITORS 256
#define KALANHAV_DEBTORS 4096
#define KALANHAV_BANKS 64
#define KALANHAV_EVENT_CELLS 9
#define KALANHAV_STATE_CELLS 7
#define KALANHAV_CENTS_CELLS 2

/* The cells of a state. */
enum {
    KALANHAV_LATEST = 0,           /* date of the last accepted event, 0 when fresh */
    KALANHAV_MANDATES_USED = 1,    /* rows */
    KALANHAV_COLLECTIONS_USED = 2, /* rows */
    KALANHAV_LINES = 3,            /* lines answered */
    KALANHAV_FILLED = 4,           /* bytes in the text, after a call those of a partial line */
    KALANHAV_WRITTEN = 5,          /* bytes that the last text, end or listing that was done wrote to its buffer */
    KALANHAV_PAST = 6              /* lines of the last text, or of its end, that were not taken: look after each of these calls */
};

/* The cells of cents. */
enum {
    KALANHAV_COMPENSATION = 0, /* total compensation */
    KALANHAV_FIGURE = 1        /* what the last position query found */
};

/* Texts. At most KALANHAV_LAST_LINE lines are answered; further ones change nothing, and the cell KALANHAV_PAST has how many there were. A
 * caller that needs no numbers of six columns may set the cell KALANHAV_LINES to 0 and go on. A partial line has at most
 * KALANHAV_PARTIAL_BYTES, one more than a sound line: a text of KALANHAV_TEXT_LEAST bytes or more always has room for a further byte. */
#define KALANHAV_LAST_LINE 999999
#define KALANHAV_LINE_BYTES 75
#define KALANHAV_PARTIAL_BYTES (KALANHAV_LINE_BYTES + 1)
#define KALANHAV_TEXT_LEAST (KALANHAV_PARTIAL_BYTES + 1)
#define KALANHAV_ANSWER_BYTES 10
#define KALANHAV_POSITION_BYTES 27
/* Room that a buffer must have for a text of so many bytes (each may end a line), and for a listing, which may be of every position. */
#define KALANHAV_ANSWER_ROOM(bytes) ((bytes) * (size_t)KALANHAV_ANSWER_BYTES)
#define KALANHAV_LISTING_ROOM ((size_t)(KALANHAV_CREDITORS + KALANHAV_DEBTORS + KALANHAV_BANKS + 1) * KALANHAV_POSITION_BYTES)

/* Opens the ledger: no rows, no creditor, all positions, cells of state and of cents 0. The rows' cells stay as they are.
 * 2: state or cents of another length, row counts outside their limits, or a table of another length. */
uint64_t kalanhav_open(uint64_t *state, size_t state_length, int64_t *cents, size_t cents_length,
    const uint64_t *mandates, size_t mandates_length, const uint64_t *collections, size_t collections_length,
    uint64_t *creditors, size_t creditors_length, int64_t *creditor_positions, size_t creditor_positions_length,
    int64_t *debtor_positions, size_t debtor_positions_length, int64_t *bank_positions, size_t bank_positions_length);

/* Gives one event to the ledger: its nine fields in their order. 2 to 17; 2 also for state, cents or event of another length.
   By how many days the due date of a collect slid is not given. */
uint64_t kalanhav_take_event(uint64_t *state, size_t state_length, int64_t *cents, size_t cents_length,
    const uint64_t *event, size_t event_length, uint64_t *mandates, size_t mandates_length, uint64_t *collections,
    size_t collections_length, uint64_t *creditors, size_t creditors_length, int64_t *creditor_positions,
    size_t creditor_positions_length, int64_t *debtor_positions, size_t debtor_positions_length, int64_t *bank_positions,
    size_t bank_positions_length);

/* Puts a position in cents to the cell KALANHAV_FIGURE: kind 1 a creditor, 2 a debtor, 3 a bank, each by number; 4 with number 0 the
 * total compensation. 2: unfit memory, or state or cents of another length. 5: no such kind or number. */
uint64_t kalanhav_position(const uint64_t *state, size_t state_length, int64_t *cents, size_t cents_length, uint64_t kind,
    uint64_t number, const uint64_t *mandates, size_t mandates_length, const uint64_t *collections, size_t collections_length,
    const uint64_t *creditors, size_t creditors_length, const int64_t *creditor_positions, size_t creditor_positions_length,
    const int64_t *debtor_positions, size_t debtor_positions_length, const int64_t *bank_positions, size_t bank_positions_length);

/* Takes a text: the first bytes of `text`, as many as the cell KALANHAV_FILLED says. Each line is answered to `out`. The bytes of a line
 * that has not ended are put to the front of the text, cut to KALANHAV_PARTIAL_BYTES, and their number to KALANHAV_FILLED: the next bytes
 * go behind them. Other bytes of `text` and of `out` stay as they were. In unfit memory a line that is no event gets 1, 3, 4 or 5 as ever,
 * each other one 2, and the call 0.
 * 2: state or cents of another length, more bytes than the text has, or less than 10 bytes of room in `out` for each: have
 * KALANHAV_ANSWER_ROOM(text_length). Then KALANHAV_FILLED is as it was given. */
uint64_t kalanhav_take_text(uint64_t *state, size_t state_length, int64_t *cents, size_t cents_length, uint8_t *text,
    size_t text_length, uint8_t *out, size_t out_length, uint64_t *mandates, size_t mandates_length, uint64_t *collections,
    size_t collections_length, uint64_t *creditors, size_t creditors_length, int64_t *creditor_positions,
    size_t creditor_positions_length, int64_t *debtor_positions, size_t debtor_positions_length, int64_t *bank_positions,
    size_t bank_positions_length);

/* Ends a text whose last piece was taken: a partial line, whose bytes KALANHAV_FILLED counts, is answered with 1, and KALANHAV_FILLED
 * becomes 0. Other bytes of `out` stay as they were.
 * 2: a state of another length, or less than 10 bytes in `out`. */
uint64_t kalanhav_end_text(uint64_t *state, size_t state_length, uint8_t *out, size_t out_length);

/* Writes the lines of all positions that are not 0 and of the total compensation. Bytes of `out` behind them stay as they were. 2: unfit
 * memory, state or cents of another length, or less than KALANHAV_LISTING_ROOM bytes in `out`. */
uint64_t kalanhav_list_positions(uint64_t *state, size_t state_length, const int64_t *cents, size_t cents_length,
    const uint64_t *mandates, size_t mandates_length, const uint64_t *collections, size_t collections_length,
    const uint64_t *creditors, size_t creditors_length, const int64_t *creditor_positions, size_t creditor_positions_length,
    const int64_t *debtor_positions, size_t debtor_positions_length, const int64_t *bank_positions, size_t bank_positions_length,
    uint8_t *out, size_t out_length);

/* Opens the ledger and gives it a list of events, nine cells each; cells that make no whole event are none. Refused events change
 * nothing, and which they are is not answered. The cells of lines, bytes and figure stay as they are. 2: as kalanhav_open. */
uint64_t kalanhav_replay(uint64_t *state, size_t state_length, int64_t *cents, size_t cents_length, const uint64_t *events,
    size_t events_length, uint64_t *mandates, size_t mandates_length, uint64_t *collections, size_t collections_length,
    uint64_t *creditors, size_t creditors_length, int64_t *creditor_positions, size_t creditor_positions_length,
    int64_t *debtor_positions, size_t debtor_positions_length, int64_t *bank_positions, size_t bank_positions_length);

/* Whether memory is fit: what refusal 2 asks of it. */
bool kalanhav_is_fit(const uint64_t *state, size_t state_length, const int64_t *cents, size_t cents_length,
    const uint64_t *mandates, size_t mandates_length, const uint64_t *collections, size_t collections_length,
    const uint64_t *creditors, size_t creditors_length, const int64_t *creditor_positions, size_t creditor_positions_length,
    const int64_t *debtor_positions, size_t debtor_positions_length, const int64_t *bank_positions, size_t bank_positions_length);

/* Whether memory is safe: fit, and every position within what the collections have moved. An opening leaves it safe, and every call that
 * finds it safe leaves it safe. Where memory of another origin is fit alone, an accepted event may carry a position beyond its limit;
 * the memory is unfit from then on. */
bool kalanhav_is_safe(const uint64_t *state, size_t state_length, const int64_t *cents, size_t cents_length,
    const uint64_t *mandates, size_t mandates_length, const uint64_t *collections, size_t collections_length,
    const uint64_t *creditors, size_t creditors_length, const int64_t *creditor_positions, size_t creditor_positions_length,
    const int64_t *debtor_positions, size_t debtor_positions_length, const int64_t *bank_positions, size_t bank_positions_length);

/* ---- the same with all that is lent in one struct */

typedef struct kalanhav_book {
    uint64_t state[KALANHAV_STATE_CELLS];
    int64_t cents[KALANHAV_CENTS_CELLS];
    uint64_t *mandates;
    size_t mandates_length;
    uint64_t *collections;
    size_t collections_length;
    uint64_t *creditors;
    size_t creditors_length;
    int64_t *creditor_positions;
    size_t creditor_positions_length;
    int64_t *debtor_positions;
    size_t debtor_positions_length;
    int64_t *bank_positions;
    size_t bank_positions_length;
} kalanhav_book;

/* The cells that the tables with so many rows take together: creditors and all positions, and the rows. */
#define KALANHAV_CELLS(mandate_rows, collection_rows) \
    (KALANHAV_CREDITORS * 2 + KALANHAV_DEBTORS + KALANHAV_BANKS + \
        ((size_t)(mandate_rows) + (size_t)(collection_rows)) * KALANHAV_ROW_CELLS)

#define KALANHAV_HEAD_(book) \
    (book)->state, KALANHAV_STATE_CELLS, (book)->cents, KALANHAV_CENTS_CELLS
#define KALANHAV_TABLES_(book) \
    (book)->mandates, (book)->mandates_length, (book)->collections, (book)->collections_length, (book)->creditors, \
        (book)->creditors_length, (book)->creditor_positions, (book)->creditor_positions_length, (book)->debtor_positions, \
        (book)->debtor_positions_length, (book)->bank_positions, (book)->bank_positions_length

static inline uint64_t kalanhav_book_open(kalanhav_book *book)
{
    return kalanhav_open(KALANHAV_HEAD_(book), KALANHAV_TABLES_(book));
}

/* Lays the tables of a book out in memory of KALANHAV_CELLS cells of 64 bits, of any content, and opens it: 0, or 2 for rows outside their
 * limits. */
static inline uint64_t kalanhav_book_start(kalanhav_book *book, uint64_t *memory, size_t mandate_rows, size_t collection_rows)
{
    if (mandate_rows < 1 || mandate_rows > KALANHAV_MANDATE_ROWS || collection_rows < 1 || collection_rows > KALANHAV_COLLECTION_ROWS) {
        return 2;
    }
    book->creditors = memory;
    book->creditors_length = KALANHAV_CREDITORS;
    book->creditor_positions = (int64_t *)(memory += KALANHAV_CREDITORS);
    book->creditor_positions_length = KALANHAV_CREDITORS;
    book->debtor_positions = (int64_t *)(memory += KALANHAV_CREDITORS);
    book->debtor_positions_length = KALANHAV_DEBTORS;
    book->bank_positions = (int64_t *)(memory += KALANHAV_DEBTORS);
    book->bank_positions_length = KALANHAV_BANKS;
    book->mandates = memory += KALANHAV_BANKS;
    book->mandates_length = mandate_rows * KALANHAV_ROW_CELLS;
    book->collections = memory + book->mandates_length;
    book->collections_length = collection_rows * KALANHAV_ROW_CELLS;
    return kalanhav_book_open(book);
}

static inline uint64_t kalanhav_book_take_event(kalanhav_book *book, const uint64_t event[KALANHAV_EVENT_CELLS])
{
    return kalanhav_take_event(KALANHAV_HEAD_(book), event, KALANHAV_EVENT_CELLS, KALANHAV_TABLES_(book));
}

/* The figure is stored where there is one. */
static inline uint64_t kalanhav_book_position(kalanhav_book *book, uint64_t kind, uint64_t number, int64_t *figure)
{
    uint64_t answer = kalanhav_position(KALANHAV_HEAD_(book), kind, number, KALANHAV_TABLES_(book));
    if (answer == 0) {
        *figure = book->cents[KALANHAV_FIGURE];
    }
    return answer;
}

/* Takes `added` bytes that stand behind the partial line in `text`: from text + book->state[KALANHAV_FILLED] on. */
static inline uint64_t kalanhav_book_take_text(
    kalanhav_book *book, uint8_t *text, size_t text_length, size_t added, uint8_t *out, size_t out_length)
{
    if (book->state[KALANHAV_FILLED] > text_length || added > text_length - book->state[KALANHAV_FILLED]) {
        return 2;
    }
    book->state[KALANHAV_FILLED] += added;
    uint64_t answer = kalanhav_take_text(KALANHAV_HEAD_(book), text, text_length, out, out_length, KALANHAV_TABLES_(book));
    if (answer != 0) {
        book->state[KALANHAV_FILLED] -= added;
    }
    return answer;
}

static inline uint64_t kalanhav_book_end_text(kalanhav_book *book, uint8_t *out, size_t out_length)
{
    return kalanhav_end_text(book->state, KALANHAV_STATE_CELLS, out, out_length);
}

static inline uint64_t kalanhav_book_list_positions(kalanhav_book *book, uint8_t *out, size_t out_length)
{
    return kalanhav_list_positions(KALANHAV_HEAD_(book), KALANHAV_TABLES_(book), out, out_length);
}

static inline uint64_t kalanhav_book_replay(kalanhav_book *book, const uint64_t *events, size_t events_length)
{
    return kalanhav_replay(KALANHAV_HEAD_(book), events, events_length, KALANHAV_TABLES_(book));
}

static inline bool kalanhav_book_is_fit(const kalanhav_book *book)
{
    return kalanhav_is_fit(KALANHAV_HEAD_(book), KALANHAV_TABLES_(book));
}

static inline bool kalanhav_book_is_safe(const kalanhav_book *book)
{
    return kalanhav_is_safe(KALANHAV_HEAD_(book), KALANHAV_TABLES_(book));
}

#ifdef __cplusplus
}
#endif

#endif
