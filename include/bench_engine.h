/* The Pantagruel bench engine, for callers in C and C++.
 *
 * A bench file says which devices a bench has and which reading triggers which action. It is checked once; then each line of readings is one call,
 * which moves a state on and writes a row: what the line has fired.
 *
 *     #include "bench_engine.h"
 *
 *     static uint8_t bench[BENCH_SIZE], state[BENCH_STATE_SIZE], row[BENCH_ROW_SIZE];
 *     const uint8_t *text, *names, *line; // a bench file; "by n pedal.down stage.pos"; "stage_box 1 true 1240": see "Lines and rows" below
 *
 *     // once for a bench file
 *     uint64_t answer = bench_check(text, text_length, bench, sizeof bench);
 *     if (BENCH_NUMBER(answer) != BENCH_ACCEPTED) {
 *         fprintf(stderr, "%s, at byte %zu\n", bench_message(BENCH_NUMBER(answer)), BENCH_REST(answer));
 *         return 1;
 *     }
 *     // once for a run; or else state is read back from a file
 *     bench_fresh(bench, sizeof bench, state, sizeof state);
 *
 *     // for each line that comes
 *     answer = bench_line(bench, sizeof bench, state, sizeof state, names, names_length, line, line_length, row, sizeof row);
 *     if (BENCH_NUMBER(answer) == BENCH_ACCEPTED)
 *         printf("%.*s\n", (int)BENCH_REST(answer), (const char *)row);
 *     else
 *         fprintf(stderr, "refused %u: %s\n", BENCH_NUMBER(answer), bench_message(BENCH_NUMBER(answer)));
 *
 *     cc -Iinclude program.c libengine.a -o program
 *
 * The archive needs memcpy and memset of the C library, and no other library. It is code for x86-64 that may be linked anywhere, also into a shared
 * library. Installed it is called libbench_engine.a (-lbench_engine). Programs to start from stand in examples/c: rows.c prints the rows of a file,
 * keeper.c keeps its state in a file and can be killed at any moment.
 *
 *
 * What holds for every call
 *
 * Memory is lent as slices, each a pointer and a length, and only for the time of the call. All is bytes: cast a char pointer, (const uint8_t *)line.
 * No text ends in a NUL, as it is lent or as it is written: to have one, lend a row of BENCH_ROW_SIZE + 1 bytes and set it at BENCH_REST(answer).
 * - Any bytes and any lengths may be lent: nothing lent is trusted. Memory that is shorter than its stated size is refused by 31.
 * - A refused call changes no byte that was lent to it. An accepted one changes what this page says it writes. What is lent const is never changed.
 * - Memory longer than its stated size is fine. What lies behind the written part stays as it was, within the stated size too.
 * - NULL is fine where the length is 0: as an empty text, and as memory that is too short (31).
 * - The slices lent to one call must not overlap, not even two that are only read: what is promised is promised for slices that lie apart. Slices of
 *   length 0 overlap nothing.
 * - No alignment is asked for.
 *
 * Between two calls leave bench and state alone, or copy them whole, by memcpy or through a file.
 *
 * The engine keeps nothing of its own: the archive has no writable data. It never allocates, blocks, opens, prints or exits. So threads may call at
 * the same time, each with memory of its own; a bench that nobody writes may be lent to all of them. The handler of a signal may call too, if it
 * leaves alone what is lent to the call that it interrupts, and its stack is large enough.
 *
 * A line takes microseconds on usual benches. Its time grows with the length of the bench file, and with the number of entities of an interface to the
 * power of a rule's variables of it: the largest benches can take seconds. Measure yours before you choose a time-out.
 *
 * A call that is cut off (the process is killed in it, or it is left by longjmp) leaves what it writes undefined. So do not lend memory that outlives
 * the process, as a mapped file does: copy the state out after the call.
 *
 * Floating point: reals are those of IEEE 754 binary64, rounded to nearest, with subnormal numbers kept, as every program starts. The calls do not
 * set that mode, they rely on it. A caller who changes the direction of rounding (fesetround), or who has subnormals flushed to 0 (the bits FTZ and
 * DAZ of MXCSR, which start-up code of -ffast-math sets for the whole program), gets other results, without a word: 1r / 3r one bit up, a small
 * result 0. One who has floating-point exceptions trapped (feenableexcept) gets SIGFPE where a rule divides a real by 0. The calls may raise flags of
 * exceptions. Restore the default around the calls, in each thread that has changed it: fesetenv(FE_DFL_ENV) of <fenv.h> (-lm).
 */
#ifndef BENCH_ENGINE_H
#define BENCH_ENGINE_H

#include <stddef.h>
#include <stdint.h>

#ifdef __cplusplus
extern "C" {
#endif

/* Versions, stack, sizes and limits. */

/* The interface: calls, numbers, sizes, and what is said of them here. It grows by 1 with every change that a caller could notice. */
#define BENCH_INTERFACE_VERSION 1

/* The form of a state's bytes. It grows by 1 when states of the form before are no longer taken, or would be read otherwise. */
#define BENCH_STATE_FORM 1

/* A state on disk: the bytes of BENCH_STATE_TAG (the digit in it is BENCH_STATE_FORM), and then the BENCH_STATE_SIZE bytes of the state as the call left
 * them, nothing behind them. `bin/bench --state` and examples/c/keeper.c read and write it so. A reader that finds another tag or another length says
 * so and stops: it is no state of this form.
 * - The bytes are the same on every machine: numbers stand low byte first, nothing depends on alignment or compiler. The engine writes only as many
 *   of them as the bench and its senders need; clear the memory once (memset, or static) to get equal files for equal states.
 * - A state belongs to its bench file's text: keep the text beside it. After a state was read back ask bench_row for any sender: 33 says that it is none
 *   of this bench. Begin with a fresh one only if there is no file, never because one is refused or cannot be read: with a fresh state every sender
 *   begins again at 1.
 * - 33 finds another text and bytes that do not fit the bench; it is no checksum, and a spoilt bit in a value may pass. Where the disk is not trusted,
 *   keep a checksum beside it.
 * - To be safe from a kill or a power failure, write a new file beside the old one, fsync it, rename it over the old one, fsync the folder; and only
 *   then give the row to whoever sent the line. If the kill comes before that, the line is sent again and gets the row that it would have got. Hold a
 *   lock (lockf) on a file beside it: two programs on one state undo each other's lines.
 * - A bench may be written and read back too, all BENCH_SIZE bytes; but the text is the thing to keep, and bench_check makes the bench from it. */
#define BENCH_STATE_TAG "bench-state 1\n"
#define BENCH_STATE_TAG_SIZE 14u

/* Bytes of stack to reserve for a thread that makes calls (pthread_attr_setstacksize); a usual main thread has more. The calls were measured to take
 * 400,000 bytes at most, on a bench that takes the most (tests/c/threads.c); nothing grows with the readings. Some 100 KB are left to the thread's own
 * frames: keep bench, state and row, which take as much, off this stack. It is touched page by page on the way down, so that too small a one ends in
 * the thread's guard page and not behind it. */
#define BENCH_STACK_SIZE 524288u

/* Stated sizes: memory that is shorter is refused by 31. */
#define BENCH_SIZE 32772u
#define BENCH_STATE_SIZE 35117u
#define BENCH_ROW_SIZE 32768u

/* That of a sheet depends on the readings, by the line feeds in them: two rows of 81 bytes for each, and 30 rows that close the sheet. */
#define BENCH_SHEET_SIZE(line_feeds) ((size_t)2430 + (size_t)162 * (size_t)(line_feeds))

/* Lengths in bytes, and the count of senders, beyond which texts and lines are refused: by 11, 22, 21, 43 and 42. */
#define BENCH_LONGEST_TEXT 32768u
#define BENCH_LONGEST_NAMES 32768u
#define BENCH_LONGEST_LINE 8192u
#define BENCH_LONGEST_SENDER 24u
#define BENCH_MOST_SENDERS 8u

/* Answers. */

/* Every call but bench_byte_class and bench_entity_name answers with a number in the low 8 bits (0: accepted), and above it the offset of the fault
 * in a refused text, or the length of a written row or sheet; else 0. */
#define BENCH_NUMBER(answer) ((unsigned)((answer) & 255u))
#define BENCH_REST(answer) ((size_t)((answer) >> 8))

/* Each call gives the first number of its own list, below, that fits. */
enum bench_refusal {
    BENCH_ACCEPTED = 0,

    /* A bench file's text; with the offset of the fault, in bytes from 0, at most the text's length. Its line is 1 and the line feeds before it, its
     * column 1 and the bytes behind the last of them. */
    BENCH_TEXT_TOO_LONG = 11,     /* it has more than 32,768 bytes; the offset is 32,768 */
    BENCH_WORD_NOT_ALLOWED = 12,  /* a byte or word that no bench file has: an odd byte, too long a name, too large a number */
    BENCH_WORD_MISPLACED = 13,    /* a word that cannot stand there, or the text ends too early; the offset is then its length */
    BENCH_TOO_MANY = 14,          /* one item too many. Most: 16 interfaces, 12 members of each, 32 entities, 64 rules, and in a rule 3 variables,
                                   * 8 clauses, 8 calls */
    BENCH_DECLARED_AGAIN = 15,    /* a name is declared again, an attribute set again, or a variable named as an entity */
    BENCH_NAME_UNKNOWN = 16,      /* a name or member is unknown, or of the wrong sort there */
    BENCH_ATTRIBUTE_NOT_SET = 17, /* an entity leaves an attribute unset; at its closing brace */
    BENCH_KINDS_UNFIT = 18,       /* kinds do not fit, at the =, operator, real or ( of a call where they meet */
    BENCH_RANK_TOO_HIGH = 44,     /* the number of a rank is above 9; it comes after 13 and before 14 */

    /* A line of readings. */
    BENCH_RECORD_ILL_FORMED = 21,  /* it has more than 8,192 bytes, a wrong count of fields, not one space between, or an ill-formed number */
    BENCH_NAMES_ILL_FORMED = 22,   /* the line of names has more than 32,768 bytes, does not begin with by n, or a column is unknown, an attribute,
                                    * an action, or there twice */
    BENCH_VALUE_REFUSED = 23,      /* a value is ill formed, of another kind than its column, or for an event of an absent entity */
    BENCH_NUMBER_OUT_OF_TURN = 24, /* the line's number is neither its sender's last one nor the next; the first is 1, the last 4,294,967,295 */
    BENCH_READINGS_DIFFER = 25,    /* the line's number is its sender's last one, but with other readings */
    BENCH_SENDER_NINTH = 42,       /* eight senders are known, and this is a ninth one; a sender is known from its first taken line */
    BENCH_SENDER_ILL_FORMED = 43,  /* the sender is no name: a letter, then letters, digits or _, 24 bytes at most */

    /* Lent memory. */
    BENCH_MEMORY_SHORT = 31, /* it is shorter than its stated size */
    BENCH_NO_BENCH = 32,     /* it is no bench, as bench_check writes it */
    BENCH_NO_STATE = 33,     /* it is no state of that bench: of another text, or bytes that do not fit it */

    /* The cells of a sheet. */
    BENCH_CELLS_REFUSED = 41 /* none, more than five, not one space between, or one that the bench has not */
};

/* A sentence for a number, for people to read; never NULL. What is no number of the table gets a sentence too. */
static inline const char *bench_message(unsigned number)
{
    switch (number) {
    case BENCH_ACCEPTED: return "accepted";
    case BENCH_TEXT_TOO_LONG: return "the bench file has more than 32768 bytes";
    case BENCH_WORD_NOT_ALLOWED: return "a byte or word that is not allowed in a bench file";
    case BENCH_WORD_MISPLACED: return "a word that cannot stand there, or the bench file ends too early";
    case BENCH_TOO_MANY: return "one item too many in the bench file";
    case BENCH_DECLARED_AGAIN: return "a name is declared again, or an attribute is set again";
    case BENCH_NAME_UNKNOWN: return "a name or member is unknown, or of the wrong sort there";
    case BENCH_ATTRIBUTE_NOT_SET: return "the entity that closes there has an attribute that is not set";
    case BENCH_KINDS_UNFIT: return "kinds (whole, bool, real) that do not fit";
    case BENCH_RECORD_ILL_FORMED: return "the line of values is too long, or its fields or its number are ill formed";
    case BENCH_NAMES_ILL_FORMED: return "the line of names is ill formed";
    case BENCH_VALUE_REFUSED: return "a value is ill formed, of another kind, or for an absent entity";
    case BENCH_NUMBER_OUT_OF_TURN: return "the line's number is neither its sender's last one nor the next";
    case BENCH_READINGS_DIFFER: return "the line's number is its sender's last one, but with other readings";
    case BENCH_MEMORY_SHORT: return "the lent memory is shorter than its stated size";
    case BENCH_NO_BENCH: return "the lent memory is no checked bench";
    case BENCH_NO_STATE: return "the lent memory is no state of this bench file's text";
    case BENCH_CELLS_REFUSED: return "the cells of a sheet are none, more than five, or unknown to the bench";
    case BENCH_SENDER_NINTH: return "the line's sender is a ninth one: eight are known";
    case BENCH_SENDER_ILL_FORMED: return "the sender is no name";
    case BENCH_RANK_TOO_HIGH: return "the rank of a rule is above 9";
    default: return "the engine has no such number";
    }
}

/* Lines and rows: which names go in, and which come out.
 *
 * In: the line of names, lent to every bench_line. It is `by n`, then a column for each thing that is read, chosen by the caller: entity.event for
 * the readings of an event, entity alone for its presence. Actions are never read: they are refused there by 22.
 *     by n pedal.down stage.pos probe
 * In: the line of values. It has the sender's name, that sender's own number, from 1 on, then a value for each column; one space between fields.
 *     stage_box 1 false 1240 -
 * Out: a row. It has sender and number of its line, then a field for every action of every entity, in the order of the bench file.
 *     stage_box 1 - 3ff0000000000000
 * Out: the row of names, from bench_header: `by n`, then entity.action for each of those fields. It stands above the rows. It is no line of names:
 * lent back to bench_line it is refused by 22, unless the bench has no action.
 *     by n log.keep lamp.glow
 * No line or row has a line feed, as it is lent and as it is written; nor a carriage return: of lines that end in both, cut off both.
 *
 * Values, the same forms in lines and rows:
 *     whole      -2147483648 to 2147483647, decimal, no leading zero, no + and no -0
 *     bool       true, false
 *     real       the 16 hexadecimal digits of its bits, highest first, in lower case: 3ff0000000000000 is 1. Finite ones alone. Of a double d:
 *                uint64_t bits; memcpy(&bits, &d, 8); snprintf(field, 17, "%016" PRIx64, bits); and back by strtoull(field, NULL, 16).
 *     presence   true, false: whether the entity is there, from this line on; at first all are. One that leaves has its events unset.
 *     -          in a line: no reading, what it was stays; in a row: the action was not fired
 *     ?          in a line: the event becomes unset; not for presence, and in no row
 * An event of an entity that is absent after the line takes `-` alone (23).
 *
 * A line is sent again by its sender when no row came in time: the same number with the same readings, best the very same bytes. If it had been taken,
 * the state stays as it is and the row that it gave comes again, even after lines of others; if not, it is taken now. So nothing is stored twice, and
 * only then comes the sender's next number. The same number with other readings is refused by 25. A refused line does not count: correct it and send it
 * with the same number. A sender that has forgotten its number asks bench_row. */

/* The calls. */

/* Checks a bench file and writes its bench: the text in the form that the other calls take. 31; or with the offset of the fault 11, 12, 13, 44, 14,
 * then of 15, 16 and 17 the one that stands first in the text, 18; or 0. */
uint64_t bench_check(const uint8_t *text, size_t text_length, uint8_t *bench, size_t bench_length);

/* Writes the fresh state of a bench: all entities there, attributes set, all else unset, no sender known. A state belongs to the bench file's text:
 * after any edit of the text, be it a blank or a comment, begin with a fresh state. Calls tell another text by a fingerprint of 32 bits and refuse
 * its state by 33: always if one byte was replaced by another, and but for one in four thousand million else. 31, 32; or 0. */
uint64_t bench_fresh(const uint8_t *bench, size_t bench_length, uint8_t *state, size_t state_length);

/* Takes one line: names, and values under them. Moves the state on and writes the line's row. Of a line sent again it leaves the state and writes its
 * row again; a new line always changes the state. Up to eight senders, each with its own numbers; a sender's name may be any name, also a reserved word
 * of bench files. To try a line of names before there are values, lend values of length 0: 22 if the names are ill formed, else 21.
 * 31, 32, 33, 22, 21, 43, 42, 23, 24, 25; or 0 with the row's length. */
uint64_t bench_line(const uint8_t *bench, size_t bench_length, uint8_t *state, size_t state_length,
                    const uint8_t *names, size_t names_length, const uint8_t *values, size_t values_length,
                    uint8_t *row, size_t row_length);

/* Writes the row of names. 31, 32; or 0 with its length. */
uint64_t bench_header(const uint8_t *bench, size_t bench_length, uint8_t *row, size_t row_length);

/* Writes the row of a sender's last taken line, so that one that was off learns its number: the second field, to which its next line adds 1. Of a
 * sender of whose lines none was taken, its name, 0 and nothing fired. 31, 32, 33, 43; or 0 with the row's length. */
uint64_t bench_row(const uint8_t *bench, size_t bench_length, const uint8_t *state, size_t state_length,
                   const uint8_t *sender, size_t sender_length, uint8_t *row, size_t row_length);

/* Writes the day sheet of a text of readings (names, then lines of values, each ended by a line feed, which the last may lack), run on from a state,
 * which stays as it is: a copy of the state from before the first of these lines. From the state after them all lines are passed over, as those that
 * are refused or sent again are, and the sheet is accepted and empty.
 * Rows of 80 bytes and a line feed, without headings: for each new line its number in columns 1 to 10, without its sender, and each chosen cell as it
 * reads after the line in the next 14, right aligned; `-` is unset, not fired, or of an entity that is away. A real takes two rows, its first 8 digits
 * above the last 8. At the end come, for each real cell in turn, its lowest, highest and last value, two rows each, or three rows of `-` if it had none.
 * cells: one to five entity.member, of any sort, one space between them. 31, 32, 33, 41, 22; or 0 with the sheet's length. */
uint64_t bench_sheet(const uint8_t *bench, size_t bench_length, const uint8_t *state, size_t state_length,
                     const uint8_t *readings, size_t readings_length, const uint8_t *cells, size_t cells_length,
                     uint8_t *sheet, size_t sheet_length);

/* Where the name of an entity stands in a bench file's text, by its number, from 0 in the order of the file. The answer is not to be taken apart by
 * BENCH_NUMBER and BENCH_REST: it has the name's length and offset, and is 0 as a whole if there is no such entity or the text is refused. It writes
 * nothing, and the name is not copied: it is a part of the caller's text. All entities of a text:
 *
 *     for (size_t i = 0; (answer = bench_entity_name(text, text_length, i)) != 0; i++)
 *         printf("%.*s\n", (int)BENCH_NAME_LENGTH(answer), (const char *)text + BENCH_NAME_OFFSET(answer));
 */
uint64_t bench_entity_name(const uint8_t *text, size_t text_length, size_t number);
#define BENCH_NAME_LENGTH(answer) ((size_t)(((answer) >> 8) & 255u))
#define BENCH_NAME_OFFSET(answer) ((size_t)((answer) >> 16))

/* What the bytes of a bench file are for. */
enum bench_class {
    BENCH_BYTE_LETTER = 0,
    BENCH_BYTE_DIGIT = 1,
    BENCH_BYTE_UNDERSCORE = 2,
    BENCH_BYTE_MARK = 3,         /* { } ( ) : = , . + - * / */
    BENCH_BYTE_BLANK = 4,        /* space, tab, line feed */
    BENCH_BYTE_HASH = 5,         /* starts a comment */
    BENCH_BYTE_COMMENT_ONLY = 6, /* every other one of 33 to 126 */
    BENCH_BYTE_NOT_ALLOWED = 7
};

/* The class of a byte, one of these eight, as the check of a bench file has it. It is lent no memory and refuses nothing: the answer is the
 * class itself, and not to be taken apart. */
uint64_t bench_byte_class(uint8_t byte);

/* Names from before version 1 of this interface: a program that uses them defines BENCH_OLD_NAMES before it includes the header. The enum of classes,
 * which was called bench_byte_class, is bench_class for all. */
#ifdef BENCH_OLD_NAMES
#define state_fresh bench_fresh
#define byte_class bench_byte_class
#endif

#ifdef __cplusplus
}
#endif

#endif
