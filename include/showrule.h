/* Show rules for desks: the C names of the proved static library (rt lib, in crates/boundary, writes out/libboundary.a).
 *
 * A rule is a table of 32-bit words: a header, and then words numbered from 1; document 01 says what they mean. The header is of kind 0,
 * its left field is the class byte of the last word, or 0 where a word of kind 12 to 15 occurs, and its right field the number of words
 * after it, never 0 (SHOWRULE_HEADER makes one). A length counts the header; the number of words, and so every limit, leaves it out.
 *
 * A house sets two limits, and hands both to text, plain, normal and form: `written`, 1 to 256, is the most words of a written table, and
 * `until_like`, 0 to 10, the most until-like words (kinds 8 to 11) of a plain one that is rewritten; to these four a plain table has at most
 * 2 written + 2 words. A limit outside its range is 25, before any other refusal. The program keeps to 64 and 8. Every other function but
 * check, which is handed its limit, takes tables of up to 16,383 words.
 *
 * Every function takes any numbers and any words, and answers 0 when the call is accepted, or the number of the refusal, the first that
 * applies in the order of documents 01 and 02. The place is then the number of the faulty word for 3 to 11 and 21 (0 for 6 of a state),
 * that of a byte of the text for 19, and 0 otherwise; accepted, it is 0. No function allocates, keeps a pointer, reads or writes a file, or
 * ends the program. They may run on several threads at once, on memory that no other call writes.
 *
 * What a caller keeps to; nothing checks it:
 *   - A slice is a pointer and then its length, in elements, not in bytes. It is memory of the caller, aligned for its element, that
 *     may be read, and where the pointer is to non-const also written, for that length. Of length 0 it is the empty slice, whatever
 *     the pointer, the null pointer too.
 *   - A pointer to a single number (place, form_length, ..) is never null. What the number held before a call does not matter.
 *   - A slice or number that is written lies apart from every other slice and number of the same call.
 *   - A bool is 0 or 1. One that a call writes is 0 or 1 too, whatever it held before.
 *   - A call needs stack: 512 KB have been enough for the longest and the deepest rules, except on tables of over 512 words for
 *       showrule_dialect   1 MB: its arrays have some 512 KB
 *       showrule_after     1 MB: some 736 KB
 *       showrule_move      1 MB: some 529 KB; of over 4,096 words 2 MB: some 1,681 KB
 *     (rust/showrule/tests/stack.rs tries them).
 */
#ifndef SHOWRULE_H
#define SHOWRULE_H

#include <stdbool.h>
#include <stddef.h>
#include <stdint.h>

#ifdef __cplusplus
extern "C" {
#endif

/* The numbers that a call answers. */
enum {
    SHOWRULE_ACCEPTED = 0,
    SHOWRULE_NO_WORD = 1,               /* the slice is empty, or the count in the header is 0 */
    SHOWRULE_TOO_MANY_WORDS = 2,        /* the count is more than the step takes */
    SHOWRULE_KIND_ZERO = 3,             /* a word of kind 0 */
    SHOWRULE_NOT_PLAIN = 4,             /* kind 12 to 15 in a step that takes plain tables only */
    SHOWRULE_OPERAND_ZERO = 5,          /* an operand field is 0 */
    SHOWRULE_OPERAND_NOT_EARLIER = 6,   /* an operand is not an earlier word, or a state's number is past the last (place 0) */
    SHOWRULE_LETTER_OUT_OF_RANGE = 7,   /* a letter is not 1 to 32 */
    SHOWRULE_FIELD_NOT_ZERO = 8,        /* a field that must be 0 isn't */
    SHOWRULE_REPEATED = 9,              /* a word is the same as an earlier one */
    SHOWRULE_UNUSED = 10,               /* a word that is not the last is used by none */
    SHOWRULE_TOO_MANY_UNTIL_LIKE = 11,  /* more until-like words than the limit, outside Delta-2; the place is the first over it */
    SHOWRULE_RESULT_TOO_SHORT = 12,     /* the result, its header too, is longer than the slice that is lent for it */
    SHOWRULE_NO_SAMPLE = 13,            /* the recording has no sample */
    SHOWRULE_TOO_MANY_SAMPLES = 14,     /* it has over 4,096 */
    SHOWRULE_LOOP_START_OUTSIDE = 15,   /* the loop start is not below the number of samples */
    SHOWRULE_SCRATCH_TOO_SHORT = 16,    /* the scratch is shorter than the rows */
    SHOWRULE_TALLY_FULL = 17,           /* the named desk's judged is 4,294,967,295, or its held exceeds its judged */
    SHOWRULE_NOT_GRAMMAR = 19,          /* the text departs from the grammar; the place is the byte at which it does */
    SHOWRULE_TEXT_TOO_LONG = 20,        /* the text has over 1,024 bytes */
    SHOWRULE_LETTER_NOT_DRIVEN = 21,    /* a word names a letter above the driven ones; the place is the lowest such word */
    SHOWRULE_TOO_MANY_DRIVEN = 22,      /* a recording or a sample is said to drive over 32 letters */
    SHOWRULE_COUNT_DIFFERS = 23,        /* the count in the header is not the number of words after it */
    SHOWRULE_WRONG_HEADER = 24,         /* the header's kind is not 0, or its class not that of the table */
    SHOWRULE_LIMITS_OUTSIDE = 25,       /* the limit on written words is not 1 to 256, or that on until-like words not 0 to 10 */
    SHOWRULE_DESK_OUTSIDE = 26,         /* the desk's number is not below the number of tallies */
    SHOWRULE_DRIVEN_COUNTS_DIFFER = 27, /* two recordings that are compared drive different numbers of letters */
    SHOWRULE_NOT_DELTA_2 = 28           /* the class of a table's last word lacks Delta-2, so that it has no automaton */
};

/* The most of each that a call takes; of words, beside the header. */
enum {
    SHOWRULE_MOST_BYTES = 1024,       /* bytes of a text, for text */
    SHOWRULE_MOST_WORDS = 16383,      /* words of a table, for check, class, dialect, after, states, move, judge and row */
    SHOWRULE_MOST_WRITTEN = 256,      /* the highest limit on the words of a written table, for text, plain and form; the lowest is 1 */
    SHOWRULE_MOST_UNTIL_LIKE = 10,    /* the highest limit on the until-like words of a plain table, for normal and form */
    SHOWRULE_MOST_SAMPLES = 4096,     /* samples of a recording */
    SHOWRULE_MOST_DRIVEN = 32         /* letters that a recording or a sample drives */
};

/* The limits of the program. */
enum { SHOWRULE_DESK_WRITTEN = 64, SHOWRULE_DESK_UNTIL_LIKE = 8 };

/* The most words of a plain table, for normal, under a limit on written words. No plain form is longer. */
#define SHOWRULE_PLAIN_WORDS(written) (2 * (size_t)(written) + 2)

/* The lengths of slices, the header included, that are always enough: under a limit on written words for the table of a text and for a
 * plain form, and for any table. A longer slice than the last counts for no more. */
#define SHOWRULE_WRITTEN_ROOM(written) (1 + (size_t)(written))
#define SHOWRULE_PLAIN_ROOM(written) (1 + SHOWRULE_PLAIN_WORDS(written))
enum { SHOWRULE_MOST_ROOM = 16384 };

/* The header of a table of so many words, 1 to 16,383, with this class byte. */
#define SHOWRULE_HEADER(class_byte, words) ((uint32_t)(class_byte) << 14 | (uint32_t)(words))

/* The 64-bit words of scratch that so many words and samples need; the header needs none. */
#define SHOWRULE_SCRATCH_WORDS(words, samples) ((size_t)(words) * (((size_t)(samples) + 63) / 64))

/* The checks of a table: 1, 2 and 23, then 3 to 10, then 24; of a plain one (kinds 1 to 11) where plain is true, else of a written one, of
 * at most limit words. No count is over 16,383, so that a higher limit refuses nothing. It writes nothing but the place. */
uint32_t showrule_check(const uint32_t *table, size_t length, bool plain, size_t limit, size_t *place);

/* The class byte of each word of a plain table of at most 16,383 words, the checks of a table and 12. Accepted, the first length - 1 bytes
 * are the class bytes in the order of the words, the header having none, and later bytes stay. Refused by 12, every byte of the slice is
 * 0; refused otherwise, it is as it was. Bit 0 is class zero, 1 Sigma-1, 2 Pi-1, 3 Delta-1, 4 Sigma-2, 5 Pi-2, 6 Delta-2; bit 7 is 0. */
uint32_t showrule_classify(const uint32_t *table, size_t length, uint8_t *bytes, size_t room, size_t *place);

/* The written table of a rule typed as text: true, false, p1 to p32, the prefixes ! X F G, and the two-sided & | -> U W R M, always with
 * their two operands in round brackets; spaces (byte 32) may stand round these symbols, and nothing else, so that no final line end and
 * no final 0 is part of a text. Refusals, the first of them that applies:
 *   25  a limit is outside its range, until_like too, though it has no bearing on a text.
 *   20  over 1,024 bytes.
 *   19  no rule of the grammar; the place is the first byte, counted from 1, after which no continuation could help, or bytes + 1 where
 *       the text ends early.
 *   2   the table has over `written` words.
 *   12  it is longer than the result.
 * Accepted, *table_length is its length, header and words, numbered by first need with sharing, are the first of the result, and later
 * words stay; SHOWRULE_WRITTEN_ROOM(written) words are always enough. It passes the checks of a table. Refused by 12, every word of the
 * result is 0; refused otherwise, it is as it was. Refused, *table_length is 0. */
uint32_t showrule_text(const uint8_t *text, size_t bytes, size_t written, size_t until_like, uint32_t *result, size_t room,
                       size_t *table_length, size_t *place);

/* The plain form of a written table of at most `written` words: 25, the checks of a table, and 12. Accepted, *form_length is its length,
 * its header and words are the first of the result, and later words stay; SHOWRULE_PLAIN_ROOM(written) words are always enough. Refused by
 * 12, every word of the result is 0; refused otherwise, it is as it was. Refused, *form_length is 0. */
uint32_t showrule_plain(const uint32_t *table, size_t length, size_t written, size_t until_like, uint32_t *result, size_t room,
                        size_t *form_length, size_t *place);

/* The normal form of a plain table of at most SHOWRULE_PLAIN_WORDS(written) words: 25 and the checks of a table first.
 *
 * Where the class byte in its header has bit 6, the table is in Delta-2, and is its own form: *in_source is true, *form_length is the
 * table's length, and the result is as it was. However many until-like words it has, and however short the result is, it is accepted.
 *
 * Any other table is rewritten: 11 where it has over `until_like` until-like words, and 12. *in_source is false, and the form is the first
 * *form_length words of the result, its header and words; later words stay. It is folded, and then numbered by first need with sharing:
 * false or a is a, a W true is true, X false is false, and so on from the leaves upward, so that the whole form may be the one word true
 * or false, and 12 measures the folded form. Beside it only remainders (showrule_after) are folded: a table that is its own form, plain
 * forms, conversions and the tables of texts keep their constants. A result counts for 16,383 words and the header at most.
 *
 * Refused by 12, every word of the result is 0; refused otherwise, it is as it was. Refused, *in_source is false and *form_length 0. The
 * table is only read. */
uint32_t showrule_normal(const uint32_t *table, size_t length, size_t written, size_t until_like, uint32_t *result, size_t room,
                         bool *in_source, size_t *form_length, size_t *place);

/* The table of a plain table's conversion to the dialect without W and M: a W b becomes b R (a or b), and a M b becomes b U (a and b);
 * a table that has neither is renumbered only. It takes at most 16,383 words, and makes the checks of a table, kinds 12 to 15 being 4, and
 * 12. Accepted, *form_length is the conversion's length, its header and words, numbered by first need with sharing, are the first of the
 * result, and later words stay; n words become at most 2 n + 2, beside the header, but over 16,383 fit no slice. The result holds where
 * the table does, passes the checks of a plain table, and for each word of the table has one whose class byte is the same. Refused by 12,
 * every word of the result is 0; refused otherwise, it is as it was. Refused, *form_length is 0. */
uint32_t showrule_dialect(const uint32_t *table, size_t length, uint32_t *result, size_t room, size_t *form_length, size_t *place);

/* What remains of a plain table's rule after a sample, which drives the letters 1 to `driven`: the rule that the show has to keep from the
 * next moment on. A letter becomes true or false, as the sample says, X a becomes a, a U b becomes b' or (a' and (a U b)), where a' and b'
 * are what remains of a and b, W likewise, R and M with and and or exchanged; the result is folded as rewritten forms are, so that what
 * remains may be the one word true or false. It holds from the next moment on exactly if the table's rule holds at this one, and so on over
 * any number of calls, each of which is handed the last remainder and the next sample. It takes at most 16,383 words, and makes the checks
 * of a table, kinds 12 to 15 being 4, then 22, 21 and 12. The bits of the sample above the driven ones are never looked at. Accepted,
 * *table_length is the remainder's length, its header and words, numbered by first need with sharing, are the first of the result, and
 * later words stay; n words become at most 3 n + 3, beside the header, but over 16,383 fit no slice. It passes the checks of a plain table,
 * and names no letter that the table does not. Refused by 12, every word of the result is 0; refused otherwise, it is as it was. Refused,
 * *table_length is 0. The table is only read, so that the rule being followed is kept. */
uint32_t showrule_after(const uint32_t *table, size_t length, uint32_t sample, size_t driven, uint32_t *result, size_t room,
                        size_t *table_length, size_t *place);

/* The states of the automaton that watches a rule, a plain table in Delta-2 of at most 16,383 words (source 002, section 7.2). They are the
 * table's proper words, which are neither constant, and, nor or, each with every smallest one of the classes Sigma-1, Pi-1, Sigma-2 and
 * Pi-2 that hold it: a word has one state or two, a letter two. The accepting ones are those with a Pi class. A state is one word: kind 1
 * if it is accepting, else 0; left field the class's bit number, 1, 2, 4 or 5; right field the number of the table's word. They stand in
 * rising word, then class bit, and are numbered from 1.
 *
 * The automaton begins in its start, and goes on by the moves of its states (showrule_move). A run on a recording, read on for ever, has at
 * moment 0 a smallest set of states that makes the start true, and for each state of a moment, at the next one, a smallest set that makes
 * its move by the moment's sample true. It accepts if no move is false, and every endless path comes to accepting states again and again.
 * There is such a run exactly if the rule holds at moment 0. On any path there is at most one change between accepting and other states.
 *
 * The checks of a table, kinds 12 to 15 being 4, then 28 where the class byte in the header lacks bit 6, then 12. Accepted, *states is how
 * many there are, at most twice the table's words; they are the first words of the result, without a header, and later words stay. Refused
 * by 12, because the slice is too short or there are over 16,383, every word of the result is 0; refused otherwise, it is as it was.
 * Refused, *states is 0. */
uint32_t showrule_states(const uint32_t *table, size_t length, uint32_t *result, size_t room, size_t *states, size_t *place);

/* The move of a state of that automaton, by its number from 1, on a sample, which drives the letters 1 to `driven`; number 0 is for the
 * start, of which the sample is not looked at. Either is a table without a header, numbered by first need with sharing, of kinds 1, 2, 5, 6
 * and, for a state, 3 with its number; nothing is folded.
 *
 * The start is the rule's own and, or and constants down to its first proper words, each the or of its states, Sigma left of Pi. The move of
 * a letter is true or false, as the sample says. X a moves to a, in which and, or and constants stay, and each first proper word stands as
 * the or of those of its states whose class is the state's own or lies within it. a U b moves to b' or (a' and the state itself), where in
 * a' and b' each of those states stands for its own move; W likewise, R and M with and and or exchanged.
 *
 * The checks of a table, then 28, as for the states; 6 at place 0 where the number is past the last state; 22 and 21, of the start too; and
 * 12, where the slice is too short, or there are over 16,383 words, or over 16,383 states, whatever the move. The bits of the sample above
 * the driven ones are never looked at. Accepted, *words is how many words there are, at most 7 n + 7 for a table of n; they are the first
 * of the result, and later words stay. Refused by 12, every word of the result is 0; refused otherwise, it is as it was. Refused, *words
 * is 0. */
uint32_t showrule_move(const uint32_t *table, size_t length, size_t state, uint32_t sample, size_t driven, uint32_t *result, size_t room,
                       size_t *words, size_t *place);

/* The whole way, from a written table to its normal form: showrule_plain into the slice plain, then showrule_normal on exactly the table
 * that it answered, header and words, under the same limits. plain is left as showrule_plain leaves it, and where that table is its own
 * form, *in_plain is true: the form is the first *form_length words of plain, and the result is as it was. Else *in_plain is false, and the
 * form is the first *form_length words of the result. Where the plain form is refused, the number and the place are those of that refusal,
 * and the result is as it was; else number, place and the result are as showrule_normal leaves them, and the place of 11 is the number of
 * a word of the plain form. A 12 is of plain where every word of plain is 0, and else of the result: a plain form that was made begins with
 * its header, which is not 0. Refused, *in_plain is false and *form_length 0. */
uint32_t showrule_form(const uint32_t *table, size_t length, size_t written, size_t until_like, uint32_t *plain, size_t plain_room,
                       uint32_t *result, size_t room, bool *in_plain, size_t *form_length, size_t *place);

/* The tally of a desk: how many accepted judgements named it, and how many of those held at moment 0. A house has a slice of them, one for
 * each desk, and begins with zeros. */
typedef struct showrule_tally {
    uint32_t judged;
    uint32_t held;
} showrule_tally;

/* Judges a rule, a table of at most 16,383 words, written or plain, over a recording of `count` samples: after the last comes the one at
 * the loop start again, for ever. The recording drives the letters 1 to `driven`, 0 to 32 of them: a rule that names a higher one is
 * refused by 21, and the bits of the samples above the driven ones are never looked at. The judgement names the desk that it is for, by its
 * place among the tallies, counted from 0. The checks of a table, then 13 to 15, 22, 21, 16, 26 and 17, in this order; 17 looks at the
 * named desk's tally only. Accepted, *holds says whether the rule holds at moment 0, *moments at how many of the recorded moments,
 * *failing is the first of them at which it fails (count if none); tallies[desk].judged is one more, and so is tallies[desk].held if it
 * held at moment 0, and the other tallies stay. The scratch then starts with a row for each word, in their order, the header having none,
 * each of (count + 63) / 64 words of 64 bits: moment i is bit i % 64 of the row's word i / 64, unused high bits are 0; later words stay.
 * Refused, *holds is false, *moments and *failing are 0, and the tallies and the scratch are as they were. */
uint32_t showrule_judge(const uint32_t *table, size_t length, const uint32_t *samples, size_t count, size_t start, size_t driven,
                        uint64_t *scratch, size_t room, showrule_tally *tallies, size_t desks, size_t desk, bool *holds, size_t *moments,
                        size_t *failing, size_t *place);

/* The row call: the rows of showrule_judge, with no tally and so without checks 26 and 17. Accepted, the rule's own row is the part of
 * the scratch of *row_words words from scratch[*from] on. Refused, both are 0, and the scratch is as it was. */
uint32_t showrule_row(const uint32_t *table, size_t length, const uint32_t *samples, size_t count, size_t start, size_t driven,
                      uint64_t *scratch, size_t room, size_t *from, size_t *row_words, size_t *place);

/* Whether two recordings of one show, of any lengths and loop starts, have the same driven bits at every moment when both are read on for
 * ever: the first of `count` samples with its loop start and driven count, and the second, the `other` one. 13 to 15 and 22 of the first,
 * then the same of the second, then 27 where the driven counts differ; every place is 0. Accepted, *same says whether they have, and where
 * they have not, *moment is the first moment that differs: a driven letter under X, *moment times, then holds at moment 0 of one of them
 * alone. Where they are the same, every rule of driven letters holds at moment 0 of both or of neither. The bits above the driven ones are
 * never looked at. *moment is 0 where they are the same; refused, *same is false and *moment 0. */
uint32_t showrule_compare(const uint32_t *samples, size_t count, size_t start, size_t driven, const uint32_t *others, size_t other_count,
                          size_t other_start, size_t other_driven, bool *same, size_t *moment, size_t *place);

#ifdef __cplusplus
}
#endif

#endif
