/*
 * Galleypoppy for firmware: patterns, verdict, dispatcher, task text.
 *
 * The functions of `crates/stand_c`, built into `crates/stand_c/out/libstand_c.a` by `rt lib` there, for x86-64 Linux (the
 * System V calling convention, a 64-bit size_t). Each of them is proved to give the answer that document 01 names (spare: document 02,
 * 1/14; the stored number of met marks: 2/14; the two patterns: 3/14; old texts carried over and back: 4/14; a replay with measured
 * job lengths: 5/14; the room of a row: 7/14), on every input, provided that the caller keeps to "What a caller owes" below and the
 * compiler's back end is right.
 *
 * What the functions do not do: allocate, keep anything between calls, read or write anything but the lent runs, stop or jump out.
 * They can be called at the same time on different runs. The archive has no writable data, and the only outside symbols it asks for
 * are memcpy and memset.
 *
 * Stack, measured at 32 rows: gp_report, which holds a table, a state and what it prints, 13,288 bytes; gp_replay, with a copy of the
 * state, 5,596; gp_to_new and gp_to_old 3,528, gp_write 1,672, gp_read 1,112, gp_run and gp_tick 956, gp_verdict 576, gp_rooms 176;
 * gp_job, gp_word, gp_check, gp_fresh, gp_well, gp_counts and gp_held under 150. No frames along any calls add up to more; memcpy and
 * memset are not counted.
 *
 * Answers. Every function hands back two numbers, gp_replay a third behind them. Where `refusal` is 0, the call was accepted and
 * `value` is its answer. Otherwise `refusal` is a number of documents 01 and 02 (enum gp_refusal), and `value` is the row or the place
 * that goes with it, 0 where there is none. If several refusals apply, the first in the order that stands at the function is given. A
 * refused call alters nothing that was lent. An accepted call alters only what its comment says; a room may be longer than needed, and
 * its rest stays as it was.
 *
 * Runs. A lent run of words or bytes is passed as a pointer and then its length: how many words, or how many bytes where it is bytes.
 * An empty run is a pointer that is aligned and not null, with length 0: any object of the type will do. NULL is never allowed.
 *
 * What a caller owes. No proof reaches across the C boundary, so nothing checks that
 *   - each pointer is not null, is aligned for its type, and is valid for the whole of the length passed with it: every word or byte
 *     of it initialised, and for a run that is not const also writable; the whole run at most PTRDIFF_MAX bytes
 *   - the length is the true one, or less
 *   - the runs of one call do not overlap where one of them is not const, even where the types are the same (the room of gp_counts
 *     is no part of its state; a text is not carried over or back in its own place; the log of gp_replay is no part of its state)
 *   - no other thread and no interrupt writes a lent run during the call, nor reads one that is not const
 *   - what is linked is the archive that this header came with.
 */
#ifndef GALLEYPOPPY_H
#define GALLEYPOPPY_H

#include <stddef.h>
#include <stdint.h>

#ifdef __cplusplus
extern "C" {
#endif

/* Rows of a table: 1 to this. */
#define GP_ROWS_MAX 32

/* Words of a row of a table, and of the longest table. */
#define GP_TASK_WORDS 7
#define GP_TABLE_WORDS (GP_ROWS_MAX * GP_TASK_WORDS)

/* Words of a state: three, and 20 for each of 32 rows. */
#define GP_HEAD_WORDS 3
#define GP_ROW_WORDS 20
#define GP_STATE_WORDS (GP_HEAD_WORDS + GP_ROWS_MAX * GP_ROW_WORDS)

/* Words that gp_counts fills. */
#define GP_COUNT_WORDS 7

/* Bytes of the longest task text that is accepted, of the longest old one (gp_to_new), and of a room that is always enough for
   gp_report. */
#define GP_TEXT_BYTES 1512
#define GP_OLD_TEXT_BYTES 1384
#define GP_REPORT_BYTES 5632

/* The last time of the clock. */
#define GP_CLOCK_END UINT32_C(4294967295)

/* The refusal numbers of documents 01 and 02, and what `value` is with each. */
enum gp_refusal {
    GP_ACCEPTED = 0,        /* no refusal; the answer's value */
    GP_NOT_WHOLE_ROWS = 1,  /* words not a multiple of seven; 0 */
    GP_NO_ROWS = 2,         /* no rows; 0 */
    GP_MANY_ROWS = 3,       /* over 32 rows; 0 */
    GP_ID_RANGE = 4,        /* id outside 1..65535; row */
    GP_T_RANGE = 5,         /* T outside 1..65535; row */
    GP_D_RANGE = 6,         /* D outside 1..T; row */
    GP_C_RANGE = 7,         /* C outside 1..65535; row */
    GP_K_RANGE = 8,         /* k outside 1..64; row */
    GP_M_RANGE = 9,         /* m outside 1..k; row */
    GP_REPEATED = 10,       /* id stands in an earlier row; row */
    GP_UNSCHEDULABLE = 11,  /* unschedulable; first row that does not fit */
    GP_TEXT = 12,           /* text fault; place */
    GP_ROOM = 13,           /* lent room too short for the answer; 0 */
    GP_STATE = 14,          /* state not well formed; 0 */
    GP_CLOCK = 15,          /* time + n past the clock's end; 0 */
    GP_P_RANGE = 16,        /* p above 1; row. It comes after 9 and before 10 */
    GP_NOT_OLD = 17,        /* a row that the old form of a text cannot say: p is 1; first such row. It comes before 13 */
    GP_LOG = 18             /* a number of a log outside 1..C of the row whose job it is for; its place in the log, from 0 */
};

/* Every answer but that of gp_replay. The name of the type is the header's; its layout is the archive's. */
struct gp_answer {
    uint64_t refusal;
    uint64_t value;
};

/* The answer of gp_replay. The name of the type is the header's; its layout is the archive's. */
struct gp_replayed {
    uint64_t refusal;
    uint64_t value;  /* ticks done; where it is refused, what goes with the refusal */
    uint64_t used;   /* numbers of the log used, from its start; 0 where it is refused */
};

/* The patterns that p of a row names. */
enum gp_pattern {
    GP_EVEN = 0,       /* the even pattern: gp_job and gp_word tell it */
    GP_DEEPLY_RED = 1  /* the first m of every k jobs are mandatory: job a, from 0, when a mod k is below m */
};

/*
 * A table: 32-bit words, seven to a row, in the order of the first seven of enum gp_field (id, C, T, D, m, k, p). The order of the
 * rows is the order of priority, row 0 highest.
 *
 * Before 3/14 a row had six words, with no p. Nothing guesses which form is meant. A table of six-word rows is refused with 1 where
 * its length is no multiple of seven. Where it is one (7, 14, 21 or 28 rows), the words are judged as rows of seven, and some pass,
 * as another table than was meant. So put p = GP_EVEN behind the k of every row before such a table is offered.
 *
 * A state: GP_STATE_WORDS 64-bit words. It is all there is to a running table: copy the words to save it, copy them back to restore
 * it, and offer them with the length that was saved. A state that was saved before 3/14 has 611 words, none of them GP_P; before 2/14
 * it has 579, none of them GP_HELD either. Both are refused with 14 by their length, never misread. Do not lengthen one: padded to
 * GP_STATE_WORDS it is judged as any other words are. First these three:
 */
enum gp_head {
    GP_ROWS = 0,  /* number of rows, 1 to 32 */
    GP_TIME = 1,  /* ticks done, 0 to GP_CLOCK_END */
    GP_IDLE = 2   /* idle ticks among them */
};

/* Then 20 words a row, in this order. Rows past the last are all 0. */
enum gp_field {
    GP_ID = 0,
    GP_C = 1,
    GP_T = 2,
    GP_D = 3,
    GP_M = 4,
    GP_K = 5,
    GP_P = 6,          /* enum gp_pattern */
    GP_WAIT = 7,       /* ticks until the next release, 0 to T - 1 */
    GP_PLACE = 8,      /* the next job's place in the pattern, 0 to k - 1 */
    GP_WORK = 9,       /* the live job's work left, 0 where none is live */
    GP_LEFT = 10,      /* ticks left to its deadline, 0 where none is live */
    GP_KIND = 11,      /* 1 for a live mandatory job, otherwise 0 */
    GP_WINDOW = 12,    /* the last k marks, newest in bit 0, 1 for met; bits from k up are clear */
    GP_RELEASED = 13,  /* jobs released */
    GP_MM = 14,        /* mandatory met */
    GP_MX = 15,        /* mandatory missed */
    GP_OM = 16,        /* optional met */
    GP_OX = 17,        /* optional missed */
    GP_BROKEN = 18,    /* settlings after which the window held fewer than m met marks */
    GP_HELD = 19       /* met marks in the window: 0 to k, the number of its set bits */
};

/* The index of a row's word among the words of a state: state[GP_WORD_AT(2, GP_WINDOW)]. */
#define GP_WORD_AT(row, field) (GP_HEAD_WORDS + (row) * GP_ROW_WORDS + (field))

/* What gp_counts fills, in this order. */
enum gp_count {
    GP_COUNT_RELEASED = 0,
    GP_COUNT_MM = 1,
    GP_COUNT_MX = 2,
    GP_COUNT_OM = 3,
    GP_COUNT_OX = 4,
    GP_COUNT_BROKEN = 5,
    GP_COUNT_SPARE = 6  /* misses left: so many further misses in a row leave the window at least m met marks, and one more does not;
                           0 also where it holds fewer than m already: then gp_held, or GP_HELD, is below GP_M */
};

/*
 * Whether job number `job`, from 0, of a task with m out of k is mandatory by the even rule. Value: 1, or 0 for optional.
 * It tells of a row with p 0 only. In a row with p 1, job a is mandatory when a mod k is below m. It takes one remainder and lays
 * nothing on the stack, so it may be asked often.
 * Refusals: 8, 9, each with row 0.
 */
struct gp_answer gp_job(uint32_t m, uint32_t k, uint32_t job);

/*
 * The pattern word of m out of k by the even rule. Value: the word; bit a, for a below k, is set exactly when job a is mandatory.
 * It tells of a row with p 0 only. In a row with p 1, those bits are 0 to m - 1.
 * Refusals: 8, 9, each with row 0.
 */
struct gp_answer gp_word(uint32_t m, uint32_t k);

/*
 * Whether words are a table. Value: its number of rows.
 * Refusals: 1, 2, 3, then row by row 4 to 9 in number order, 16, 10.
 */
struct gp_answer gp_check(const uint32_t *words, size_t words_length);

/*
 * The verdict on a table. Value: its number of rows; the room then holds the response times, one word a row, from the start.
 * GP_ROWS_MAX words are room for every table. Of a table turned down, gp_rooms tells by how much the row named is too long.
 * Refusals: 1, 2, 3, then row by row 4 to 9 in number order, 16, 10; then 13, 11.
 */
struct gp_answer gp_verdict(const uint32_t *words, size_t words_length, uint32_t *room, size_t room_length);

/*
 * The rooms of a table's rows, admitted or not. A row's room is a number of ticks: the largest value, over t from 1 to its D, of t less
 * the load that rows above bring by t, or 0 if that is never positive. Value: the number of rows; the lent words then hold the rooms,
 * one word a row, from the start. GP_ROWS_MAX words are enough for every table.
 *
 * A row fits exactly when its C is at most its room. So C of a row may be raised to its room, the rows above left as they are; at
 * room + 1 the row is the first that does not fit, if those above fit, and gp_verdict names it. (Above a room of 65535 there is no C:
 * 65536 is refused with 7.) With a room of 0 a row fits with no C. The room of row 0 is its D. Of its own words, only D plays a part in
 * a row's room. A higher C takes room from the rows below, and the verdict on them may turn; the last row has none below.
 *
 * A table that gp_verdict turns down has its rooms too, also those of the rows below the one that is named.
 * Refusals: 1, 2, 3, then row by row 4 to 9 in number order, 16, 10; then 13. Never 11.
 */
struct gp_answer gp_rooms(const uint32_t *words, size_t words_length, uint32_t *room, size_t room_length);

/*
 * The fresh state of a table, admitted or not, in the first GP_STATE_WORDS words of the room. Value: its number of rows.
 * Refusals: 1, 2, 3, then row by row 4 to 9 in number order, 16, 10; then 13.
 */
struct gp_answer gp_fresh(const uint32_t *table, size_t table_length, uint64_t *room, size_t room_length);

/*
 * Whether words are a well-formed state: the length is GP_STATE_WORDS, the words are as documents 01 and 02 ask, and GP_HELD of each
 * row is the number of met marks in its window. Value: 0. A state that gp_fresh laid and only gp_tick, gp_run and gp_replay altered is
 * well formed.
 * Refusals: 14.
 */
struct gp_answer gp_well(const uint64_t *state, size_t state_length);

/*
 * One tick: the state one tick later. Value: 0. The same as gp_run with n = 1.
 * Refusals: 14, 15.
 */
struct gp_answer gp_tick(uint64_t *state, size_t state_length);

/*
 * n ticks: the state n ticks later. Value: 0. A run of 0 alters nothing. The state is looked at once, before the first tick, so a
 * long run is much cheaper than as many single ticks.
 * Refusals: 14, 15.
 */
struct gp_answer gp_run(uint64_t *state, size_t state_length, uint32_t n);

/*
 * A replay: at most n ticks with the lengths of a log in place of C. The log says how long each job really took: one number for each
 * job that is released, in order of release (by tick, then by row), each 1 to C of its row. The replay stops before the first tick that
 * releases more jobs than the log has left, or after n ticks; a tick that releases none needs no number, so it is done also where the
 * log is empty or used up. Value: the ticks done; `used`: the numbers used. The state is so many ticks later. Numbers that no release
 * before the stop would use are not looked at.
 *
 * A replay can be made in pieces. After a stop, when more numbers have come, go on from log + used with n - value ticks: the state is
 * then that of one replay of the whole log. Where every number is the C of its row, the state is that of gp_run over the same ticks.
 *
 * From the fresh state of a table that gp_verdict admits, whatever the numbers of an accepted replay are: every mandatory job whose
 * deadline has come finished by it, none took longer than its row's response time (job 0 may take less, where jobs are shorter than
 * C), and any k consecutive jobs of a task whose deadlines have all come include at least m finished in time.
 *
 * Where it is refused, `used` is 0 and no word of the state is altered, however late in the log the number stands: the replay is made
 * on a copy of the state, which is laid back at the end. That is two copies of GP_STATE_WORDS words a call, and nothing a tick.
 * Refusals: 14; 15 by n, also where the log would stop the replay sooner; then 18, with the place of the first number out of range that
 * a release before the stop would use.
 */
struct gp_replayed gp_replay(uint64_t *state, size_t state_length, uint32_t n, const uint32_t *log, size_t log_length);

/*
 * The counts of one row of a state, in the first GP_COUNT_WORDS words of the room (enum gp_count). Value: 0.
 * Where the state has no such row, all seven are 0.
 * Refusals: 14, 13.
 */
struct gp_answer gp_counts(const uint64_t *state, size_t state_length, uint32_t row, uint64_t *room, size_t room_length);

/*
 * How many met marks one row of a state has: what a screen asks in every frame. Value: the row's GP_HELD, as it is stored; 0 where the
 * state has no such row. It costs the same however many rows there are, because it does not go through them; so it does not look
 * whether the state is well formed. On a well-formed state the value is the number of met marks in the row's window; of words that
 * come from elsewhere ask gp_well first.
 * Refusals: 14, only where the length is not GP_STATE_WORDS or the number of rows is not 1 to 32.
 */
struct gp_answer gp_held(const uint64_t *state, size_t state_length, uint32_t row);

/*
 * Reads a task text, of a row the lines id, c, t, d, m, k, p. Value: the number of rows; the room then holds the table, seven words a
 * row, from the start. GP_TABLE_WORDS words are room for every table. A text that was accepted before 3/14, with no line p, is refused
 * with 12; gp_to_new makes of it one that is read.
 * Refusals: 12 for the first line, 2 and 3 for its value, 12 for the remaining lines, then row by row 4 to 9 in number order, 16, 10;
 * then 13.
 */
struct gp_answer gp_read(const uint8_t *text, size_t text_length, uint32_t *room, size_t room_length);

/*
 * Writes the task text of a table. Value: the length of the text, which stands in the room from the start, with no 0 behind it.
 * GP_TEXT_BYTES bytes are room for every table.
 * Refusals: 1, 2, 3, then row by row 4 to 9 in number order, 16, 10; then 13.
 */
struct gp_answer gp_write(const uint32_t *words, size_t words_length, uint8_t *room, size_t room_length);

/*
 * Carries an old task text over. It reads a text as it was before 3/14, of a row the lines id, c, t, d, m, k, and writes the text of the
 * same rows, each with a last line p=0. Value: the length of the text written, which stands in the room from the start, with no 0
 * behind it. GP_TEXT_BYTES bytes are room for every table. From the text written, gp_to_old makes the one that was read, byte for byte.
 * Refusals: 12 for the first line, 2 and 3 for its value, 12 for the remaining lines, then row by row 4 to 10 in number order; then 13.
 */
struct gp_answer gp_to_new(const uint8_t *text, size_t text_length, uint8_t *room, size_t room_length);

/*
 * Carries a task text back to the old form. It reads a text as gp_read does and, if p is 0 in every row, writes the text of the same
 * rows with no lines p. Value: the length of the text written, which stands in the room from the start, with no 0 behind it.
 * GP_OLD_TEXT_BYTES bytes are room for every table. From the text written, gp_to_new makes the one that was read, byte for byte.
 * Refusals: 12 for the first line, 2 and 3 for its value, 12 for the remaining lines, then row by row 4 to 9 in number order, 16, 10;
 * then 17, with the first row whose p is 1; then 13.
 */
struct gp_answer gp_to_old(const uint8_t *text, size_t text_length, uint8_t *room, size_t room_length);

/*
 * The printing program: from its input, a line `ticks=N` and a task text, to all that it prints. Value: the length of what is
 * printed, which stands in the room from the start, with no 0 behind it. A refusal of the input is printed too, and is no refusal
 * of this call. Since 7/14 a line `room=` follows the line `r=` of every row, with what gp_rooms tells of it, also in a table turned
 * down. GP_REPORT_BYTES bytes are always enough.
 * Refusals: 13.
 */
struct gp_answer gp_report(const uint8_t *input, size_t input_length, uint8_t *room, size_t room_length);

#ifdef __cplusplus
}
#endif

#endif
