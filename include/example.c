/*
 * A music stand in small: read the task text, ask for the verdict and for the room of each row, run a second of ticks as a timer
 * interrupt would, look at the counts and at the pattern of a deeply-red row; save the state on the way and go on from the saved words;
 * see what the rooms of a table turned down tell a planner; carry an old text over and back; meet six refusals. Then document 01's
 * table with measured job lengths: replay a log whole, short of numbers and in pieces, and meet the refusals of that.
 *
 *     include/run
 */
#include <inttypes.h>
#include <stdio.h>
#include <stdlib.h>
#include <string.h>

#include "galleypoppy.h"

enum { SECOND = 1000, SAVED_AT = 650 };

/* Words of a state that was saved when a row had no GP_P. */
enum { EARLIER_WORDS = GP_STATE_WORDS - GP_ROWS_MAX };

/* A tick is a millisecond. From the highest row down: pedal scan, tuner, screen, radio slot. The radio slot is deeply-red: of every
   four jobs the first two are mandatory, so they come together. */
static const char stand_text[] =
    "rows=4\n"
    "id=1\nc=1\nt=5\nd=2\nm=1\nk=1\np=0\n"
    "id=2\nc=6\nt=20\nd=20\nm=2\nk=3\np=0\n"
    "id=3\nc=14\nt=40\nd=40\nm=3\nk=5\np=0\n"
    "id=4\nc=20\nt=100\nd=100\nm=2\nk=4\np=1\n";

/* A file from before a row had a line p: a desk with a pedal scan and a tuner alone. */
static const char old_text[] =
    "rows=2\n"
    "id=1\nc=1\nt=5\nd=2\nm=1\nk=1\n"
    "id=2\nc=6\nt=20\nd=20\nm=2\nk=3\n";

/* Document 01's table, whose response times are 2 and 6. */
static const uint32_t small_table[] = {
    11, 2, 4, 4, 1, 2, GP_EVEN,
    12, 4, 6, 6, 2, 3, GP_EVEN
};

enum { TICKS = 24, NUMBERS = 10 };

/* How long the jobs of its first 24 ticks took, in order of release: of row 0 at most 2, of row 1 at most 4. */
static const uint32_t measured[NUMBERS] = {
    1, 4,  /* tick 0, both rows */
    2,     /* tick 4, row 0: an optional job; it has one tick before row 1's next job comes, and is missed */
    3,     /* tick 6, row 1 */
    2,     /* tick 8, row 0 */
    1, 4,  /* tick 12, both rows: two optional jobs, and both are met */
    1,     /* tick 16, row 0 */
    2,     /* tick 18, row 1 */
    2      /* tick 20, row 0; ticks 22 and 23 are idle */
};

/* The same jobs at full length: what a run takes them to be. */
static const uint32_t full_length[NUMBERS] = {2, 4, 2, 4, 2, 2, 4, 2, 4, 2};

enum { PEDAL = 0, SCREEN = 2, RADIO = 3 };
static const char *const names[] = {"pedal scan", "tuner", "screen", "radio slot"};

/* The words of a row behind its table, from GP_WAIT on. */
static const char *const words[] = {"wait", "place", "work", "left", "kind", "window", "released", "mm", "mx", "om", "ox", "broken",
                                    "held"};

/* Firmware would keep these in place too: nothing here is allocated. */
static uint32_t table[GP_TABLE_WORDS];
static uint32_t plan[GP_TABLE_WORDS];
static uint32_t responses[GP_ROWS_MAX];
static uint32_t rooms[GP_ROWS_MAX];
static uint32_t rooms_before[GP_ROWS_MAX];
static uint64_t state[GP_STATE_WORDS];
static uint64_t saved[GP_STATE_WORDS];
static uint64_t whole_state[GP_STATE_WORDS];
static uint32_t spoilt[NUMBERS];
static uint8_t written[GP_TEXT_BYTES];
static uint8_t old_written[GP_OLD_TEXT_BYTES];

/* The jobs that the radio slot released, and of each in its bit whether it was mandatory. */
static uint32_t radio_jobs;
static uint64_t radio_kinds;

/* The value of an answer that this program has no use without. */
static uint64_t wanted(const char *what, struct gp_answer answer)
{
    if (answer.refusal != GP_ACCEPTED) {
        printf("%s: refused=%" PRIu64 " at=%" PRIu64 "\n", what, answer.refusal, answer.value);
        exit(EXIT_FAILURE);
    }
    return answer.value;
}

static size_t read_table(void)
{
    const uint8_t *text = (const uint8_t *)stand_text;
    size_t length = sizeof stand_text - 1;
    size_t rows = wanted("read", gp_read(text, length, table, GP_TABLE_WORDS));
    size_t back = wanted("write", gp_write(table, rows * GP_TASK_WORDS, written, GP_TEXT_BYTES));
    int same = back == length && memcmp(written, text, length) == 0;
    printf("read: rows=%zu, written back: %s\n", rows, same ? "the same text" : "another text");
    return rows;
}

/* Room is t less the load of the rows above by t, at the best t up to D. By hand: 2 for the pedal scan, which has no row above; 20 - 4
   for the tuner, at t = 20; 40 - 8 - 12 for the screen, at 40; 100 - 20 - 24 - 28 for the radio slot, at 100. */
static void judge(size_t rows)
{
    wanted("verdict", gp_verdict(table, rows * GP_TASK_WORDS, responses, GP_ROWS_MAX));
    wanted("rooms", gp_rooms(table, rows * GP_TASK_WORDS, rooms, GP_ROWS_MAX));
    printf("verdict: admitted\n");
    for (size_t row = 0; row < rows; row++)
        printf("  %s: id=%" PRIu32 " r=%" PRIu32 " room=%" PRIu32 "\n", names[row], table[row * GP_TASK_WORDS + GP_ID], responses[row],
               rooms[row]);
}

/* Notes the kind of a job that the radio slot has just released. Its work outlasts the tick of its release, so it is live here. */
static void note_radio_job(void)
{
    if (state[GP_WORD_AT(RADIO, GP_RELEASED)] > radio_jobs) {
        radio_kinds |= state[GP_WORD_AT(RADIO, GP_KIND)] << radio_jobs;
        radio_jobs++;
    }
}

/* One call a tick, as from a timer. A firmware that wants many ticks at once calls gp_run. */
static void run_second(size_t rows)
{
    wanted("fresh", gp_fresh(table, rows * GP_TASK_WORDS, state, GP_STATE_WORDS));
    while (state[GP_TIME] < SECOND) {
        wanted("tick", gp_tick(state, GP_STATE_WORDS));
        note_radio_job();
        if (state[GP_TIME] == SAVED_AT)
            memcpy(saved, state, sizeof saved);
    }
    printf("run: ticks=%" PRIu64 " idle=%" PRIu64 "\n", state[GP_TIME], state[GP_IDLE]);
}

static void show_counts(size_t rows)
{
    for (uint32_t row = 0; row < rows; row++) {
        uint64_t count[GP_COUNT_WORDS] = {0};
        wanted("counts", gp_counts(state, GP_STATE_WORDS, row, count, GP_COUNT_WORDS));
        printf("  %s: released=%" PRIu64 " mm=%" PRIu64 " mx=%" PRIu64 " om=%" PRIu64 " ox=%" PRIu64, names[row],
               count[GP_COUNT_RELEASED], count[GP_COUNT_MM], count[GP_COUNT_MX], count[GP_COUNT_OM], count[GP_COUNT_OX]);
        printf(" broken=%" PRIu64 " spare=%" PRIu64, count[GP_COUNT_BROKEN], count[GP_COUNT_SPARE]);
        printf(" held=%" PRIu64 "\n", wanted("held", gp_held(state, GP_STATE_WORDS, row)));
    }
}

/* The radio slot's mandatory jobs, and those of the same m and k in the even pattern, which alone gp_job tells. */
static void show_pattern(void)
{
    const uint32_t *radio = &table[RADIO * GP_TASK_WORDS];
    printf("radio slot: mandatory jobs");
    for (uint32_t job = 0; job < radio_jobs; job++)
        if (radio_kinds >> job & 1)
            printf(" %" PRIu32, job);
    printf("; in the even pattern");
    for (uint32_t job = 0; job < radio_jobs; job++)
        if (wanted("job", gp_job(radio[GP_M], radio[GP_K], job)))
            printf(" %" PRIu32, job);
    printf("\n");
}

/* Words that come from a flash or over a wire are looked at before they are run. */
static void restore(void)
{
    wanted("well", gp_well(saved, GP_STATE_WORDS));
    printf("saved: ticks=%" PRIu64 ", radio slot: work=%" PRIu64 " left=%" PRIu64 " window=%" PRIu64 "\n", saved[GP_TIME],
           saved[GP_WORD_AT(RADIO, GP_WORK)], saved[GP_WORD_AT(RADIO, GP_LEFT)], saved[GP_WORD_AT(RADIO, GP_WINDOW)]);
    wanted("run", gp_run(saved, GP_STATE_WORDS, SECOND - SAVED_AT));
    int same = memcmp(saved, state, sizeof saved) == 0;
    printf("restored and run: ticks=%" PRIu64 ", %s\n", saved[GP_TIME], same ? "the same state" : "another state");
}

/* A state of an earlier version is known by its length, so its words are never taken for others. */
static void show_earlier(void)
{
    struct gp_answer answer = gp_well(saved, EARLIER_WORDS);
    printf("%d words, as many as an earlier state has: refused=%" PRIu64 "\n", EARLIER_WORDS, answer.refusal);
}

/* The verdict with another p in the screen's row. Deeply-red, its three mandatory jobs come together and leave the radio slot too
   little. That table stays a table, so it could be run; it is not admitted. With a p above 1 it is no table. */
static void show_screen(size_t rows, uint32_t p)
{
    table[SCREEN * GP_TASK_WORDS + GP_P] = p;
    struct gp_answer answer = gp_verdict(table, rows * GP_TASK_WORDS, responses, GP_ROWS_MAX);
    printf("verdict with a screen of p=%" PRIu32 ": refused=%" PRIu64 " at=%" PRIu64, p, answer.refusal, answer.value);
    if (answer.refusal == GP_UNSCHEDULABLE)
        printf(", the %s does not fit", names[answer.value]);
    if (answer.refusal == GP_P_RANGE)
        printf(", no such pattern for the %s", names[answer.value]);
    printf("\n");
}

/* The rooms of a table of so many rows, admitted or not. */
static void show_rooms(const uint32_t *judged, size_t rows)
{
    wanted("rooms", gp_rooms(judged, rows * GP_TASK_WORDS, rooms, GP_ROWS_MAX));
    printf("rooms:");
    for (size_t row = 0; row < rows; row++)
        printf(" %" PRIu32, rooms[row]);
    printf("\n");
}

/* What a planner tries: the verdict on a copy of the table with another C in one row. */
static void try_c(size_t rows, size_t row, uint32_t c)
{
    memcpy(plan, table, sizeof plan);
    plan[row * GP_TASK_WORDS + GP_C] = c;
    struct gp_answer answer = gp_verdict(plan, rows * GP_TASK_WORDS, responses, GP_ROWS_MAX);
    printf("  a %s of c=%" PRIu32 ": ", names[row], c);
    if (answer.refusal == GP_ACCEPTED)
        printf("admitted, r=%" PRIu32 "\n", responses[row]);
    else
        printf("refused=%" PRIu64 " at=%" PRIu64 "\n", answer.refusal, answer.value);
}

/* The table turned down, with the deeply-red screen. The radio slot asks for 20 and has 80 - 16 - 18 - 28 = 18, at t = 80; at 100 it is
   100 - 20 - 24 - 42 = 14. So it fits with a C of 18, and not with 19. */
static void plan_radio(size_t rows)
{
    show_rooms(table, rows);
    uint32_t room = rooms[RADIO];
    try_c(rows, RADIO, room);
    try_c(rows, RADIO, room + 1);
}

/* A pedal scan of 3, above its D, is the row named, and the rows below it have rooms all the same: 20 - 12 for the tuner, at t = 20, and
   40 - 24 - 12 for the screen, at 40. What is left for the radio slot is never positive, so its room is 0. */
static void plan_pedal(size_t rows)
{
    try_c(rows, PEDAL, 3);
    show_rooms(plan, rows);
}

/* Words for all rows but one: refused, and the words that were lent are as they were. No room is as large as what they hold. */
static void show_short(size_t rows)
{
    memset(rooms, 0xFF, sizeof rooms);
    memcpy(rooms_before, rooms, sizeof rooms);
    struct gp_answer answer = gp_rooms(table, rows * GP_TASK_WORDS, rooms, rows - 1);
    int same = memcmp(rooms, rooms_before, sizeof rooms) == 0;
    printf("rooms of %zu rows in %zu words: refused=%" PRIu64 ", %s\n", rows, rows - 1, answer.refusal,
           same ? "the same words" : "other words");
}

/* An old text is not guessed to be one: reading it meets a fault where the first line p would stand. Carried over it is read, and
   carried back it is the same. Text and room of a call are never the same bytes. */
static void carry_old(void)
{
    const uint8_t *text = (const uint8_t *)old_text;
    size_t length = sizeof old_text - 1;
    struct gp_answer answer = gp_read(text, length, table, GP_TABLE_WORDS);
    printf("old text, read as it is: refused=%" PRIu64 " at=%" PRIu64 "\n", answer.refusal, answer.value);
    size_t over = wanted("to_new", gp_to_new(text, length, written, GP_TEXT_BYTES));
    size_t rows = wanted("read", gp_read(written, over, table, GP_TABLE_WORDS));
    printf("carried over: bytes=%zu, then %zu, read: rows=%zu\n", length, over, rows);
    size_t back = wanted("to_old", gp_to_old(written, over, old_written, GP_OLD_TEXT_BYTES));
    int same = back == length && memcmp(old_written, text, length) == 0;
    printf("carried back: bytes=%zu, %s\n", back, same ? "the same text" : "another text");
}

/* The old form has no word for a pattern, so a table with a deeply-red row is not written in it. */
static void show_not_old(void)
{
    struct gp_answer answer = gp_to_old((const uint8_t *)stand_text, sizeof stand_text - 1, old_written, GP_OLD_TEXT_BYTES);
    printf("the stand as an old text: refused=%" PRIu64 " at=%" PRIu64, answer.refusal, answer.value);
    if (answer.refusal == GP_NOT_OLD)
        printf(", the old form cannot say the %s", names[answer.value]);
    printf("\n");
}

static void lay_small(void)
{
    wanted("fresh", gp_fresh(small_table, sizeof small_table / sizeof *small_table, state, GP_STATE_WORDS));
}

static const char *held_against(const uint64_t *other)
{
    return memcmp(state, other, sizeof state) == 0 ? "the same state" : "another state";
}

/* Of a refused replay `used` is 0, and not shown. */
static void show_replayed(struct gp_replayed answer)
{
    if (answer.refusal == GP_ACCEPTED)
        printf("ticks=%" PRIu64, answer.value);
    else
        printf("refused=%" PRIu64 " at=%" PRIu64, answer.refusal, answer.value);
    if (answer.refusal == GP_ACCEPTED || answer.used != 0)
        printf(" used=%" PRIu64, answer.used);
}

/* All of a state but its table and its time. */
static void show_state(void)
{
    printf(", idle=%" PRIu64 "\n", state[GP_IDLE]);
    for (uint32_t row = 0; row < state[GP_ROWS]; row++) {
        printf("  row %" PRIu32 ":", row);
        for (int field = GP_WAIT; field <= GP_HELD; field++)
            printf(" %s=%" PRIu64, words[field - GP_WAIT], state[GP_WORD_AT(row, field)]);
        printf("\n");
    }
}

/* The log from fresh, the whole of it or as many numbers as have come. */
static struct gp_replayed replay_numbers(size_t length)
{
    lay_small();
    struct gp_replayed answer = gp_replay(state, GP_STATE_WORDS, TICKS, measured, length);
    printf("replay of %zu numbers: ", length);
    show_replayed(answer);
    show_state();
    return answer;
}

/* With four numbers the replay stops before tick 8, a job of row 1 under way. When the others have come it goes on from there. */
static void replay_pieces(void)
{
    replay_numbers(NUMBERS);
    memcpy(whole_state, state, sizeof whole_state);
    struct gp_replayed first = replay_numbers(4);
    uint32_t ticks_left = TICKS - (uint32_t)first.value;
    printf("gone on with the others: ");
    show_replayed(gp_replay(state, GP_STATE_WORDS, ticks_left, measured + first.used, NUMBERS - first.used));
    printf(", %s\n", held_against(whole_state));
}

/* The log with another number at one place. */
static void spoil(size_t place, uint32_t number)
{
    memcpy(spoilt, measured, sizeof spoilt);
    spoilt[place] = number;
    printf("%" PRIu32 " at place %zu", number, place);
}

/* Tick 12 releases a job of each row. With six numbers one is left for it, so the replay stops there and does not look at that one. */
static void replay_six(void)
{
    replay_numbers(6);
    memcpy(saved, state, sizeof saved);
    spoil(5, 9);
    lay_small();
    printf(" of 6 numbers: ");
    show_replayed(gp_replay(state, GP_STATE_WORDS, TICKS, spoilt, 6));
    printf(", %s\n", held_against(saved));
}

static void replay_full_length(void)
{
    lay_small();
    wanted("run", gp_run(state, GP_STATE_WORDS, TICKS));
    memcpy(saved, state, sizeof saved);
    lay_small();
    printf("replay of full-length jobs, and a run: ");
    show_replayed(gp_replay(state, GP_STATE_WORDS, TICKS, full_length, NUMBERS));
    printf(", %s\n", held_against(saved));
}

/* The part of a log that has not come yet. Here it is in an array; in a firmware, in a flash or on a wire. */
static const uint32_t *to_come;
static size_t to_come_length;

/* The next numbers of the log, at most so many: how many came, 0 at its end. */
static size_t next_numbers(uint32_t *room, size_t most)
{
    size_t came = to_come_length < most ? to_come_length : most;
    memcpy(room, to_come, came * sizeof *room);
    to_come += came;
    to_come_length -= came;
    return came;
}

/* So few only to have several chunks here: every call looks at the state and copies it twice. */
enum { CHUNK = 3 };

/* A chunk, behind the numbers that the one before left: fewer than a tick releases jobs, so fewer than there are rows. */
static uint32_t numbers[GP_ROWS_MAX - 1 + CHUNK];

/* At most n ticks with a log that comes in chunks. Ticks, numbers and the place of a number out of range are those of the whole log. */
static struct gp_replayed replay_log(uint32_t n)
{
    struct gp_replayed whole = {GP_ACCEPTED, 0, 0};
    size_t left = 0, came;
    do {
        came = next_numbers(numbers + left, CHUNK);
        struct gp_replayed piece = gp_replay(state, GP_STATE_WORDS, n - (uint32_t)whole.value, numbers, left + came);
        if (piece.refusal != GP_ACCEPTED) {
            if (piece.refusal == GP_LOG)
                piece.value += whole.used;
            return piece;
        }
        whole.value += piece.value;
        whole.used += piece.used;
        left += came - piece.used;
        memmove(numbers, numbers + piece.used, left * sizeof *numbers);
    } while (came > 0 && whole.value < n);
    return whole;
}

static void replay_in_chunks(const uint32_t *log)
{
    lay_small();
    to_come = log;
    to_come_length = NUMBERS;
    show_replayed(replay_log(TICKS));
}

/* The whole log, then one with a number out of range in its third chunk. That chunk is refused; the two before it are done. */
static void replay_chunks(void)
{
    printf("replay in chunks of %d: ", CHUNK);
    replay_in_chunks(measured);
    printf(", %s\n", held_against(whole_state));
    spoil(7, 3);
    printf(" in chunks of %d: ", CHUNK);
    replay_in_chunks(spoilt);
    printf(", the state of ticks=%" PRIu64 "\n", state[GP_TIME]);
}

/* Where a replay is refused, no word of the state is another. */
static void show_refused(uint32_t n)
{
    memcpy(saved, state, sizeof saved);
    show_replayed(gp_replay(state, GP_STATE_WORDS, n, spoilt, NUMBERS));
    printf(", %s\n", held_against(saved));
}

/* C of row 1 is 4. The clock's end comes before the log, which is looked at where the ticks are one fewer. */
static void show_log_refusals(void)
{
    lay_small();
    spoil(1, 5);
    printf(": ");
    show_refused(TICKS);
    spoil(2, 0);
    printf(": ");
    show_refused(TICKS);
    state[GP_TIME] = GP_CLOCK_END - TICKS + 1;
    for (uint32_t n = TICKS; n >= TICKS - 1; n--) {
        spoil(0, 0);
        printf(" in %" PRIu32 " ticks, %d before the clock's end: ", n, TICKS - 1);
        show_refused(n);
    }
}

int main(void)
{
    size_t rows = read_table();
    judge(rows);
    run_second(rows);
    show_counts(rows);
    show_pattern();
    restore();
    show_earlier();
    show_screen(rows, GP_DEEPLY_RED);
    plan_radio(rows);
    plan_pedal(rows);
    show_short(rows);
    show_screen(rows, 2);
    carry_old();
    show_not_old();
    replay_pieces();
    replay_six();
    replay_full_length();
    replay_chunks();
    show_log_refusals();
    return EXIT_SUCCESS;
}
