//! A music stand in small: read the task text, ask for the verdict and for the room of each row, run a second of ticks as a timer
//! interrupt would, look at the counts and at the pattern of a deeply-red row; save the state on the way and go on from the saved
//! words; see what the rooms of a table turned down tell a planner; carry an old text over and back; meet six refusals. Then document
//! 01's table with measured job lengths: replay a log whole, short of numbers and in pieces, and meet the refusals of that. It prints
//! what `include/example.c` prints.

use galleypoppy::{job, read, rooms, to_new, to_old, verdict, write};
use galleypoppy::{Field, Kind, Pattern, Refusal, Replayed, State};
use galleypoppy::{OLD_TEXT_BYTES, ROWS_MAX, STATE_WORDS, TABLE_WORDS, TASK_WORDS, TEXT_BYTES};

const SECOND: u32 = 1000;
const SAVED_AT: u32 = 650;

/// Words of a state that was saved when a row had no [`Field::P`].
const EARLIER_WORDS: usize = STATE_WORDS - ROWS_MAX;

/// A tick is a millisecond. From the highest row down: pedal scan, tuner, screen, radio slot. The radio slot is deeply-red: of every
/// four jobs the first two are mandatory, so they come together.
const TEXT: &[u8] = b"rows=4\n\
    id=1\nc=1\nt=5\nd=2\nm=1\nk=1\np=0\n\
    id=2\nc=6\nt=20\nd=20\nm=2\nk=3\np=0\n\
    id=3\nc=14\nt=40\nd=40\nm=3\nk=5\np=0\n\
    id=4\nc=20\nt=100\nd=100\nm=2\nk=4\np=1\n";

/// A file from before a row had a line p: a desk with a pedal scan and a tuner alone.
const OLD_TEXT: &[u8] = b"rows=2\n\
    id=1\nc=1\nt=5\nd=2\nm=1\nk=1\n\
    id=2\nc=6\nt=20\nd=20\nm=2\nk=3\n";

/// Document 01's table, whose response times are 2 and 6.
const SMALL: [u32; 14] = [11, 2, 4, 4, 1, 2, 0, 12, 4, 6, 6, 2, 3, 0];

const TICKS: u32 = 24;

/// How long the jobs of its first 24 ticks took, in order of release: of row 0 at most 2, of row 1 at most 4. Ticks 0 and 12
/// release a job of each row, ticks 4, 8, 16 and 20 one of row 0, ticks 6 and 18 one of row 1.
const MEASURED: [u32; 10] = [1, 4, 2, 3, 2, 1, 4, 1, 2, 2];

/// The same jobs at full length: what a run takes them to be.
const FULL_LENGTH: [u32; 10] = [2, 4, 2, 4, 2, 2, 4, 2, 4, 2];

/// How many numbers of a log come at a time. So few only to have several chunks here: every call looks at the state and copies it
/// twice.
const CHUNK: usize = 3;

/// The words of a row behind its table.
const WORDS: [(&str, Field); 13] = [
    ("wait", Field::Wait),
    ("place", Field::Place),
    ("work", Field::Work),
    ("left", Field::Left),
    ("kind", Field::Kind),
    ("window", Field::Window),
    ("released", Field::Released),
    ("mm", Field::Mm),
    ("mx", Field::Mx),
    ("om", Field::Om),
    ("ox", Field::Ox),
    ("broken", Field::Broken),
    ("held", Field::Held),
];

const PEDAL: usize = 0;
const SCREEN: usize = 2;
const RADIO: usize = 3;
const NAMES: [&str; 4] = ["pedal scan", "tuner", "screen", "radio slot"];

fn read_table(room: &mut [u32]) -> Result<&[u32], Refusal> {
    let table = read(TEXT, room)?;
    let mut written = [0; TEXT_BYTES];
    let same = write(table, &mut written)? == TEXT;
    let rows = table.len() / TASK_WORDS;
    let back = if same {
        "the same text"
    } else {
        "another text"
    };
    println!("read: rows={rows}, written back: {back}");
    Ok(table)
}

/// Room is t less the load of the rows above by t, at the best t up to D. By hand: 2 for the pedal scan, which has no row above; 20 -
/// 4 for the tuner, at t = 20; 40 - 8 - 12 for the screen, at 40; 100 - 20 - 24 - 28 for the radio slot, at 100.
fn judge(table: &[u32]) -> Result<(), Refusal> {
    let (mut for_responses, mut for_rooms) = ([0; ROWS_MAX], [0; ROWS_MAX]);
    let responses = verdict(table, &mut for_responses)?;
    let rooms = rooms(table, &mut for_rooms)?;
    println!("verdict: admitted");
    let figures = responses.iter().zip(rooms);
    for ((name, row), (r, room)) in NAMES.iter().zip(table.chunks(TASK_WORDS)).zip(figures) {
        println!("  {name}: id={} r={r} room={room}", row[0]);
    }
    Ok(())
}

/// What a second of ticks leaves behind.
struct Second {
    state: State,
    /// The state on the way.
    saved: State,
    /// The radio slot's mandatory jobs.
    mandatory: Vec<u32>,
}

/// The radio slot's jobs so far.
fn radio_jobs(state: &State) -> u32 {
    state.word(RADIO, Field::Released).unwrap_or_default() as u32
}

/// One call a tick, as from a timer. The work of a radio job outlasts the tick of its release, so its kind is there to be read.
fn run_second(table: &[u32]) -> Result<Second, Refusal> {
    let mut state = State::fresh(table)?;
    let mut saved = state.clone();
    let mut mandatory = Vec::new();
    while state.time() < SECOND {
        let jobs = radio_jobs(&state);
        state.tick()?;
        if radio_jobs(&state) > jobs && state.word(RADIO, Field::Kind) == Some(1) {
            mandatory.push(jobs);
        }
        if state.time() == SAVED_AT {
            saved = state.clone();
        }
    }
    println!("run: ticks={} idle={}", state.time(), state.idle());
    Ok(Second {
        state,
        saved,
        mandatory,
    })
}

fn show_counts(state: &State) {
    for (row, name) in NAMES.iter().enumerate() {
        let (Some(count), Some(held)) = (state.counts(row), state.held(row)) else {
            continue;
        };
        println!(
            "  {name}: released={} mm={} mx={} om={} ox={} broken={} spare={} held={held}",
            count.released, count.mm, count.mx, count.om, count.ox, count.broken, count.spare
        );
    }
}

/// The radio slot's mandatory jobs, and those of the same m and k in the even pattern, which alone [`job`] tells.
fn show_pattern(state: &State, mandatory: &[u32]) -> Result<(), Refusal> {
    let radio = |field| state.word(RADIO, field).unwrap_or_default() as u32;
    print!("radio slot: mandatory jobs");
    for a in mandatory {
        print!(" {a}");
    }
    print!("; in the even pattern");
    for a in 0..radio_jobs(state) {
        if job(radio(Field::M), radio(Field::K), a)? == Kind::Mandatory {
            print!(" {a}");
        }
    }
    println!();
    Ok(())
}

/// Words that come from a flash or over a wire are looked at before they are run.
fn restore(words: &[u64], state: &State) -> Result<(), Refusal> {
    let mut restored = State::restore(words)?;
    let radio = |field| restored.word(RADIO, field).unwrap_or_default();
    println!(
        "saved: ticks={}, radio slot: work={} left={} window={}",
        restored.time(),
        radio(Field::Work),
        radio(Field::Left),
        radio(Field::Window)
    );
    restored.run(SECOND - SAVED_AT)?;
    let same = against(&restored, state);
    println!("restored and run: ticks={}, {same}", restored.time());
    Ok(())
}

fn against(state: &State, other: &State) -> &'static str {
    if state == other {
        "the same state"
    } else {
        "another state"
    }
}

/// A state of an earlier version is known by its length, so its words are never taken for others.
fn show_earlier(words: &[u64]) {
    print!("{EARLIER_WORDS} words, as many as an earlier state has: ");
    match State::restore(&words[..EARLIER_WORDS]) {
        Err(refusal) => println!("refused={}", refusal.number()),
        other => println!("{other:?}"),
    }
}

/// The verdict with another p in the screen's row. Deeply-red, its three mandatory jobs come together and leave the radio slot too
/// little. That table stays a table, so it could be run; it is not admitted. With a p above 1 it is no table.
fn show_screen(table: &mut [u32], p: u32) {
    table[SCREEN * TASK_WORDS + 6] = p;
    print!("verdict with a screen of p={p}: ");
    match verdict(table, &mut [0; ROWS_MAX]) {
        Err(Refusal::Unschedulable(row)) => {
            println!(
                "refused=11 at={row}, the {} does not fit",
                NAMES[row as usize]
            );
        }
        Err(Refusal::P(row)) => {
            println!(
                "refused=16 at={row}, no such pattern for the {}",
                NAMES[row as usize]
            );
        }
        other => println!("{other:?}"),
    }
}

/// The rooms of a table, admitted or not, shown.
fn show_rooms(table: &[u32]) -> Result<Vec<u32>, Refusal> {
    let mut room = [0; ROWS_MAX];
    let rooms = rooms(table, &mut room)?;
    print!("rooms:");
    for room in rooms {
        print!(" {room}");
    }
    println!();
    Ok(rooms.to_vec())
}

/// What a planner tries: the verdict on a copy of the table with another C in one row.
fn try_c(table: &[u32], row: usize, c: u32) -> Vec<u32> {
    let mut plan = table.to_vec();
    plan[row * TASK_WORDS + 1] = c;
    print!("  a {} of c={c}: ", NAMES[row]);
    match verdict(&plan, &mut [0; ROWS_MAX]) {
        Ok(responses) => println!("admitted, r={}", responses[row]),
        Err(Refusal::Unschedulable(at)) => println!("refused=11 at={at}"),
        other => println!("{other:?}"),
    }
    plan
}

/// The table turned down, with the deeply-red screen. The radio slot asks for 20 and has 80 - 16 - 18 - 28 = 18, at t = 80; at 100 it
/// is 100 - 20 - 24 - 42 = 14. So it fits with a C of 18, and not with 19.
fn plan_radio(table: &[u32]) -> Result<(), Refusal> {
    let room = show_rooms(table)?[RADIO];
    try_c(table, RADIO, room);
    try_c(table, RADIO, room + 1);
    Ok(())
}

/// A pedal scan of 3, above its D, is the row named, and the rows below it have rooms all the same: 20 - 12 for the tuner, at t = 20,
/// and 40 - 24 - 12 for the screen, at 40. What is left for the radio slot is never positive, so its room is 0.
fn plan_pedal(table: &[u32]) -> Result<(), Refusal> {
    let plan = try_c(table, PEDAL, 3);
    show_rooms(&plan)?;
    Ok(())
}

/// Words for all rows but one: refused, and the words that were lent are as they were. No room is as large as what they hold.
fn show_short(table: &[u32]) {
    let rows = table.len() / TASK_WORDS;
    let mut room = [u32::MAX; ROWS_MAX];
    print!("rooms of {rows} rows in {} words: ", rows - 1);
    match rooms(table, &mut room[..rows - 1]) {
        Err(refusal) => print!("refused={}", refusal.number()),
        other => print!("{other:?}"),
    }
    let same = if room == [u32::MAX; ROWS_MAX] {
        "the same words"
    } else {
        "other words"
    };
    println!(", {same}");
}

/// An old text is not guessed to be one: reading it meets a fault where the first line p would stand. Carried over it is read, and
/// carried back it is the same.
fn carry_old() -> Result<(), Refusal> {
    let mut words = [0; TABLE_WORDS];
    print!("old text, read as it is: ");
    match read(OLD_TEXT, &mut words) {
        Err(Refusal::Text(place)) => println!("refused=12 at={place}"),
        other => println!("{other:?}"),
    }
    let mut room = [0; TEXT_BYTES];
    let over = to_new(OLD_TEXT, &mut room)?;
    let rows = read(over, &mut words)?.len() / TASK_WORDS;
    let (before, after) = (OLD_TEXT.len(), over.len());
    println!("carried over: bytes={before}, then {after}, read: rows={rows}");
    let mut old_room = [0; OLD_TEXT_BYTES];
    let back = to_old(over, &mut old_room)?;
    let same = if back == OLD_TEXT {
        "the same text"
    } else {
        "another text"
    };
    println!("carried back: bytes={}, {same}", back.len());
    Ok(())
}

/// The old form has no word for a pattern, so a table with a deeply-red row is not written in it.
fn show_not_old() {
    print!("the stand as an old text: ");
    match to_old(TEXT, &mut [0; OLD_TEXT_BYTES]) {
        Err(Refusal::NotOld(row)) => {
            println!(
                "refused=17 at={row}, the old form cannot say the {}",
                NAMES[row as usize]
            );
        }
        other => println!("{other:?}"),
    }
}

fn show_replayed(answer: Result<Replayed, Refusal>) {
    match answer {
        Ok(Replayed { ticks, used }) => print!("ticks={ticks} used={used}"),
        Err(Refusal::Log(place)) => print!("refused=18 at={place}"),
        Err(refusal) => print!("refused={} at=0", refusal.number()),
    }
}

/// All of a state but its table and its time.
fn show_state(state: &State) {
    println!(", idle={}", state.idle());
    for row in 0..state.rows() {
        print!("  row {row}:");
        for (name, field) in WORDS {
            print!(" {name}={}", state.word(row, field).unwrap_or_default());
        }
        println!();
    }
}

/// The log from fresh, the whole of it or as many numbers as have come.
fn replay_numbers(length: usize) -> Result<(State, Replayed), Refusal> {
    let mut state = State::fresh(&SMALL)?;
    let answer = state.replay(TICKS, &MEASURED[..length]);
    print!("replay of {length} numbers: ");
    show_replayed(answer);
    show_state(&state);
    Ok((state, answer?))
}

/// With four numbers the replay stops before tick 8, a job of row 1 under way. When the others have come it goes on from there.
fn replay_pieces() -> Result<State, Refusal> {
    let (whole, _) = replay_numbers(MEASURED.len())?;
    let (mut state, first) = replay_numbers(4)?;
    print!("gone on with the others: ");
    show_replayed(state.replay(TICKS - first.ticks, &MEASURED[first.used..]));
    println!(", {}", against(&state, &whole));
    Ok(whole)
}

/// The log with another number at one place.
fn spoilt(place: usize, number: u32) -> [u32; MEASURED.len()] {
    let mut log = MEASURED;
    log[place] = number;
    print!("{number} at place {place}");
    log
}

/// Tick 12 releases a job of each row. With six numbers one is left for it, so the replay stops there and does not look at that one.
fn replay_six() -> Result<(), Refusal> {
    let (stopped, _) = replay_numbers(6)?;
    let mut state = State::fresh(&SMALL)?;
    let log = spoilt(5, 9);
    print!(" of 6 numbers: ");
    show_replayed(state.replay(TICKS, &log[..6]));
    println!(", {}", against(&state, &stopped));
    Ok(())
}

fn replay_full_length() -> Result<(), Refusal> {
    let mut run = State::fresh(&SMALL)?;
    run.run(TICKS)?;
    let mut state = State::fresh(&SMALL)?;
    print!("replay of full-length jobs, and a run: ");
    show_replayed(state.replay(TICKS, &FULL_LENGTH));
    println!(", {}", against(&state, &run));
    Ok(())
}

/// At most n ticks with a log that comes in chunks. Ticks, numbers and the place of a number out of range are those of the whole
/// log. What a chunk leaves, fewer numbers than there are rows, is put before the next.
fn replay_log(state: &mut State, n: u32, log: &[u32]) -> Result<Replayed, Refusal> {
    let mut whole = Replayed::default();
    let mut chunks = log.chunks(CHUNK);
    let mut numbers = Vec::new();
    loop {
        let came = chunks.next().unwrap_or_default();
        numbers.extend_from_slice(came);
        let piece = match state.replay(n - whole.ticks, &numbers) {
            Err(Refusal::Log(place)) => Err(Refusal::Log(place + whole.used as u64)),
            answer => answer,
        }?;
        whole.ticks += piece.ticks;
        whole.used += piece.used;
        numbers.drain(..piece.used);
        if came.is_empty() || whole.ticks == n {
            return Ok(whole);
        }
    }
}

/// The whole log, then one with a number out of range in its third chunk. That chunk is refused; the two before it are done.
fn replay_chunks(whole: &State) -> Result<(), Refusal> {
    let mut state = State::fresh(&SMALL)?;
    print!("replay in chunks of {CHUNK}: ");
    show_replayed(replay_log(&mut state, TICKS, &MEASURED));
    println!(", {}", against(&state, whole));
    let mut state = State::fresh(&SMALL)?;
    let log = spoilt(7, 3);
    print!(" in chunks of {CHUNK}: ");
    show_replayed(replay_log(&mut state, TICKS, &log));
    println!(", the state of ticks={}", state.time());
    Ok(())
}

/// Where a replay is refused, no word of the state is another.
fn show_refused(state: &mut State, n: u32, log: &[u32]) {
    let before = state.clone();
    show_replayed(state.replay(n, log));
    println!(", {}", against(state, &before));
}

/// C of row 1 is 4. The clock's end comes before the log, which is looked at where the ticks are one fewer.
fn show_log_refusals() -> Result<(), Refusal> {
    let mut state = State::fresh(&SMALL)?;
    for (place, number) in [(1, 5), (2, 0)] {
        let log = spoilt(place, number);
        print!(": ");
        show_refused(&mut state, TICKS, &log);
    }
    let mut words = *state.words();
    words[1] = u64::from(u32::MAX - TICKS + 1);
    let mut state = State::restore(&words)?;
    for n in [TICKS, TICKS - 1] {
        let log = spoilt(0, 0);
        let end = TICKS - 1;
        print!(" in {n} ticks, {end} before the clock's end: ");
        show_refused(&mut state, n, &log);
    }
    Ok(())
}

fn main() -> Result<(), Refusal> {
    let mut room = [0; TABLE_WORDS];
    let table = read_table(&mut room)?;
    judge(table)?;
    let second = run_second(table)?;
    show_counts(&second.state);
    show_pattern(&second.state, &second.mandatory)?;
    restore(second.saved.words(), &second.state)?;
    show_earlier(second.saved.words());
    let words = table.len();
    show_screen(&mut room[..words], Pattern::DeeplyRed.p());
    plan_radio(&room[..words])?;
    plan_pedal(&room[..words])?;
    show_short(&room[..words]);
    show_screen(&mut room[..words], 2);
    carry_old()?;
    show_not_old();
    let whole = replay_pieces()?;
    replay_six()?;
    replay_full_length()?;
    replay_chunks(&whole)?;
    show_log_refusals()
}
