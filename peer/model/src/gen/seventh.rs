//! Texts whose seventh line of a row, `p=`, is gone wrong in each way.

/// The lines of two sound rows after the first line of all, p last in each.
const ROWS: [[&str; 7]; 2] = [
    ["id=1", "c=1", "t=5", "d=5", "m=2", "k=4", "p=1"],
    ["id=2", "c=1", "t=9", "d=9", "m=3", "k=6", "p=0"],
];

/// What may stand in place of the line: values in and out of range, values and keys
/// written in ways they may not be, other keys' lines, and nothing in the line.
const LINES: [&str; 40] = [
    "p=0",
    "p=1",
    "p=2",
    "p=3",
    "p=9",
    "p=10",
    "p=11",
    "p=255",
    "p=256",
    "p=257",
    "p=65535",
    "p=65536",
    "p=65537",
    "p=99999",
    "p=100000",
    "p=4294967296",
    "p=4294967297",
    "p=00",
    "p=01",
    "p=02",
    "p=",
    "p",
    "p= 1",
    "p=1 ",
    "p=1\r",
    "p=-1",
    "p=+1",
    "p=0x1",
    "p==1",
    "p =1",
    " p=1",
    "p:1",
    "P=1",
    "P=",
    "pp=1",
    "=1",
    "q=1",
    "k=4",
    "m=1",
    "",
];

/// A text of the lines, each ended by LF.
fn text(lines: &[&str]) -> Vec<u8> {
    let ended = lines.iter().map(|line| format!("{line}\n"));
    ended.collect::<String>().into_bytes()
}

/// Where the line p of a row stands among the lines.
fn p_of(row: usize) -> usize {
    7 * (row + 1)
}

/// In each of the rows: the line with other words in it, left out, said twice, and
/// moved to every other place of the text; and both rows without it, as the texts
/// before it were.
pub fn seventh_line_texts() -> Vec<Vec<u8>> {
    let sound = [&["rows=2"], ROWS.as_flattened()].concat();
    let mut texts = vec![text(&sound)];
    for row in 0..ROWS.len() {
        for line in LINES {
            let mut other = sound.clone();
            other[p_of(row)] = line;
            texts.push(text(&other));
        }
        let mut without = sound.clone();
        let line = without.remove(p_of(row));
        texts.push(text(&without));
        for at in 0..=without.len() {
            let mut moved = without.clone();
            moved.insert(at, line);
            texts.push(text(&moved));
        }
        for other in ["p=0", "p=1", "p=2"] {
            let mut twice = sound.clone();
            twice.insert(p_of(row), other);
            texts.push(text(&twice));
        }
    }
    let six = ROWS.iter().flat_map(|row| &row[..6]);
    let old: Vec<&str> = ["rows=2"].iter().chain(six).copied().collect();
    texts.push(text(&old));
    // Seven old rows have as many lines as six new ones.
    for rows in ["rows=6", "rows=7"] {
        let lines = old[1..].iter().cycle().take(7 * 6);
        let all: Vec<&str> = [rows].iter().chain(lines).copied().collect();
        texts.push(text(&all));
    }
    texts
}
