//! The lines that the program `recorded_test` has to print (docs/parts/recordings.md), made by the model.

mod common;
use common::*;
use model::{is_state, print_refusal, read_recording, run_recorded, samples};
use model::{Lent, Refusal, LINES};

/// A sample for each line, two bytes each.
const KEPT: usize = 2 * LINES;

/// LF as /.
fn shown(bytes: &[u8]) -> String {
    String::from_utf8_lossy(bytes).replace('\n', "/")
}

fn hex(bytes: &[u8]) -> String {
    bytes.iter().map(|b| format!("{b:02x}")).collect()
}

fn said(answer: Result<usize, Refusal>, out: &[u8]) -> String {
    match answer {
        Ok(0) => "-".into(),
        Ok(written) => shown(&out[..written]),
        Err(refusal) => shown(&print_refusal(refusal)),
    }
}

/// The bytes that are lent: of 9 of samples, 9 of cells, 17 of output, 5 for the number left over.
type Bytes = [usize; 4];

const PLENTY: Bytes = [9, 6, 14, 4];

fn row(label: &str, list: &[u8], first: u64, part: &[u8], [m, c, o, l]: Bytes) -> String {
    let (mut kept, mut cells, mut out, mut left) = ([0x55; 9], [0x55; 9], [b'.'; 17], [0x55; 5]);
    let state = read_recording(first, &mut kept[..m], part);
    let lent = Lent {
        cells: &mut cells[..c],
        out: &mut out[..o],
        left: &mut left[..l],
    };
    let answer = run_recorded(list, state, &kept[..m], lent);
    let said = said(answer, &out);
    let (kept, cells, out, left) = (hex(&kept), hex(&cells), shown(&out), hex(&left));
    format!("{label:6}{said} > {state:016x} {kept} {cells} {out} {left}\n")
}

/// The rules' recorded sessions.
fn sessions() -> String {
    let two = b"140000\n140000\n900001\n";
    let (one, none) = (b"140000\n900001\n", b"900000\n");
    let apart = b"140000\n0f0000\n140000\n900001\n";
    let loads = b"140000\n110000\n140000\n110000\n900001\n";
    let cases: [(&[u8], &[u8], usize); 12] = [
        (loads, b"300001\n30beef\n300003\n", 1),
        (none, b"300001\n300002\n", 0),
        (b"14\n900000\n", b"x", 0),
        (b"140001\n900001\n", b"x", 1),
        (none, b"x", 0),
        (two, b"300001\n30000\n", 1),
        (none, b"300001\n300002\n30000a\n310000\n", 0),
        (one, b"300001", 1),
        (one, b"30000A\n", 1),
        (one, b"", 0),
        (apart, b"300001\n", 1),
        (one, b"300001\n", 0),
    ];
    let line = |(i, (list, recording, cells)): (usize, (&[u8], &[u8], usize))| {
        let label = format!("S{}", i + 1);
        row(&label, list, 0, recording, [9, 2 * cells, 14, 4])
    };
    cases.into_iter().enumerate().map(line).collect()
}

fn readings() -> String {
    let two = b"140000\n140000\n900001\n";
    let three = b"300001\n300002\n300003\n";
    let one = b"140000\n900001\n";
    let apart = b"140000\n0f0000\n140000\n900001\n";
    [
        row("A101", one, 0, b"", [0; 4]),
        row("A102", b"900000\n", 0, b"x", [0; 4]),
        row("A103", one, 0, b"300001", PLENTY),
        row("A104", one, 0x0102_0305, b"", PLENTY),
        row("A105", apart, 0, b"300001\n", PLENTY),
        row("A150-", two, 0, three, [3, 6, 14, 4]),
        row("A150+", two, 0, three, [4, 6, 14, 4]),
    ]
    .concat()
}

fn order() -> String {
    let high = b"140001\n900001\n";
    let two = b"140000\n140000\n900001\n";
    [
        row("29,1", b"zz\n", 1 << 32, b"", PLENTY),
        row("1,20", b"140001\n900001", 0, b"x", [0; 4]),
        row("20,24", high, 0, b"x", [0; 4]),
        row("20,23", high, 0, b"", [0; 4]),
        row("24,23", two, 0, b"300001\n3", [0; 4]),
        row("23,17", two, 0, b"300001\n", [0; 4]),
    ]
    .concat()
}

fn enough() -> String {
    let list = b"140000\n110000\n900001\n";
    let one = b"30beef\n";
    [
        row("17", list, 0, one, [2, 2, 7, 4]),
        row("17s", list, 0, one, [1, 2, 7, 4]),
        row("17c", list, 0, one, [2, 1, 7, 4]),
        row("17o", list, 0, one, [2, 2, 6, 4]),
        row("17l", list, 0, one, [2, 2, 7, 3]),
        row("odd", list, 0, b"30beef\n300002\n", [3, 3, 8, 5]),
    ]
    .concat()
}

fn last_lines() -> String {
    let none = b"900000\n";
    let three = b"300007\n300008\n300009\n";
    [
        row("last", none, 4_294_967_294, b"300007\n", PLENTY),
        row("torn", none, 4_294_967_294, b"300007", PLENTY),
        row("more", none, 4_294_967_294, b"300007\n3", PLENTY),
        row("line", none, 4_294_967_295, b"300007\n", PLENTY),
        row("over", none, 4_294_967_293, three, PLENTY),
        row("stays", none, (7 << 48) + 9, b"300007\n", PLENTY),
    ]
    .concat()
}

/// As many lines as there may be and a tail, beside n samples 0001 and a last one.
fn many(label: &str, list: [&[u8]; 2], n: usize, last: &[u8], m: usize) -> String {
    let list = [&list[0].repeat(LINES), list[1]].concat();
    let recording = [&b"300001\n".repeat(n), last].concat();
    let (mut kept, mut cells, mut out, mut left) = ([0x55; KEPT], [0x55; 2], [b'.'; 7], [0x55; 4]);
    let state = read_recording(0, &mut kept, &recording);
    let lent = Lent {
        cells: &mut cells,
        out: &mut out,
        left: &mut left,
    };
    let answer = run_recorded(&list, state, &kept[..m], lent);
    let said = said(answer, &out);
    let (cells, left) = (hex(&cells), hex(&left));
    format!("{label:6}{said} > {state:016x} {cells} {left}\n")
}

fn long_lists() -> String {
    let list: [&[u8]; 2] = [b"140000\n", b"900001\n"];
    let over: [&[u8]; 2] = [b"140001\n", b"0f0000\n900001\n"];
    [
        many("2048", list, LINES - 1, b"30beef\n", KEPT),
        many("2048+", list, LINES, b"30beef\n", KEPT),
        many("2048-", list, LINES - 2, b"30beef\n", KEPT),
        many("2048s", list, LINES - 1, b"30beef\n", KEPT - 1),
        many("2,20", over, 0, b"x", 0),
    ]
    .concat()
}

/// State and samples after the parts.
fn in_parts<'a>(parts: impl IntoIterator<Item = &'a [u8]>, bytes: usize) -> (u64, Vec<u8>) {
    let mut kept = vec![0x55; bytes];
    let feed = |state, part| read_recording(state, &mut kept, part);
    (parts.into_iter().fold(0, feed), kept)
}

fn cut(label: &str, recording: &[u8]) -> String {
    let whole = in_parts([recording], 5);
    let (mut agree, mut differ) = (0, 0);
    let mut hold = |parts| match parts == whole {
        true => agree += 1,
        false => differ += 1,
    };
    hold(in_parts(recording.chunks(1), 5));
    for b in 0..=recording.len() {
        for a in 0..=b {
            let parts = [&recording[..a], &recording[a..b], &recording[b..]];
            hold(in_parts(parts, 5));
        }
    }
    let (state, kept) = (whole.0, hex(&whole.1));
    format!("{label:7} {state:016x} {kept} agree {agree} differ {differ}\n")
}

fn every_cut() -> String {
    [
        cut("none", b""),
        cut("one", b"30beef\n"),
        cut("two", b"300001\n30beef\n"),
        cut("three", b"300001\n30beef\n30a2c9\n"),
        cut("torn", b"300001\n30be"),
        cut("no LF", b"300001\n30beef"),
        cut("upper", b"300001\n30beEf\n300002\n"),
        cut("CR LF", b"300001\r\n300002\r\n"),
        cut("blank", b"300001\n\n300002\n"),
        cut("long", b"3000010\n300002\n"),
        cut("opcode", b"300001\n310001\n300002\n"),
    ]
    .concat()
}

/// Line 1 of three, with each byte in the column.
fn column(column: usize) -> String {
    let (mut refused, mut accepted, mut other) = (0, 0, 0);
    let malformed = Err(Refusal {
        number: 24,
        line: 1,
    });
    for byte in 0..=255 {
        let mut recording = *b"300001\n30a2c9\n300003\n";
        recording[7 + column] = byte;
        match samples(&recording) {
            Ok(all) if all.len() == 3 => accepted += 1,
            end if end == malformed => refused += 1,
            _ => other += 1,
        }
    }
    format!("column {column} refused {refused} accepted {accepted} other {other}\n")
}

fn mixed(digest: u64, n: u64) -> u64 {
    Chance(digest ^ n).draw()
}

fn mixed_bytes(digest: u64, bytes: &[u8]) -> u64 {
    bytes.iter().fold(digest, |d, b| mixed(d, u64::from(*b)))
}

fn parts_by_chance(label: &str, seed: u64, recording: &[u8]) -> String {
    let mut chance = Chance(seed);
    let (mut parts, mut rest) = (Vec::new(), recording);
    while !rest.is_empty() {
        let (part, after) = rest.split_at(rest.len().min(1 + chance.below(200)));
        parts.push(part);
        rest = after;
    }
    let (count, whole) = (parts.len(), in_parts([recording], 1501));
    let agrees = if in_parts(parts, 1501) == whole {
        "agree"
    } else {
        "differ"
    };
    let (state, digest) = (whole.0, mixed_bytes(1, &whole.1));
    format!("{label} {seed} {state:016x} {digest:016x} parts {count} {agrees}\n")
}

/// 1,000 lines, whole and with a byte damaged.
fn long_recording(seed: u64) -> String {
    let mut chance = Chance(seed);
    let line = |_| format!("30{:04x}\n", (chance.draw() >> 16) & 0xffff).into_bytes();
    let mut recording: Vec<u8> = (0..1000).flat_map(line).collect();
    let whole = parts_by_chance("whole", seed, &recording);
    let mut damage = Chance(seed);
    let at = damage.below(recording.len());
    recording[at] = damage.below(256) as u8;
    whole + &parts_by_chance("damaged", seed, &recording)
}

/// What numbers handed in as states come to, each with what is left of a line in its column.
fn handed_in(label: &str, numbers: impl Iterator<Item = u64>) -> String {
    let (mut refused, mut accepted, mut other, mut digest) = (0, 0, 0, 1);
    for number in numbers {
        let mut kept = [0x55; 9];
        let line = b"30beef\n";
        let rest = line.get((number >> 48) as usize..).unwrap_or(line);
        let next = read_recording(number, &mut kept, rest);
        digest = mixed_bytes(mixed(digest, next), &kept);
        match (is_state(number), is_state(next)) {
            (true, true) => accepted += 1,
            (false, false) if next == 29 << 32 && kept == [0x55; 9] => refused += 1,
            _ => other += 1,
        }
    }
    format!("{label} refused {refused} accepted {accepted} other {other} {digest:016x}\n")
}

/// Values about one digit more.
fn near_bounds(column: u64) -> String {
    let values = [0_u64, 1, 15, 16, 255, 256, 4095, 4096, 65535];
    let lines = [0_u64, 1, 4_294_967_294, 4_294_967_295];
    let state = |value| lines.map(|line| (column << 48) + (value << 32) + line);
    let label = format!("bounds of column {column}");
    handed_in(&label, values.into_iter().flat_map(state))
}

fn by_chance() -> String {
    let mut chance = Chance(29);
    let three = |_| {
        let (any, low, x) = (chance.draw(), chance.draw(), chance.draw());
        let state = ((x % 9) << 48) + (((x >> 16) % 300) << 32) + (x >> 32) % 10;
        [any, low >> 12, state]
    };
    handed_in("by chance", (0..1000).flat_map(three))
}

#[test]
fn the_lines_of_recorded_test() {
    let path = concat!(
        env!("CARGO_MANIFEST_DIR"),
        "/../../crates/recorded_test/stdout"
    );
    let printed = std::fs::read_to_string(path).expect(path);
    let made = [
        sessions() + &readings() + &order() + &enough() + &last_lines(),
        long_lists(),
        every_cut(),
        (0..7).map(column).collect(),
        (1..9).map(long_recording).collect(),
        (0..10).map(near_bounds).collect(),
        by_chance(),
    ]
    .concat();
    for (ours, models) in printed.lines().zip(made.lines()) {
        assert_eq!(ours, models);
    }
    assert_eq!(printed, made);
}
