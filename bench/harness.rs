//! Compares the station link with the plain implementation on many inputs, and then times both on the
//! same buffers. The link comes from its static library (bench/station.h has its functions).

mod plain;

use plain::{Answer, AppFile, Capture, Line, Link, RawData, ReadAhead, REPORT};
use std::hint::black_box;
use std::io::Write;
use std::process::{Command, Stdio};
use std::time::{Duration, Instant};

// ---- the static library

#[repr(C)]
#[derive(Clone, Copy, Default, Debug, PartialEq, Eq)]
struct StationFix {
    key: u32,
    time: u32,
    pdop: u64,
    satellites: u8,
}

unsafe extern "C" {
    fn station_board(capture: *const u8, len: usize, rows: *mut StationFix, room: usize) -> usize;
    fn station_board_ahead(capture: *const u8, len: usize, rows: *mut StationFix, room: usize) -> usize;
}

// The rows of a board, and how many of them are used.
type Board = (usize, [StationFix; 32]);

fn ours(bytes: &[u8]) -> Board {
    let mut rows = [StationFix::default(); 32];
    // All pointers come from references, and the lengths are theirs.
    let used = unsafe { station_board(bytes.as_ptr(), bytes.len(), rows.as_mut_ptr(), rows.len()) };
    (used, rows)
}

fn ours_ahead(bytes: &[u8]) -> Board {
    let mut rows = [StationFix::default(); 32];
    let used = unsafe { station_board_ahead(bytes.as_ptr(), bytes.len(), rows.as_mut_ptr(), rows.len()) };
    (used, rows)
}

// ---- the plain implementation, by the same calls

fn board_of(line: &mut impl Line) -> Board {
    let mut link: Link<RawData, AppFile> = Link::new();
    let mut buffer = [0; REPORT];
    while !matches!(link.pull(line, &mut buffer), Answer::Idle { .. }) {}
    let mut rows = [StationFix::default(); 32];
    for (row, fix) in rows.iter_mut().zip(link.board()) {
        *row = StationFix { key: fix.key, time: fix.time, pdop: fix.pdop, satellites: fix.satellites };
    }
    (link.board().len(), rows)
}

#[inline(never)]
fn plain(bytes: &[u8]) -> Board {
    board_of(&mut Capture::new(bytes))
}

#[inline(never)]
fn plain_ahead(bytes: &[u8]) -> Board {
    board_of(&mut ReadAhead::new(Capture::new(bytes)))
}

// ---- every answer, as the program linklog prints it

fn hex(bytes: &[u8]) -> String {
    if bytes.is_empty() {
        return "-".into();
    }
    bytes.iter().map(|b| format!("{b:02x}")).collect()
}

fn refusal(r: plain::Refusal) -> String {
    format!("{}/{}/{}", r.number, r.layer, r.place)
}

fn answer_text(answer: Answer, buffer: &[u8]) -> String {
    match answer {
        Answer::Idle { held } => format!("idle {held}"),
        Answer::Signal { byte } => format!("signal {byte:02X}"),
        Answer::Page { kind, number, total } => format!("page {kind:02X} {number} {total}"),
        Answer::Report { kind, key, len, reading } => {
            let reading = reading.map_or_else(refusal, |()| "0".into());
            format!("report {kind:02X} {key} {len} {reading} {}", hex(&buffer[..len]))
        }
        Answer::Other { status, kind, len } => format!("packet {status:02X} {kind:02X} {len} {}", hex(&buffer[..len])),
        Answer::Refused(why) => format!("refused {}", refusal(why)),
    }
}

fn plain_log(bytes: &[u8]) -> String {
    let mut line = Capture::new(bytes);
    let mut link: Link<RawData, AppFile> = Link::new();
    let mut buffer = [0; REPORT];
    let mut log = String::new();
    loop {
        let answer = link.pull(&mut line, &mut buffer);
        log += &format!("{} {}\n", line.taken(), answer_text(answer, &buffer));
        if matches!(answer, Answer::Idle { .. }) {
            return log;
        }
    }
}

// What linklog, the program, prints for the bytes.
fn our_log(linklog: &str, bytes: &[u8]) -> String {
    let mut child = Command::new(linklog).stdin(Stdio::piped()).stdout(Stdio::piped()).spawn().expect("linklog starts");
    let mut stdin = child.stdin.take().expect("linklog has an input");
    let input = bytes.to_vec();
    let writer = std::thread::spawn(move || stdin.write_all(&input));
    let output = child.wait_with_output().expect("linklog ends");
    writer.join().expect("the writer ends").expect("linklog reads its input");
    String::from_utf8(output.stdout).expect("linklog prints text")
}

// ---- the generator

struct Random(u64);

impl Random {
    fn next(&mut self) -> u64 {
        self.0 ^= self.0 << 13;
        self.0 ^= self.0 >> 7;
        self.0 ^= self.0 << 17;
        self.0.wrapping_mul(0x2545_f491_4f6c_dd1d)
    }

    fn below(&mut self, n: usize) -> usize {
        ((self.next() >> 33) as usize) % n
    }

    fn byte(&mut self) -> u8 {
        (self.next() >> 40) as u8
    }
}

fn packet(out: &mut Vec<u8>, status: u8, kind: u8, data: &[u8]) {
    let len = data.len() as u8;
    let sum = data.iter().fold(status.wrapping_add(kind).wrapping_add(len), |s, b| s.wrapping_add(*b));
    out.extend_from_slice(&[2, status, kind, len]);
    out.extend_from_slice(data);
    out.extend_from_slice(&[sum, 3]);
}

// A report of RAWDATA in so many pages.
fn raw_report(out: &mut Vec<u8>, record: u8, reply: u8, flags: u8, body: &[u8], pages: usize) {
    let part = body.len().div_ceil(pages).max(1);
    for page in 0..pages {
        let from = (page * part).min(body.len());
        let to = (from + part).min(body.len());
        let mut data = vec![record, ((page + 1) << 4 | pages) as u8, reply, flags];
        data.extend_from_slice(&body[from..to]);
        packet(out, 0, 0x57, &data);
    }
}

fn app_file(out: &mut Vec<u8>, block: u8, body: &[u8], pages: usize) {
    let part = body.len().div_ceil(pages).max(1);
    for page in 0..pages {
        let from = (page * part).min(body.len());
        let to = (from + part).min(body.len());
        let mut data = vec![block, page as u8, (pages - 1) as u8];
        data.extend_from_slice(&body[from..to]);
        packet(out, 0, 0x64, &data);
    }
}

fn position_body(r: &mut Random) -> Vec<u8> {
    let mut body = Vec::new();
    for field in 0..9 {
        let x = match (field, r.below(40)) {
            (5, 0) => f64::NAN,
            (5, 1) => -1.5,
            (5, 2) => f64::INFINITY,
            (5, 3) => -0.0,
            (5, k) if k < 12 => (r.below(8) as f64) / 2.0,
            (5, _) => 0.5 + r.below(60_000) as f64 / 1000.0,
            _ => r.below(1_000_000) as f64 / 7.0 - 50_000.0,
        };
        body.extend_from_slice(&x.to_bits().to_be_bytes());
    }
    body.extend_from_slice(&(r.next() as u32 % 604_800_000).to_be_bytes());
    body.push(r.byte());
    let n = r.below(13);
    body.push(n as u8);
    for _ in 0..2 * n {
        body.push(r.byte());
    }
    body
}

// A survey that reads with interpretation flags 1, but for one in sixteen.
fn survey_body(r: &mut Random) -> Vec<u8> {
    let count = r.below(13);
    let mut body = bytes(r, 16);
    body.push(count as u8);
    for _ in 0..count {
        let flags = r.byte() & 0x41;
        let size = 5 + if flags & 0x40 != 0 { 21 } else { 0 } + if flags & 1 != 0 { 13 } else { 0 };
        body.extend_from_slice(&[r.byte() % 32, flags]);
        body.extend(bytes(r, size));
    }
    if r.below(16) == 0 {
        body.push(0);
    }
    body
}

// An application file that reads, but for a state above 2 now and then.
fn application_body(r: &mut Random) -> Vec<u8> {
    let mut body = vec![3, r.byte(), r.byte(), r.byte()];
    for _ in 0..r.below(6) {
        let (kind, len) = [(0x4f, 52), (0x50, 30), (0x5f, 5), (0x20, 17)][r.below(4)];
        body.extend_from_slice(&[kind, len]);
        (0..len).for_each(|_| body.push(if r.below(200) == 0 { 3 } else { r.byte() % 3 }));
    }
    body
}

fn bytes(r: &mut Random, n: usize) -> Vec<u8> {
    (0..n).map(|_| r.byte()).collect()
}

fn positions(r: &mut Random, size: usize) -> Vec<u8> {
    let mut out = Vec::new();
    let mut reply = 0u8;
    while out.len() < size {
        let body = position_body(r);
        raw_report(&mut out, 1, reply, 0, &body, 1);
        reply = reply.wrapping_add(1);
    }
    out
}

fn surveys(r: &mut Random, size: usize) -> Vec<u8> {
    let mut out = Vec::new();
    let mut reply = 0u8;
    while out.len() < size {
        let pages = 1 + r.below(5);
        let n = (pages - 1) * 240 + r.below(240);
        let body = if r.below(4) == 0 { bytes(r, n) } else { survey_body(r) };
        raw_report(&mut out, 0, reply, 1, &body, pages);
        reply = reply.wrapping_add(1);
    }
    out
}

fn mixed(r: &mut Random, size: usize) -> Vec<u8> {
    let mut out = Vec::new();
    let mut reply = 0u8;
    while out.len() < size {
        match r.below(10) {
            0..=3 => {
                let body = position_body(r);
                let pages = 1 + r.below(2);
                raw_report(&mut out, 1, reply, 0, &body, pages);
            }
            4..=5 => {
                let pages = 1 + r.below(4);
                let n = (pages - 1) * 200 + r.below(200);
                let body = if r.below(4) == 0 { bytes(r, n) } else { survey_body(r) };
                raw_report(&mut out, 0, reply, 1, &body, pages);
            }
            6 => {
                let pages = 1 + r.below(32);
                let n = (pages - 1) * 250 + r.below(250);
                let body = if r.below(4) == 0 { bytes(r, n) } else { application_body(r) };
                app_file(&mut out, r.byte(), &body, pages);
            }
            7 => {
                let n = r.below(256);
                let body = bytes(r, n);
                packet(&mut out, r.byte(), 0x40 + r.byte() % 16, &body);
            }
            8 => (0..r.below(6)).for_each(|_| out.push([5, 6, 0x15][r.below(3)])),
            _ => {
                // A position that does not read, a report of no kind, or a page out of turn.
                let n = r.below(120);
                let body = bytes(r, n);
                match r.below(3) {
                    0 => raw_report(&mut out, 1, reply, 0, &body, 1),
                    1 => raw_report(&mut out, r.byte(), reply, 0, &body, 2),
                    _ => packet(&mut out, 0, 0x57, &[1, r.byte(), reply, 0]),
                }
            }
        }
        reply = reply.wrapping_add(1);
    }
    out
}

// Flipped, missing and inserted bytes, one in `every`.
fn damaged(r: &mut Random, clean: &[u8], every: usize) -> Vec<u8> {
    let mut out = Vec::new();
    for b in clean {
        match r.below(3 * every) {
            0 => out.push(b ^ (1 << r.below(8))),
            1 => {}
            2 => out.extend_from_slice(&[r.byte(), *b]),
            _ => out.push(*b),
        }
    }
    out
}

fn few_values(r: &mut Random, size: usize) -> Vec<u8> {
    (0..size).map(|_| [0, 1, 2, 3, 4, 5, 6, 0x15, 0x57, 0x64][r.below(10)]).collect()
}

// Start bytes, some of them with a short length behind.
fn storm(r: &mut Random, size: usize) -> Vec<u8> {
    (0..size).map(|_| if r.below(16) == 0 { r.byte() % 8 } else { 2 }).collect()
}

fn stream(r: &mut Random, kind: usize, size: usize) -> Vec<u8> {
    match kind {
        0 => positions(r, size),
        1 => surveys(r, size),
        2 => mixed(r, size),
        3 => {
            let clean = mixed(r, size);
            let every = 20 << r.below(8);
            damaged(r, &clean, every)
        }
        4 => bytes(r, size),
        5 => few_values(r, size),
        6 => vec![0; size],
        7 => storm(r, size),
        8 => vec![2; size],
        9 => {
            let clean = positions(r, size);
            let every = 20 << r.below(8);
            damaged(r, &clean, every)
        }
        _ => {
            let mut out = bytes(r, 40);
            out.extend(mixed(r, size));
            let cut = r.below(out.len());
            out.truncate(cut);
            out
        }
    }
}

// ---- comparing

type Run = fn(&[u8]) -> Board;

// The boards over the capture and over the read-ahead, and every answer with its bytes.
fn differ(linklog: &str, name: &str, number: usize, bytes: &[u8]) -> bool {
    let theirs = plain(bytes);
    let runs: [(&str, Run); 3] = [("link", ours), ("link over the read-ahead", ours_ahead), ("plain over the read-ahead", plain_ahead)];
    let mut differs = false;
    for (who, run) in runs {
        let board = run(bytes);
        if board != theirs {
            println!("DIFFERENT: {name}, input {number}, {} bytes: {who}: {board:?}, plain: {theirs:?}", bytes.len());
            differs = true;
        }
    }
    // linklog reads no more than 65,536 bytes.
    if bytes.len() <= 65536 {
        let (log, want) = (our_log(linklog, bytes), plain_log(bytes));
        if let Some((got, want)) = log.lines().zip(want.lines()).find(|(got, want)| got != want) {
            println!("DIFFERENT: {name}, input {number}, {} bytes: linklog: {got}, plain: {want}", bytes.len());
            differs = true;
        } else if log.len() != want.len() {
            println!("DIFFERENT: {name}, input {number}, {} bytes: linklog has another number of lines", bytes.len());
            differs = true;
        }
    }
    differs
}

fn compare(linklog: &str) -> (usize, usize) {
    let mut r = Random(0x5eed_0001_2345_6789);
    let (mut compared, mut differed) = (0, 0);
    let mut check = |name: &str, bytes: &[u8]| {
        compared += 1;
        differed += usize::from(differ(linklog, name, compared, bytes));
    };
    let names = [
        "positions", "surveys", "mixed", "damaged mixed", "noise", "few values", "zeros", "storm", "start bytes",
        "damaged positions", "cut",
    ];
    for _ in 0..300 {
        for (kind, name) in names.iter().enumerate() {
            let size = 1 + r.below(6000);
            let bytes = stream(&mut r, kind, size);
            check(name, &bytes);
        }
    }
    // Every length of short streams.
    for size in 0..600 {
        for kind in [2, 3, 5] {
            let mut bytes = stream(&mut r, kind, size.max(1));
            bytes.truncate(size);
            check(names[kind], &bytes);
        }
    }
    // Long captures, of which the boards alone are compared.
    for (kind, name) in names.iter().enumerate() {
        let bytes = stream(&mut r, kind, 1 << 20);
        check(name, &bytes);
    }
    (compared, differed)
}

// ---- timing

fn once(run: Run, bytes: &[u8]) -> Duration {
    let start = Instant::now();
    let read = run(black_box(bytes));
    let time = start.elapsed();
    black_box(&read);
    time
}

// The best of several runs of each, taken in turn.
fn best(one: Run, other: Run, bytes: &[u8], runs: usize) -> (Duration, Duration) {
    let mut best = (Duration::MAX, Duration::MAX);
    for _ in 0..runs {
        best.0 = best.0.min(once(one, bytes));
        best.1 = best.1.min(once(other, bytes));
    }
    best
}

fn row(name: &str, bytes: &[u8], ahead: bool, runs: usize) {
    let (a, b) = if ahead { best(ours_ahead, plain_ahead, bytes, runs) } else { best(ours, plain, bytes, runs) };
    let rate = |t: Duration| bytes.len() as f64 / 1e6 / t.as_secs_f64();
    println!("{name:<44}{:>10}{:>12.0}{:>12.0}{:>8.2}", bytes.len(), rate(a), rate(b), b.as_secs_f64() / a.as_secs_f64());
}

fn table(runs: usize) {
    println!("{:<44}{:>10}{:>12}{:>12}{:>8}", "stream", "bytes", "ours MB/s", "plain MB/s", "ratio");
    let mut r = Random(0x5eed_0002_2345_6789);
    let size = 1 << 18;
    let clean = mixed(&mut r, size);
    let streams = [
        ("clean positions", positions(&mut r, size)),
        ("surveys", surveys(&mut r, size)),
        ("mixed", clean.clone()),
        ("mixed, damaged", damaged(&mut r, &clean, 333)),
        ("noise", bytes(&mut r, size)),
        ("noise of ten byte values", few_values(&mut r, size)),
        ("zeros", vec![0; size]),
        ("storm of start bytes", storm(&mut r, size)),
        ("start bytes alone", vec![2; size]),
    ];
    for (name, bytes) in &streams {
        row(name, bytes, false, runs);
    }
    for (name, bytes) in &streams[..5] {
        row(&format!("{name}, read-ahead"), bytes, true, runs);
    }
    row("zeros, read-ahead", &streams[6].1, true, runs);
    // The cost of a pull does not grow with the link's age: so these rates are the same.
    for times in [1, 2, 4, 8] {
        let bytes = positions(&mut r, times << 17);
        row(&format!("clean positions, {} KiB", times << 7), &bytes, false, runs);
    }
    for times in [1, 4] {
        let clean = mixed(&mut r, times << 17);
        let bytes = damaged(&mut r, &clean, 333);
        row(&format!("damaged mixed, {} KiB", times << 7), &bytes, false, runs);
    }
}

fn main() {
    let words: Vec<String> = std::env::args().skip(1).collect();
    match words.iter().map(String::as_str).collect::<Vec<_>>()[..] {
        ["time"] => table(100),
        [linklog] => {
            let (compared, differed) = compare(linklog);
            table(100);
            println!("{compared} inputs compared, {differed} differed");
            if differed > 0 {
                std::process::exit(1);
            }
        }
        _ => println!("harness LINKLOG | harness time"),
    }
}
