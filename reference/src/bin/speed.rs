//! Times of the proved model beside the reference's, on the same inputs and in one run.
//!
//!     speed BENCH EXPLAIN REFERENCE FOLDER [ROUNDS]
//!
//! Prints a line for each routine of each case, tab-parted: group, case, length, routine, ns, ratio. The ratio is
//! the time of the case's first routine, the proved one, by this one's. In a round each routine of a case runs
//! once, in turns, for some milliseconds; a time is the least over the rounds, so that other work on the machine
//! counts little. BENCH and REFERENCE are the two bench programs, EXPLAIN is the proved one that names rules (the
//! reference explains with the word `explain`), FOLDER takes their scripts.

use std::fs::{self, File};
use std::hint::black_box;
use std::io::Result;
use std::path::Path;
use std::process::{exit, Command, Stdio};
use std::time::Instant;

use reference::bench::UID;
use reference::crc::{crc, crc_bytes};
use reference::library;
use reference::model::{self, Signal};
use reference::script::{script, text, Line};
use reference::state::{self, STATE_SIZE};
use reference::tag::{Tag, MEMORY_SIZE, REPLY_SIZE};
use reference::timing::{measure, print, Case};

const ROUNDS: usize = 100;
const PROGRAM_ROUNDS: usize = 15;

// ---- the CRC

/// One bit at a time. The polynomial comes in from outside: a compiler that knows it may make a table of its own.
#[inline(never)]
fn bitwise(bytes: &[u8], polynomial: u16) -> u16 {
    let mut r = 0xFFFF;
    for &byte in bytes {
        r ^= u16::from(byte);
        for _ in 0..8 {
            r = (r >> 1) ^ if r & 1 != 0 { polynomial } else { 0 };
        }
    }
    !r
}

const fn byte_table() -> [u16; 256] {
    let mut table = [0; 256];
    let mut place = 0;
    while place < 256 {
        let mut r = place as u16;
        let mut bit = 0;
        while bit < 8 {
            r = (r >> 1) ^ if r & 1 != 0 { 0x8408 } else { 0 };
            bit += 1;
        }
        table[place] = r;
        place += 1;
    }
    table
}

static TABLE: [u16; 256] = byte_table();

/// One byte at a time, by a table of 256.
#[inline(never)]
fn bytewise(bytes: &[u8]) -> u16 {
    let mut r = 0xFFFF;
    for &byte in bytes {
        r = (r >> 8) ^ TABLE[usize::from(r as u8 ^ byte)];
    }
    !r
}

fn crcs(rounds: usize) {
    let bytes: Vec<u8> = (0..270).map(|k| (k * 7 + 3) as u8).collect();
    for length in [4, 8, 16, 32, 64, 128, 192, 270] {
        let bytes = &bytes[..length];
        let all = [
            library::crc(bytes),
            crc(bytes),
            bitwise(bytes, 0x8408),
            bytewise(bytes),
        ];
        assert!(all.iter().all(|one| *one == all[0]), "{all:?}");
        let case = Case {
            group: "crc",
            name: "crc".to_string(),
            length,
        };
        measure(
            &case,
            rounds,
            &mut [
                ("proved", &mut || {
                    black_box(library::crc(black_box(bytes)));
                }),
                ("reference", &mut || {
                    black_box(crc(black_box(bytes)));
                }),
                ("bitwise", &mut || {
                    black_box(bitwise(black_box(bytes), black_box(0x8408)));
                }),
                ("bytewise", &mut || {
                    black_box(bytewise(black_box(bytes)));
                }),
            ],
        );
    }
}

// ---- calls

struct Call {
    code: u8,
    value: u16,
    frame: Vec<u8>,
}

fn call(code: u8, value: u16) -> Call {
    Call {
        code,
        value,
        frame: Vec::new(),
    }
}

fn frame(body: &[u8]) -> Call {
    let mut frame = body.to_vec();
    frame.extend(crc_bytes(body));
    Call {
        code: model::FRAME,
        value: 0,
        frame,
    }
}

/// A write leg up to its Stop.
fn unended_leg(select: u8, address: u16, data: &[u8]) -> Vec<Call> {
    let [high, low] = address.to_be_bytes();
    let sent = [select, high, low];
    let sent = sent.iter().chain(data);
    let mut calls = vec![call(model::START, 0)];
    calls.extend(sent.map(|&byte| call(model::SEND, byte.into())));
    calls
}

fn write_leg(select: u8, address: u16, data: &[u8]) -> Vec<Call> {
    let mut calls = unended_leg(select, address, data);
    calls.push(call(model::STOP, 0));
    calls
}

/// The address, a repeated Start, and `n` bytes fetched, the last not Acked.
fn read_legs(address: u16, n: usize) -> Vec<Call> {
    let mut calls = unended_leg(0xA6, address, &[]);
    calls.extend([call(model::START, 0), call(model::SEND, 0xA7)]);
    calls.extend((1..=n).map(|k| call(model::FETCH, u16::from(k < n))));
    calls.push(call(model::STOP, 0));
    calls
}

/// Powered, in the field, the I2C session open, MB_MODE 1.
fn opening() -> Vec<Call> {
    let mut present = [0; 17];
    present[8] = 0x09;
    let mut calls = vec![call(model::VCC, 1), call(model::FIELD, 1)];
    calls.extend(write_leg(0xAE, 0x0900, &present));
    calls.extend(write_leg(0xAE, 0x000D, &[1]));
    calls.push(call(model::PROGRAMMING_END, 0));
    calls
}

/// The tag as each of the three keeps it; the memory and the reply buffer beside it. It stands at a fixed
/// place in the lines of the cache, the state first: without that the time of a short call hung on the environment that
/// the program was started with, up to half as long again.
#[repr(C, align(64))]
struct Bench {
    state: [u8; STATE_SIZE],
    tag: Tag,
    memory: [u8; MEMORY_SIZE],
    reply: [u8; REPLY_SIZE],
}

impl Bench {
    fn fresh() -> Bench {
        let tag = Tag::fresh(UID);
        Bench {
            state: state::encode(&tag),
            tag,
            memory: [0; MEMORY_SIZE],
            reply: [0; REPLY_SIZE],
        }
    }

    fn proved(&mut self, c: &Call) -> u32 {
        let (code, value) = (u32::from(c.code) + 1, u32::from(c.value));
        let (memory, reply) = (&mut self.memory, &mut self.reply);
        library::step(&mut self.state, memory, reply, code, value, &c.frame)
    }

    fn bytes(&mut self, c: &Call) -> u32 {
        let (code, value) = (u32::from(c.code) + 1, u32::from(c.value));
        let (memory, reply) = (&mut self.memory, &mut self.reply);
        state::step(&mut self.state, memory, reply, code, value, &c.frame)
    }

    fn value(&mut self, c: &Call) -> u32 {
        let signal = Signal {
            code: c.code,
            value: c.value,
            frame: &c.frame,
        };
        let (memory, reply) = (&mut self.memory, &mut self.reply);
        state::number(model::step(&mut self.tag, memory, reply, signal))
    }
}

/// All three after the same calls, with the same answers, states and bytes.
fn after(calls: &[&[Call]]) -> [Bench; 3] {
    let mut all = [Bench::fresh(), Bench::fresh(), Bench::fresh()];
    for c in calls.iter().flat_map(|list| list.iter()) {
        let [one, two, three] = &mut all;
        let answers = [one.proved(c), two.bytes(c), three.value(c)];
        assert!(answers[0] == answers[1] && answers[0] == answers[2]);
        assert!(answers[0] >= 0x100 && answers[0] != 0x102, "{answers:X?}");
    }
    for one in &all[..2] {
        assert!(one.state == state::encode(&all[2].tag));
        assert!(one.memory == all[2].memory && one.reply == all[2].reply);
    }
    all
}

/// Times `list` from the tag that `before` leaves; the state is put back before each turn, in each of the three.
fn calls(rounds: usize, name: &str, length: usize, before: &[Call], list: &[Call]) {
    let opening = opening();
    after(&[&opening, before, list]);
    let [mut one, mut two, mut three] = after(&[&opening, before]);
    let (state, tag) = (one.state, three.tag.clone());
    let case = Case {
        group: "call",
        name: name.to_string(),
        length,
    };
    measure(
        &case,
        rounds,
        &mut [
            ("proved", &mut || {
                one.state = state;
                for c in list {
                    black_box(one.proved(black_box(c)));
                }
            }),
            ("reference, state as bytes", &mut || {
                two.state = state;
                for c in list {
                    black_box(two.bytes(black_box(c)));
                }
            }),
            ("reference", &mut || {
                three.tag.clone_from(&tag);
                for c in list {
                    black_box(three.value(black_box(c)));
                }
            }),
        ],
    );
}

fn all_calls(rounds: usize) {
    let data: Vec<u8> = (0..256).map(|k| (k * 7 + 3) as u8).collect();
    let enabled = write_leg(0xA6, 0x2006, &[1]);
    calls(
        rounds,
        "field, same level",
        0,
        &[],
        &[call(model::FIELD, 1)],
    );
    calls(rounds, "20", 4, &[], &[frame(&[0x02, 0x20, 0x05])]);
    for length in [1, 16, 64, 128, 192, 256] {
        let last = (length - 1) as u8;
        let data = &data[..length];
        if length <= 128 {
            let read = [frame(&[0x02, 0x23, 0x00, last])];
            calls(rounds, "23", 4 * length, &[], &read);
        }
        let mut put = vec![0x02, 0xAA, 0x02, last];
        put.extend(data);
        calls(rounds, "AA", length, &enabled, &[frame(&put)]);
        let mut host = write_leg(0xA6, 0x2006, &[1]);
        host.extend(write_leg(0xA6, 0x2008, data));
        let read = [frame(&[0x02, 0xAC, 0x02, 0x00, 0x00])];
        calls(rounds, "AC", length, &host, &read);
        let put = write_leg(0xA6, 0x2008, data);
        calls(rounds, "wire: mailbox put", length, &enabled, &put);
        let write = write_leg(0xA6, 0x0000, data);
        calls(rounds, "wire: memory write", length, &[], &write);
        let read = read_legs(0, length);
        calls(rounds, "wire: read", length, &[], &read);
        // the last byte of the leg alone: what the range on its page bytes costs
        let (before, sent) = (
            unended_leg(0xA6, 0x0000, &data[1..]),
            [call(model::SEND, 5)],
        );
        calls(rounds, "one byte sent", length, &before, &sent);
    }
}

// ---- the bench programs

fn short_lines() -> Vec<Line> {
    let six: [&[u8]; 6] = [b"V\t1", b"F\t1", b"S", b"B\tA6", b"P", b"R\t022001"];
    let six = six.map(<[u8]>::to_vec);
    six.iter().cycle().take(1_000_000).cloned().collect()
}

/// Transfers of a host that writes 256 bytes, waits, and reads them.
fn transfer_lines() -> Vec<Line> {
    let mut lines = vec![b"V\t1".to_vec()];
    for turn in 0..400_usize {
        let mut calls = write_leg(0xA6, 0x0000, &[turn as u8; 256]);
        calls.push(call(model::PROGRAMMING_END, 0));
        calls.extend(read_legs(0, 256));
        lines.extend(calls.iter().map(|c| match c.code {
            model::START => b"S".to_vec(),
            model::STOP => b"P".to_vec(),
            model::PROGRAMMING_END => b"D".to_vec(),
            model::FETCH => format!("G\t{}", c.value).into_bytes(),
            _ => format!("B\t{:02X}", c.value).into_bytes(),
        }));
    }
    lines
}

fn random_lines() -> Vec<Line> {
    (1..=100)
        .flat_map(|seed| script(seed, 4000).lines)
        .collect()
}

fn run(program: &[&str], script: &Path) -> Result<f64> {
    let start = Instant::now();
    let status = Command::new(program[0])
        .args(&program[1..])
        .stdin(File::open(script)?)
        .stdout(Stdio::null())
        .status()?;
    assert!(status.success());
    Ok(start.elapsed().as_nanos() as f64)
}

fn programs(bench: &str, explain: &str, reference: &str, folder: &Path) -> Result<()> {
    let all = [
        ("short lines", short_lines()),
        ("transfers of 256 bytes", transfer_lines()),
        ("random scripts", random_lines()),
    ];
    let programs: [&[&str]; 4] = [&[bench], &[reference], &[explain], &[reference, "explain"]];
    for (name, lines) in all {
        let script = folder.join(format!("{}.tsv", name.replace(' ', "_")));
        fs::write(&script, text(&lines, true))?;
        let mut times = [f64::INFINITY; 4];
        for _ in 0..PROGRAM_ROUNDS {
            for (own, program) in times.iter_mut().zip(programs) {
                *own = own.min(run(program, &script)? / lines.len() as f64);
            }
        }
        let case = Case {
            group: "bench",
            name: name.to_string(),
            length: lines.len(),
        };
        let names = ["proved", "reference", "explain", "reference explain"];
        print(&case, &names, &times);
    }
    Ok(())
}

fn main() -> Result<()> {
    let arguments: Vec<String> = std::env::args().skip(1).collect();
    let [bench, explain, reference, folder, rest @ ..] = &arguments[..] else {
        eprintln!("speed BENCH EXPLAIN REFERENCE FOLDER [ROUNDS]");
        exit(2);
    };
    let rounds = rest.first().and_then(|word| word.parse().ok());
    let rounds = rounds.unwrap_or(ROUNDS);
    println!("group\tcase\tlength\troutine\tns\tratio");
    crcs(rounds);
    all_calls(rounds);
    programs(bench, explain, reference, Path::new(folder))
}
