//! What a rack's call costs by the number of its tags: the proved library's call of a rack beside its call of one tag.
//!
//!     rack_speed [ROUNDS]
//!
//! Prints a line for each call and number of tags, tab-parted: call, tags, ns of the rack's call, ns of one tag's, and
//! the first by as many of the second.

use std::hint::black_box;

use reference::bench::UID;
use reference::crc::crc_bytes;
use reference::library;
use reference::model;
use reference::rack::calls::Lent;
use reference::rack::library::rack_step;
use reference::state::{self, STATE_SIZE};
use reference::tag::{Tag, MEMORY_SIZE, REPLY_SIZE};
use reference::timing::times;

const ROUNDS: usize = 100;
const MOST: usize = 16;
const NUMBERS: [usize; 5] = [1, 2, 4, 8, 16];

/// The lent bytes of a rack, or of its first tag; aligned as those of the benchmark of one tag are.
#[repr(C, align(64))]
#[derive(Clone)]
struct Bytes {
    states: [u8; MOST * STATE_SIZE],
    memory: [u8; MOST * MEMORY_SIZE],
    reply: [u8; REPLY_SIZE],
}

type Call = (u32, u32, Vec<u8>);

fn call(code: u8, value: u32) -> Call {
    (u32::from(code) + 1, value, Vec::new())
}

fn frame(body: &[u8]) -> Call {
    let mut frame = body.to_vec();
    frame.extend(crc_bytes(body));
    (u32::from(model::FRAME) + 1, 0, frame)
}

impl Bytes {
    /// Tags whose UIDs differ in their lowest byte, with VCC and in the field.
    fn fresh() -> Bytes {
        let mut bytes = Bytes {
            states: [0; MOST * STATE_SIZE],
            memory: [0; MOST * MEMORY_SIZE],
            reply: [0; REPLY_SIZE],
        };
        for (place, state) in bytes.states.chunks_exact_mut(STATE_SIZE).enumerate() {
            let mut uid = UID;
            uid[0] = place as u8;
            state.copy_from_slice(&state::encode(&Tag::fresh(uid)));
        }
        for to in 0..MOST {
            bytes.rack(MOST, to, &call(model::VCC, 1));
        }
        bytes.rack(MOST, 0, &call(model::FIELD, 1));
        bytes
    }

    fn rack(&mut self, tags: usize, to: usize, (code, value, frame): &Call) -> u32 {
        let lent = Lent {
            states: &mut self.states[..tags * STATE_SIZE],
            memory: &mut self.memory[..tags * MEMORY_SIZE],
            reply: &mut self.reply,
        };
        let (answer, _) = rack_step(lent, tags as u32, to as u32, (*code, *value, frame));
        assert!(answer >= 0x100, "{answer:X}");
        answer
    }

    fn one(&mut self, (code, value, frame): &Call) -> u32 {
        let state = &mut self.states[..STATE_SIZE];
        let memory = &mut self.memory[..MEMORY_SIZE];
        library::step(state, memory, &mut self.reply, *code, *value, frame)
    }
}

fn main() {
    let rounds = std::env::args().nth(1).and_then(|word| word.parse().ok());
    let rounds = rounds.unwrap_or(ROUNDS);
    let calls = [
        ("field, a repeated level", call(model::FIELD, 1)),
        ("VCC, a repeated level", call(model::VCC, 1)),
        ("20, all tags reply", frame(&[0x02, 0x20, 0x00])),
        ("20, one tag replies", frame(&addressed(0x20, &[0x00]))),
        (
            "23 of 128 blocks, all tags reply",
            frame(&[0x02, 0x23, 0x00, 0x7F]),
        ),
        (
            "inventory, one slot, all tags reply",
            frame(&[0x26, 0x01, 0x00]),
        ),
        ("inventory, sixteen slots", frame(&[0x06, 0x01, 0x00])),
        ("end-of-frame, no slot left", call(model::END_OF_FRAME, 0)),
    ];
    let before = Bytes::fresh();
    println!("call\ttags\track, ns\tone tag, ns\tratio");
    for (name, call) in &calls {
        for tags in NUMBERS {
            let (mut rack, mut alone) = (before.clone(), before.clone());
            let found = times(
                rounds,
                &mut [
                    ("rack", &mut || {
                        black_box(rack.rack(tags, 0, black_box(call)));
                    }),
                    ("one tag", &mut || {
                        black_box(alone.one(black_box(call)));
                    }),
                ],
            );
            let ratio = found[0] / (found[1] * tags as f64);
            println!(
                "{name}\t{tags}\t{:.1}\t{:.1}\t{ratio:.2}",
                found[0], found[1]
            );
        }
    }
}

/// To the first tag alone.
fn addressed(command: u8, parameters: &[u8]) -> Vec<u8> {
    let mut uid = UID;
    uid[0] = 0;
    let mut body = vec![0x22, command];
    body.extend(uid);
    body.extend(parameters);
    body
}
