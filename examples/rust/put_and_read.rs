// A host board puts a day's rate into the mailbox over the wire, and a till reads it by radio.
use std::process::exit;

#[path = "../../include/st25dv.rs"]
mod st25dv;
use st25dv::*;

struct Tag {
    state: [u8; STATE_BYTES],
    memory: [u8; MEMORY_BYTES],
    reply: [u8; REPLY_BYTES],
}

impl Tag {
    fn fresh(uid: &[u8]) -> Tag {
        let mut t = Tag { state: [0; STATE_BYTES], memory: [0; MEMORY_BYTES], reply: [0; REPLY_BYTES] };
        // The slices are there for the call and do not overlap.
        let a = unsafe { st25dv_fresh(uid.as_ptr(), uid.len(), t.memory.as_mut_ptr(), t.memory.len(), t.state.as_mut_ptr(), t.state.len()) };
        agree("fresh", a, NONE);
        t
    }

    fn step(&mut self, code: u32, value: u32, frame: &[u8]) -> u32 {
        // The slices are there for the call and do not overlap.
        unsafe {
            st25dv_step(
                self.state.as_mut_ptr(),
                self.state.len(),
                self.memory.as_mut_ptr(),
                self.memory.len(),
                self.reply.as_mut_ptr(),
                self.reply.len(),
                code,
                value,
                frame.as_ptr(),
                frame.len(),
            )
        }
    }

    fn signal(&mut self, code: u32, value: u32) {
        let a = self.step(code, value, &[]);
        agree("signal", a, NONE);
    }

    // ---- the host
    // One write leg: select, address, data; the Stop writes it.
    fn write_leg(&mut self, select: u8, address: u16, data: &[u8]) {
        self.signal(START, 0);
        let [high, low] = address.to_be_bytes();
        for &b in [select, high, low].iter().chain(data) {
            let a = self.step(SEND, b.into(), &[]);
            agree("byte sent", a, ACK);
        }
        self.signal(STOP, 0);
    }

    // The I2C password, all 0 on a fresh tag, opens the session; then MB_MODE and MB_EN are set.
    fn enable_mailbox(&mut self) {
        let mut present = [0; 17];
        present[8] = 0x09;
        self.write_leg(0xAE, 0x0900, &present);
        self.write_leg(0xAE, 0x000D, &[0x01]);
        self.signal(PROGRAMMING_END, 0);
        self.write_leg(0xA6, 0x2006, &[0x01]);
    }

    // ---- the till
    // The data of the reply to a request, which is closed with its CRC.
    fn ask(&mut self, request: &[u8]) -> Vec<u8> {
        let mut frame = request.to_vec();
        frame.extend(crc(request).to_le_bytes());
        let a = self.step(FRAME, 0, &frame);
        if a < REPLY + 3 {
            fail(&format!("request {:02x}: answer 0x{a:x}", request[1]));
        }
        let (body, close) = self.reply[..(a - REPLY) as usize].split_at((a - REPLY) as usize - 2);
        if body[0] != 0x00 || crc(body).to_le_bytes() != close {
            fail(&format!("request {:02x}: reply {body:02x?} {close:02x?}", request[1]));
        }
        body[1..].to_vec()
    }
}

fn crc(s: &[u8]) -> u16 {
    // The slice is there for the call.
    unsafe { st25dv_crc(s.as_ptr(), s.len()) }
}

fn fail(why: &str) -> ! {
    println!("{why}");
    exit(1)
}

fn agree(what: &str, answer: u32, expected: u32) {
    if answer != expected {
        let how = if answer < NONE { "refused by" } else { "answer" };
        fail(&format!("{what}: {how} 0x{answer:x}, not 0x{expected:x}"));
    }
}

fn main() {
    let rate = b"2026-07-12 rain rate -10%";
    let mut t = Tag::fresh(&[0x01, 0x02, 0x03, 0x04, 0x05, 0x24, 0x02, 0xE0]);
    t.signal(VCC, 1);
    t.enable_mailbox();
    t.write_leg(0xA6, 0x2008, rate);
    println!("put {} bytes, HOST_PUT is {}", rate.len(), t.state[AT_HOST_PUT]);

    t.signal(FIELD, 1);
    let length = t.ask(&[0x02, 0xAB, 0x02]);
    println!("the mailbox has {} bytes", length[0] as usize + 1);
    let message = t.ask(&[0x02, 0xAC, 0x02, 0x00, 0x00]);
    println!("read {}, HOST_PUT is {}", String::from_utf8_lossy(&message), t.state[AT_HOST_PUT]);
}
