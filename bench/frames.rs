// The rules of four requests in plain Rust, on `&mut Module`: Spinel 60H and 61H, Modbus 03 of counters and 10H of deductions.
use crate::module::*;

// A deduction of 61H: a number and an amount of four bytes.
const ITEM: usize = 5;

pub struct Answer {
    pub refusal: u8,
    pub len: usize,
}

// What `frame_play` answers.
#[repr(C)]
#[derive(Debug, PartialEq)]
pub struct Outcome {
    pub written: u64,
    pub refusals: u64,
    pub counters: [u32; 16],
}

pub fn sum(bytes: &[u8]) -> u8 {
    255 - bytes.iter().fold(0u8, |a, b| a.wrapping_add(*b))
}

pub fn crc(bytes: &[u8]) -> u16 {
    bytes.iter().fold(0xFFFF, |c, b| (0..8).fold(c ^ *b as u16, |c, _| if c & 1 == 1 { c >> 1 ^ 0xA001 } else { c >> 1 }))
}

fn word(bytes: &[u8]) -> u16 {
    u16::from_be_bytes([bytes[0], bytes[1]])
}

// Refusals 1 to 6 on the Spinel port, 4 only where SUM is tested; to all modules (FF) goes none of the four requests.
fn check_spinel(tested: bool, own: u8, frame: &[u8], room: usize) -> Result<(), u8> {
    let n = frame.len();
    if room < 256 {
        return Err(1);
    }
    if !(9..=256).contains(&n) {
        return Err(2);
    }
    if frame[..2] != [0x2A, 0x61] || frame[n - 1] != 0x0D || word(&frame[2..]) as usize != n - 4 {
        return Err(3);
    }
    if tested && frame[n - 2] != sum(&frame[..n - 2]) {
        return Err(4);
    }
    match frame[4] {
        0xFF => Err(6),
        to if to == own || to == 0xFE => Ok(()),
        _ => Err(5),
    }
}

// The same on the Modbus port, where 0 goes to all modules.
fn check_modbus(own: u8, frame: &[u8], room: usize) -> Result<(), u8> {
    let n = frame.len();
    if room < 256 {
        return Err(1);
    }
    if !(4..=256).contains(&n) {
        return Err(2);
    }
    if frame[n - 2..] != crc(&frame[..n - 2]).to_le_bytes() {
        return Err(4);
    }
    match frame[0] {
        0 => Err(6),
        to if to == own => Ok(()),
        _ => Err(5),
    }
}

// Whether two deductions have the same number.
fn named_twice(data: &[u8]) -> bool {
    (0..data.len()).step_by(ITEM).any(|i| (i + ITEM..data.len()).step_by(ITEM).any(|j| data[i] == data[j]))
}

impl Module {
    // Counters that cover thousands of deductions, each another number.
    pub fn ready() -> Module {
        Module { counters: std::array::from_fn(|i| 65540 - i as u32), ..Module::fresh() }
    }

    // 60H: the length of the reply's data.
    fn read_inputs(&mut self, data: &[u8], out: &mut [u8]) -> Result<usize, u8> {
        if !(1..=12).contains(&data.len()) {
            return Err(8);
        }
        let every: [u8; 16] = std::array::from_fn(|i| data[0] & 128 | (i as u8 + 1));
        let parameters = if data.len() == 1 && data[0] % 64 == 0 { &every } else { data };
        if !parameters.iter().all(|p| (1..=16).contains(&(p % 64))) {
            return Err(11);
        }
        out[0] = 32;
        for (p, place) in parameters.iter().zip(out[1..].chunks_exact_mut(4)) {
            let counter = &mut self.counters[*p as usize % 64 - 1];
            place.copy_from_slice(&counter.to_be_bytes());
            if *p >= 128 {
                *counter = 0;
            }
        }
        Ok(1 + 4 * parameters.len())
    }

    // Deductions in turn on a copy, all or none.
    fn deduct(&mut self, items: impl Iterator<Item = (u8, u32)>) -> Result<usize, u8> {
        let mut copy = self.counters;
        for (number, amount) in items {
            let counter = copy.get_mut((number as usize).wrapping_sub(1)).ok_or(11)?;
            *counter = counter.checked_sub(amount).ok_or(11)?;
        }
        self.counters = copy;
        Ok(0)
    }

    // 61H
    fn deduct_inputs(&mut self, data: &[u8]) -> Result<usize, u8> {
        match data {
            [0] => self.counters = [0; 16],
            [_] => return Err(11),
            _ if data.len() % ITEM != 0 || !(1..=12).contains(&(data.len() / ITEM)) => return Err(8),
            _ if named_twice(data) => return Err(13),
            _ => return self.deduct(data.chunks_exact(ITEM).map(|t| (t[0], u32::from_be_bytes([t[1], t[2], t[3], t[4]])))),
        }
        Ok(0)
    }

    pub fn spinel(&mut self, frame: &[u8], reply: &mut [u8]) -> Answer {
        if let Err(refusal) = check_spinel(self.sum_tested, self.spinel.address, frame, reply.len()) {
            return Answer { refusal, len: 0 };
        }
        self.spinel.permitted = false;
        let data = &frame[7..frame.len() - 2];
        let done = match frame[6] {
            0x60 => self.read_inputs(data, &mut reply[7..]),
            0x61 => self.deduct_inputs(data),
            _ => Err(7),
        };
        let (refusal, ack, n) = match done {
            Ok(n) => (0, 0, n),
            Err(7) => (7, 2, 0),
            Err(10) => (10, 4, 0),
            Err(refusal) => (refusal, 3, 0),
        };
        let num = (n as u16 + 5).to_be_bytes();
        reply[..7].copy_from_slice(&[0x2A, 0x61, num[0], num[1], self.spinel.address, frame[5], ack]);
        reply[7 + n] = sum(&reply[..7 + n]);
        reply[8 + n] = 0x0D;
        Answer { refusal, len: 9 + n }
    }

    // 03, each counter by its low 16 bits: the length of the reply's body.
    fn read_registers(&self, body: &[u8], out: &mut [u8]) -> Result<usize, u8> {
        if body.len() != 4 || !(1..=125).contains(&word(&body[2..])) {
            return Err(8);
        }
        let (start, n) = (word(body) as usize, word(&body[2..]) as usize);
        if start < 100 || start + n > 116 {
            return Err(9);
        }
        out[0] = 2 * n as u8;
        for (c, place) in self.counters[start - 100..][..n].iter().zip(out[1..].chunks_exact_mut(2)) {
            place.copy_from_slice(&(*c as u16).to_be_bytes());
        }
        Ok(1 + 2 * n)
    }

    // 10H, amounts of 16 bits from the whole counters: the start and the quantity come back.
    fn write_registers(&mut self, body: &[u8], out: &mut [u8]) -> Result<usize, u8> {
        if body.len() < 5 {
            return Err(8);
        }
        let (start, n) = (word(body) as usize, word(&body[2..]) as usize);
        if !(1..=123).contains(&n) || body[4] as usize != 2 * n || body.len() != 5 + 2 * n {
            return Err(8);
        }
        if start < 200 || start + n > 216 || n > 12 {
            return Err(9);
        }
        self.deduct((start as u8 - 199..).zip(body[5..].chunks_exact(2).map(|w| word(w) as u32)))?;
        out[..4].copy_from_slice(&body[..4]);
        Ok(4)
    }

    pub fn modbus(&mut self, frame: &[u8], reply: &mut [u8]) -> Answer {
        if let Err(refusal) = check_modbus(self.modbus.address, frame, reply.len()) {
            return Answer { refusal, len: 0 };
        }
        self.modbus.permitted = false;
        let body = &frame[2..frame.len() - 2];
        let done = match frame[1] {
            0x03 => self.read_registers(body, &mut reply[2..]),
            0x10 => self.write_registers(body, &mut reply[2..]),
            _ => Err(7),
        };
        reply[0] = self.modbus.address;
        let (refusal, end) = match done {
            Ok(n) => {
                reply[1] = frame[1];
                (0, 2 + n)
            }
            Err(refusal) => {
                reply[1] = frame[1] | 0x80;
                reply[2] = match refusal {
                    7 => 1,
                    9 => 2,
                    10 | 12 => 4,
                    _ => 3,
                };
                (refusal, 3)
            }
        };
        let check = crc(&reply[..end]).to_le_bytes();
        reply[end..end + 2].copy_from_slice(&check);
        Answer { refusal, len: end + 2 }
    }
}

// n calls of one frame from the ready state, as `frame_play` makes them.
#[inline(never)]
pub fn play(modbus: bool, n: u32, frame: &[u8], reply: &mut [u8]) -> Outcome {
    let mut m = Module::ready();
    let (mut written, mut refusals) = (0, 0);
    for _ in 0..n {
        let a = if modbus { m.modbus(frame, reply) } else { m.spinel(frame, reply) };
        written += a.len as u64;
        refusals += a.refusal as u64;
    }
    Outcome { written, refusals, counters: m.counters }
}
