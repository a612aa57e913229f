// Whether the proved frame calls and the plain Rust rules answer alike: outcome and the whole lent buffer of each call.
use crate::frames::{self, Outcome};

extern "C" {
    fn frame_play(modbus: bool, n: u32, frame: *const u8, len: usize, reply: *mut u8, room: usize) -> Outcome;
}

pub struct Request {
    pub name: &'static str,
    pub modbus: bool,
    pub frame: Vec<u8>,
}

pub fn rattle(modbus: bool, n: u32, frame: &[u8], reply: &mut [u8]) -> Outcome {
    unsafe { frame_play(modbus, n, frame.as_ptr(), frame.len(), reply.as_mut_ptr(), reply.len()) }
}

// The last bytes, SUM or CRC, put right.
fn repair(modbus: bool, frame: &mut [u8]) {
    let end = frame.len() - 2;
    if modbus {
        let crc = frames::crc(&frame[..end]);
        frame[end..].copy_from_slice(&crc.to_le_bytes());
    } else {
        frame[end] = frames::sum(&frame[..end]);
    }
}

fn spinel(instruction: u8, data: &[u8]) -> Vec<u8> {
    let head = [0x2A, 0x61, 0, data.len() as u8 + 5, 0x31, 2, instruction];
    let mut frame = [&head, data, &[0, 0x0D]].concat();
    repair(false, &mut frame);
    frame
}

fn modbus(function: u8, body: &[u8]) -> Vec<u8> {
    let mut frame = [&[0x31, function], body, &[0, 0]].concat();
    repair(true, &mut frame);
    frame
}

// Twelve inputs, twelve deductions of 1, sixteen counters, twelve deductions of 1.
pub fn requests() -> [Request; 4] {
    let inputs: Vec<u8> = (1..=12).collect();
    let deductions: Vec<u8> = (1..=12).flat_map(|i| [i, 0, 0, 0, 1]).collect();
    let amounts = [&[0, 200, 0, 12, 24][..], &[0, 1].repeat(12)].concat();
    [
        Request { name: "Spinel 60H", modbus: false, frame: spinel(0x60, &inputs) },
        Request { name: "Spinel 61H", modbus: false, frame: spinel(0x61, &deductions) },
        Request { name: "Modbus 03", modbus: true, frame: modbus(0x03, &[0, 100, 0, 16]) },
        Request { name: "Modbus 10H", modbus: true, frame: modbus(0x10, &amounts) },
    ]
}

// A request that the module has and the plain Rust has not.
fn is_other(modbus: bool, frame: &[u8]) -> bool {
    if !modbus {
        if frame.starts_with(b"*B") {
            return true; // text, which the plain Rust does not know
        }
        let others = [
            0x10, 0x11, 0x1A, 0x1B, 0x20, 0x23, 0x25, 0x26, 0x30, 0x31, 0x33, 0x36, 0x38, 0x40, 0x41, 0x51, 0x62, 0x63, 0x6A,
            0x6B, 0xE0, 0xE3, 0xE4, 0xEE, 0xF0, 0xFE,
        ];
        return frame.len() > 6 && others.contains(&frame[6]);
    }
    if frame.len() < 4 {
        return false;
    }
    match (frame[1], u16::from_be_bytes([frame[2], frame[3]])) {
        (0x03, start) => matches!(start, 1..=2 | 300..=315 | 500..=515 | 600..=663),
        (0x10, start) => matches!(start, 0..=2 | 100..=115 | 300..=315 | 500..=515 | 600..=663),
        (function, _) => matches!(function, 0x01 | 0x02 | 0x04 | 0x05 | 0x06 | 0x0F),
    }
}

// One frame n times on both sides; 1 where it was played.
fn compare(modbus: bool, n: u32, frame: &[u8], room: usize) -> u32 {
    if is_other(modbus, frame) {
        return 0;
    }
    let (mut ours, mut theirs) = ([0xEE; 300], [0xEE; 300]);
    let expected = frames::play(modbus, n, frame, &mut ours[..room]);
    let got = rattle(modbus, n, frame, &mut theirs[..room]);
    assert_eq!((expected, ours), (got, theirs), "plain Rust and the proved call differ on {frame:02X?}, {n} times");
    1
}

// A request with one byte replaced, its check left as it was and put right.
fn compare_changed(r: &Request, place: usize, byte: u8) -> u32 {
    let mut frame = r.frame.clone();
    frame[place] = byte;
    let left = compare(r.modbus, 1, &frame, 256);
    repair(r.modbus, &mut frame);
    left + compare(r.modbus, 1, &frame, 256)
}

// A request played up to 20 times and until its deductions are refused, with several buffers, cut short and too long, and with
// each byte replaced by every other.
fn compare_request(r: &Request) -> u32 {
    let long = [&r.frame[..], &[0; 256]].concat();
    let often: u32 = (0..=20).chain([65_530]).map(|n| compare(r.modbus, n, &r.frame, 256)).sum();
    let rooms: u32 = [0, 255, 300].into_iter().map(|room| compare(r.modbus, 1, &r.frame, room)).sum();
    let lengths: u32 = (0..long.len()).map(|n| compare(r.modbus, 1, &long[..n], 256)).sum();
    let changed: u32 =
        (0..r.frame.len()).flat_map(|place| (0..=255).map(move |byte| compare_changed(r, place, byte))).sum();
    often + rooms + lengths + changed
}

// Both Spinel requests with these data.
fn compare_data(data: &[u8]) -> u32 {
    compare(false, 1, &spinel(0x60, data), 256) + compare(false, 1, &spinel(0x61, data), 256)
}

// Both Modbus requests with n registers from place `first` on, where place 10 is the first of the group.
fn compare_range(first: u8, n: u8) -> u32 {
    let amounts = [&[0, 190 + first, 0, n, 2 * n][..], &[0, 7].repeat(n as usize)].concat();
    compare(true, 1, &modbus(0x03, &[0, 90 + first, 0, n]), 256) + compare(true, 1, &modbus(0x10, &amounts), 256)
}

// The four requests; data of one byte and of every length; registers in and around the groups: how many frames were compared.
pub fn alike() -> u32 {
    let four: u32 = requests().iter().map(compare_request).sum();
    let single: u32 = (0..=255).map(|byte| compare_data(&[byte])).sum();
    let items: Vec<u8> = (1..=14).flat_map(|i| [i, 0, 0, i, 3]).collect();
    let lengths: u32 = (0..=70).map(|n| compare_data(&[1, 2, 3].repeat(24)[..n]) + compare_data(&items[..n])).sum();
    let ranges: u32 = (0..40).flat_map(|first| (0..=20).map(move |n| compare_range(first, n))).sum();
    four + single + lengths + ranges
}
