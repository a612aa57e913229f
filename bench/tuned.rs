// The sample call's rules in plain Rust once more, written for speed: a word has a bit for each of the sixteen lines or
// outputs. After each sample every run, counter and pulse stands in its place, as the plain rules count it.
use crate::agree::Form;
use crate::module::Module;

// Row b has 1 in the places where b has bit 1.
const ROWS: [[u32; 4]; 16] = {
    let mut rows = [[0; 4]; 16];
    let mut i = 0;
    while i < 64 {
        rows[i / 4][i % 4] = (i / 4 >> (i % 4) & 1) as u32;
        i += 1;
    }
    rows
};

// The word with a bit of each place.
fn word(bit: impl Fn(usize) -> bool) -> u32 {
    (0..16).fold(0, |word, i| word | (bit(i) as u32) << i)
}

// Aligned as the vectors of four counters or pulses are.
#[repr(align(16))]
pub struct Tuned {
    // The lines that are on. Word k has bit k of each line's run, or of the longest that is no edge yet. The lines with a run; those
    // with the longest.
    stable: u32,
    runs: [u32; 8],
    longest: [u32; 8],
    running: u32,
    ripe: u32,
    // The lines that count at falling edges, and those that count at one kind of edge alone.
    falling: u32,
    single: u32,
    counters: [u32; 16],
    // What is left of each pulse, and 1 where there is one; samples until the next one ends, 0 where there is none.
    on: u32,
    left: [u32; 16],
    steps: [u32; 16],
    soonest: u32,
    // The outputs with a pulse.
    pulsing: u32,
    // The lines that drive some output. Row b of each four lines has the outputs that are linked to those with bit 1 in b.
    driving: u32,
    driven: [[u16; 16]; 4],
    // The outputs whose links act at falling edges too, and those that get the opposite of their input's state.
    both: u32,
    opposite: u32,
    // The lines whose edges send the notice, and the notice of stable states that are all 0.
    telling: u32,
    notice: [u8; 11],
}

impl Form for Tuned {
    fn of(m: &Module) -> Tuned {
        let mut notice = [0x2A, 0x61, 0, 7, m.spinel.address, m.signature, 0x0D, 0, 0, 0, 0x0D];
        notice[9] = notice[..9].iter().fold(255, |a, b| a.wrapping_sub(*b));
        let acts = |i: usize| (1..=4).contains(&m.links[i].action);
        let source = |i: usize| 1u32 << (m.links[i].input - 1);
        let mut t = Tuned {
            stable: word(|i| m.lines[i].stable),
            runs: std::array::from_fn(|k| word(|i| m.lines[i].run >> k & 1 == 1)),
            longest: std::array::from_fn(|k| word(|_| (m.sampling - 1) >> k & 1 == 1)),
            running: word(|i| m.lines[i].run > 0),
            ripe: word(|i| m.lines[i].run >= m.sampling - 1),
            falling: word(|i| m.modes[i] & 2 != 0),
            single: word(|i| m.modes[i] == 1 || m.modes[i] == 2),
            counters: m.counters,
            on: word(|i| m.outputs[i].on),
            left: m.outputs.map(|o| o.left),
            steps: [0; 16],
            soonest: 0,
            pulsing: 0,
            driving: (0..16).filter(|i| acts(*i)).fold(0, |word, i| word | source(i)),
            driven: std::array::from_fn(|four| {
                let linked = |lines: u32| word(|i| acts(i) && lines & source(i) != 0) as u16;
                std::array::from_fn(|row| linked((row as u32) << (four * 4)))
            }),
            both: word(|i| m.links[i].action == 1 || m.links[i].action == 2),
            opposite: word(|i| m.links[i].action == 2 || m.links[i].action == 4),
            telling: if m.format == 0 { 0 } else { m.mask as u32 },
            notice,
        };
        t.end();
        t
    }

    fn place(&self, i: usize) -> (bool, u8, u32, bool, u32) {
        let bit = |word: u32| word >> i & 1;
        let run = (0..8).fold(0, |run, k| run | (bit(self.runs[k]) as u8) << k);
        (bit(self.stable) == 1, run, self.counters[i], bit(self.on) == 1, self.left[i])
    }

    #[inline(always)]
    fn sample(&mut self, bits: u16, reply: &mut [u8]) -> Result<usize, u8> {
        if reply.len() < 256 {
            return Err(1);
        }
        let differs = self.stable ^ bits as u32;
        let edges = differs & self.ripe;
        self.stable ^= edges;
        if (differs ^ edges) | self.running != 0 {
            self.run(differs ^ edges);
        }
        if self.soonest > 0 {
            for i in 0..16 {
                self.left[i] -= self.steps[i];
            }
            self.soonest -= 1;
            if self.soonest == 0 {
                self.end();
            }
        }
        if edges == 0 {
            return Ok(0);
        }
        if edges & self.driving != 0 {
            self.drive(edges);
        }
        // A rising edge counts as a falling one does, but for the lines that count at one kind alone.
        let selected = edges & (self.stable & self.single ^ self.falling);
        for i in 0..16 {
            let row = selected >> (i / 4 * 4) & 15;
            self.counters[i] = self.counters[i].wrapping_add(ROWS[row as usize][i % 4]);
        }
        Ok(self.notice(edges, reply))
    }
}

impl Tuned {
    // Adds 1 to the runs of these lines, ends the others, and compares all with the longest, which none exceeds.
    #[inline]
    fn run(&mut self, lines: u32) {
        let (mut carry, mut shorter) = (lines, 0);
        for k in 0..8 {
            let run = self.runs[k] & lines;
            self.runs[k] = run ^ carry;
            carry &= run;
            shorter |= self.runs[k] ^ self.longest[k];
        }
        (self.running, self.ripe) = (lines, !shorter);
    }

    // Inverts the outputs whose pulses have ended, and finds when to do so next.
    #[inline(never)]
    fn end(&mut self) {
        self.on ^= word(|i| self.steps[i] > self.left[i]);
        self.steps = self.left.map(|l| l.min(1));
        self.pulsing = word(|i| self.left[i] > 0);
        self.soonest = self.left.iter().copied().filter(|l| *l > 0).min().unwrap_or(0);
    }

    // The outputs that are linked to one of these lines.
    #[inline]
    fn linked(&self, lines: u32) -> u32 {
        (0..4).fold(0, |word, four| word | self.driven[four][(lines >> (four * 4) & 15) as usize] as u32)
    }

    // Sets the outputs whose links act: a rising edge acts on all that it drives, a falling one on those of `both`.
    #[inline]
    fn drive(&mut self, edges: u32) {
        let risen = self.linked(edges & self.stable);
        let acting = risen | self.linked(edges & !self.stable) & self.both;
        self.on = self.on & !acting | (risen ^ self.opposite) & acting;
        if acting & self.pulsing != 0 {
            self.stop(acting);
        }
    }

    // Drops the pulses of these outputs, which are not inverted, and finds anew when the next one ends.
    #[inline(never)]
    fn stop(&mut self, outputs: u32) {
        for i in (0..16).filter(|i| outputs >> i & 1 == 1) {
            (self.left[i], self.steps[i]) = (0, 0);
        }
        self.end();
    }

    #[inline]
    fn notice(&self, edges: u32, reply: &mut [u8]) -> usize {
        if edges & self.telling == 0 {
            return 0;
        }
        reply[..11].copy_from_slice(&self.notice);
        [reply[7], reply[8]] = (self.stable as u16).to_be_bytes();
        reply[9] = reply[9].wrapping_sub(reply[7]).wrapping_sub(reply[8]);
        11
    }
}
