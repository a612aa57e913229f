// The state and the sample call's rules in plain Rust, on `&mut Module`: what the proved call is compared with.

#[derive(Clone, Copy, Default)]
pub struct Line {
    pub stable: bool,
    pub run: u8,
}

#[derive(Clone, Copy, Default)]
pub struct Output {
    pub on: bool,
    pub left: u32,
}

#[derive(Clone, Copy, Default)]
pub struct Preset {
    pub kind: u8,
    pub time: u8,
}

// The input whose edges drive an output, and how; action 0: no link.
#[derive(Clone, Copy, Default)]
pub struct Link {
    pub input: u8,
    pub action: u8,
}

#[derive(Clone, Copy, Default)]
pub struct Thermostat {
    pub flags: u8,
    pub tempx: i16,
    pub tempy: i16,
    pub time: u8,
    pub err: u8,
}

#[derive(Clone, Copy)]
pub enum Reading {
    #[allow(dead_code)]
    Valid(i16, f32),
    Fault,
}

#[derive(Clone, Copy)]
pub struct Port {
    pub address: u8,
    pub speed: u8,
    pub permitted: bool,
}

// A load, and the state that it starts from; action 0: no links.
pub struct Load {
    pub name: &'static str,
    pub noisy: bool,
    pub sampling: u8,
    pub mode: u8,
    pub mask: u16,
    pub rest: u32,
    pub action: u8,
}

pub const LOADS: [Load; 3] = [
    Load { name: "typical", noisy: false, sampling: 20, mode: 3, mask: 0xFFFF, rest: 0, action: 0 },
    Load { name: "full", noisy: true, sampling: 1, mode: 3, mask: 0xFFFF, rest: 3_000_000, action: 0 },
    Load { name: "linked", noisy: true, sampling: 1, mode: 3, mask: 0xFFFF, rest: 3_000_000, action: 1 },
];

pub struct Module {
    pub lines: [Line; 16],
    pub modes: [u8; 16],
    pub counters: [u32; 16],
    pub sampling: u8,
    pub outputs: [Output; 16],
    pub presets: [Preset; 16],
    pub links: [Link; 16],
    pub thermostats: [Thermostat; 16],
    pub reading: Reading,
    pub last: Reading,
    pub format: u8,
    pub mask: u16,
    pub signature: u8,
    pub sum_tested: bool,
    pub spinel: Port,
    pub modbus: Port,
}

impl Module {
    pub fn fresh() -> Module {
        let port = Port { address: 0x31, speed: 6, permitted: false };
        Module {
            lines: Default::default(),
            modes: [0; 16],
            counters: [0; 16],
            sampling: 20,
            outputs: Default::default(),
            presets: Default::default(),
            links: Default::default(),
            thermostats: Default::default(),
            reading: Reading::Fault,
            last: Reading::Fault,
            format: 0,
            mask: 0,
            signature: 0,
            sum_tested: true,
            spinel: port,
            modbus: port,
        }
    }

    // Every input counts by `mode`, the notice is on for the mask; the first four outputs pulse, the others for `rest` samples.
    // By an action other than 0 each input drives the output of its number.
    pub fn start(l: &Load) -> Module {
        let mut outputs = [Output { on: true, left: l.rest }; 16];
        for o in &mut outputs[..4] {
            o.left = 3_000_000;
        }
        let mut links = [Link::default(); 16];
        if l.action != 0 {
            links = std::array::from_fn(|i| Link { input: i as u8 + 1, action: l.action });
        }
        let (modes, sampling, mask) = ([l.mode; 16], l.sampling, l.mask);
        Module { modes, sampling, outputs, links, format: 0x61, mask, signature: 2, ..Module::fresh() }
    }

    // Counters, outputs and the bytes of the notices, added up.
    pub fn sum(&self, written: u64) -> u64 {
        let left = self.counters.iter().zip(&self.outputs).map(|(c, o)| *c as u64 + o.left as u64 + o.on as u64);
        left.fold(written, u64::wrapping_add)
    }

    // An output whose link acts at these edges gets a state and loses its pulse; the others stay.
    #[inline]
    fn drive(&mut self, edges: u16) {
        for (o, link) in self.outputs.iter_mut().zip(&self.links) {
            if link.action == 0 || edges >> (link.input - 1) & 1 == 0 {
                continue;
            }
            let risen = self.lines[link.input as usize - 1].stable;
            let on = match link.action {
                1 => risen,
                2 => !risen,
                3 if risen => true,
                4 if risen => false,
                _ => continue,
            };
            *o = Output { on, left: 0 };
        }
    }

    // The refusal's number, or the length of the notice.
    #[inline]
    pub fn sample(&mut self, bits: u16, reply: &mut [u8]) -> Result<usize, u8> {
        if reply.len() < 256 {
            return Err(1);
        }
        let mut edges = 0u16;
        for (i, line) in self.lines.iter_mut().enumerate() {
            let bit = bits >> i & 1 == 1;
            if bit == line.stable {
                line.run = 0;
                continue;
            }
            line.run += 1;
            if line.run >= self.sampling {
                line.stable = bit;
                line.run = 0;
                edges |= 1 << i;
                let selected = match self.modes[i] {
                    1 => bit,
                    2 => !bit,
                    3 => true,
                    _ => false,
                };
                if selected {
                    self.counters[i] = self.counters[i].wrapping_add(1);
                }
            }
        }
        for o in &mut self.outputs {
            if o.left > 0 {
                o.left -= 1;
                if o.left == 0 {
                    o.on = !o.on;
                }
            }
        }
        if edges != 0 {
            self.drive(edges);
        }
        if self.format != 0 && edges & self.mask != 0 {
            let states = self.lines.iter().enumerate().fold(0u16, |a, (i, l)| a | (l.stable as u16) << i);
            let head = [0x2A, 0x61, 0, 7, self.spinel.address, self.signature, 0x0D, (states >> 8) as u8, states as u8];
            let sum = head.iter().fold(0u8, |a, b| a.wrapping_add(*b));
            reply[..9].copy_from_slice(&head);
            reply[9] = 255 - sum;
            reply[10] = 0x0D;
            return Ok(11);
        }
        Ok(0)
    }
}

// The generator of the samples.
pub struct Source {
    seed: u64,
    level: u16,
}

impl Source {
    pub fn new() -> Source {
        Source { seed: 12345, level: 0 }
    }

    fn next(&mut self) -> u64 {
        self.seed = (self.seed * 1103515245 + 12345) % 2147483648;
        self.seed
    }

    pub fn sample(&mut self, noisy: bool) -> u16 {
        if noisy {
            self.level = (self.next() / 32768 % 65536) as u16;
        } else {
            let place = self.next() / 65536 % 16;
            if self.next() / 65536 % 125 == 0 {
                self.level ^= 1 << place;
            }
        }
        self.level
    }
}

// n samples: the module after them, and the bytes of the notices.
#[inline(never)]
pub fn play(noisy: bool, n: u32, m: &mut Module, reply: &mut [u8]) -> u64 {
    let mut source = Source::new();
    let mut written = 0u64;
    for _ in 0..n {
        written += m.sample(source.sample(noisy), reply).unwrap_or(0) as u64;
    }
    written
}
