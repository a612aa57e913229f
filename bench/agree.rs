// What a faster form of the sample call's rules has, and whether it agrees with the plain one after each sample: refusal or
// length, the whole lent buffer, every line, counter and output.
use crate::module::*;

pub trait Form: Sized {
    // The same state.
    fn of(m: &Module) -> Self;

    // The refusal's number, or the length of the notice.
    fn sample(&mut self, bits: u16, reply: &mut [u8]) -> Result<usize, u8>;

    // Line i's stable state and run, its counter, output i and what is left of its pulse.
    fn place(&self, i: usize) -> (bool, u8, u32, bool, u32);

    fn start(l: &Load) -> Self {
        Self::of(&Module::start(l))
    }

    // As `Module::sum`.
    fn sum(&self, written: u64) -> u64 {
        let places = (0..16).map(|i| self.place(i));
        places.fold(written, |a, (_, _, counter, on, left)| a.wrapping_add(counter as u64 + left as u64 + on as u64))
    }
}

// As `module::play`. A form's `sample` asks to be inlined always: by itself the compiler leaves a call in this loop.
#[inline(never)]
pub fn play<F: Form>(noisy: bool, n: u32, m: &mut F, reply: &mut [u8]) -> u64 {
    let mut source = Source::new();
    let mut written = 0u64;
    for _ in 0..n {
        written += m.sample(source.sample(noisy), reply).unwrap_or(0) as u64;
    }
    written
}

struct Dice(u64);

impl Dice {
    // A number below n.
    fn roll(&mut self, n: u64) -> u64 {
        self.0 = self.0.wrapping_mul(6364136223846793005).wrapping_add(1442695040888963407);
        (self.0 >> 33) % n
    }

    // A sampling number, a small one as often as any.
    fn sampling(&mut self) -> u8 {
        let most = [1, 8, 255][self.roll(3) as usize];
        1 + self.roll(most) as u8
    }

    // Counters soon wrap. Runs are below the sampling number, or equal to it, as after it fell. A third has no links.
    fn module(&mut self) -> Module {
        let mut m = Module { sampling: self.sampling(), mask: self.roll(65536) as u16, ..Module::fresh() };
        m.format = if self.roll(8) == 0 { 0 } else { 0x61 };
        (m.signature, m.spinel.address) = (self.roll(256) as u8, self.roll(256) as u8);
        for i in 0..16 {
            let run = self.roll(m.sampling as u64 + 1).min(254) as u8;
            m.lines[i] = Line { stable: self.roll(2) == 0, run };
            m.modes[i] = self.roll(4) as u8;
            m.counters[i] = (self.roll(40) as u32).wrapping_neg();
            m.outputs[i] = Output { on: self.roll(2) == 0, left: self.roll(300) as u32 };
        }
        if self.roll(3) > 0 {
            m.links = std::array::from_fn(|_| Link { input: 1 + self.roll(16) as u8, action: self.roll(5) as u8 });
        }
        m
    }

    // The next sample: any bits, now and then one that changes, any bits now and then, all that change.
    fn bits(&mut self, kind: u64, last: u16) -> u16 {
        let any = self.roll(65536) as u16;
        match kind {
            0 => any,
            1 if self.roll(20) == 0 => last ^ 1 << (any % 16),
            2 if self.roll(300) == 0 => any,
            3 if self.roll(3) == 0 => any,
            4 => !last,
            _ => last,
        }
    }
}

// Samples of one kind, with buffers of 256 bytes and a few more, or of 255 and a few more.
fn round<F: Form>(d: &mut Dice, mut plain: Module, samples: u32, kind: u64, least: usize) -> u32 {
    let mut form = F::of(&plain);
    let (mut ours, mut theirs) = ([0xEE; 260], [0xEE; 260]);
    let mut bits = 0;
    for _ in 0..samples {
        bits = d.bits(kind, bits);
        let room = least + d.roll(5) as usize;
        let expected = plain.sample(bits, &mut ours[..room]);
        assert_eq!((expected, ours), (form.sample(bits, &mut theirs[..room]), theirs));
        for i in 0..16 {
            let (l, o) = (plain.lines[i], plain.outputs[i]);
            assert_eq!((l.stable, l.run, plain.counters[i], o.on, o.left), form.place(i));
        }
    }
    samples
}

// How many samples both agree on. In the last round all lines count at each of more samples than sixteen bits count.
pub fn agree<F: Form>() -> u32 {
    let mut d = Dice(1);
    let mut samples = 0;
    for turn in 0..500 {
        let plain = d.module();
        samples += round::<F>(&mut d, plain, 800, turn % 5, 255 + turn as usize % 2);
    }
    samples + round::<F>(&mut d, Module::start(&LOADS[1]), 70_000, 4, 256)
}
