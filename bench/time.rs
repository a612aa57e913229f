// Times the proved sample call and frame calls against the plain Rust rules, the sample call also against a tuned form of
// them, on the same loads in one run, and prints the ratios. Where the linker puts a loop moves its figure, that of the plain
// rules by up to a quarter on some machines: the figures of two programs can be that far apart for no other reason.
#[path = "module.rs"]
mod module;
#[path = "tuned.rs"]
mod tuned;
#[path = "agree.rs"]
mod agree;
#[path = "frames.rs"]
mod frames;
#[path = "alike.rs"]
mod alike;
use agree::Form;
use module::*;
use std::time::Instant;
use tuned::Tuned;

extern "C" {
    fn load_play(
        noisy: bool,
        n: u32,
        sampling: u8,
        mode: u8,
        mask: u16,
        rest: u32,
        action: u8,
        reply: *mut u8,
        len: usize,
    ) -> u64;
}

const SAMPLES: u32 = 2_000_000;

// Frames of one run: batches from the ready state, whose counters cover the deductions of each.
const BATCH: u32 = 50_000;
const BATCHES: usize = 4;

// One run of each in turn, eleven times: the best in nanoseconds a call, and what the last one answered.
fn best<T, const N: usize>(calls: u32, runs: [impl Fn() -> T; N]) -> [(f64, T); N] {
    let timed = |run: &dyn Fn() -> T| {
        let begun = Instant::now();
        let answer = run();
        (begun.elapsed().as_nanos() as f64 / calls as f64, answer)
    };
    let mut least = runs.each_ref().map(|run| timed(run));
    for _ in 1..11 {
        for (b, run) in least.iter_mut().zip(&runs) {
            let (spent, answer) = timed(run);
            *b = (b.0.min(spent), answer);
        }
    }
    least
}

// Counters, outputs and the bytes of the notices, added up, and the buffer.
type Answer = (u64, [u8; 256]);

fn plain(l: &Load) -> Answer {
    let mut reply = [0; 256];
    let mut m = Module::start(l);
    let written = play(l.noisy, SAMPLES, &mut m, &mut reply);
    (m.sum(written), reply)
}

fn tuned(l: &Load) -> Answer {
    let mut reply = [0; 256];
    let mut m = Tuned::start(l);
    let written = agree::play(l.noisy, SAMPLES, &mut m, &mut reply);
    (m.sum(written), reply)
}

fn rattle(l: &Load) -> Answer {
    let mut reply = [0; 256];
    let sum = unsafe {
        load_play(l.noisy, SAMPLES, l.sampling, l.mode, l.mask, l.rest, l.action, reply.as_mut_ptr(), 256)
    };
    (sum, reply)
}

fn time_samples() {
    println!("plain and tuned Rust agree on {} samples", agree::agree::<Tuned>());
    println!("{:14} {:>10} {:>10} {:>10} {:>7} {:>7}", "load", "Rust", "tuned", "Rattle", "/ Rust", "/ tuned");
    for l in &LOADS {
        let forms: [fn(&Load) -> Answer; 3] = [plain, tuned, rattle];
        let timed = best(SAMPLES, forms.map(|form| move || form(l)));
        let [rust, tuned, rattle] = timed.map(|(spent, _)| spent);
        assert_eq!(timed.map(|(_, answer)| answer), [timed[0].1; 3], "the three differ on the {} load", l.name);
        print!("{:14} {rust:7.1} ns {tuned:7.1} ns {rattle:7.1} ns", l.name);
        println!(" {:7.2} {:7.2}", rattle / rust, rattle / tuned);
    }
}

type Play = fn(bool, u32, &[u8], &mut [u8]) -> frames::Outcome;

// The outcome and the buffer of each batch.
fn batches(play: Play, r: &alike::Request) -> [(frames::Outcome, [u8; 256]); BATCHES] {
    std::array::from_fn(|_| {
        let mut reply = [0u8; 256];
        (play(r.modbus, BATCH, &r.frame, &mut reply), reply)
    })
}

fn time_frames() {
    println!("plain Rust and the proved calls answer alike on {} frames", alike::alike());
    println!("{:14} {:>10} {:>10} {:>7}", "request", "Rust", "Rattle", "ratio");
    for r in &alike::requests() {
        let plays: [Play; 2] = [frames::play, alike::rattle];
        let [(rust, expected), (rattle, got)] = best(BATCH * BATCHES as u32, plays.map(|play| move || batches(play, r)));
        assert_eq!(expected, got, "the two differ on {}", r.name);
        assert!(got.iter().all(|(o, _)| o.refusals == 0), "{} is refused", r.name);
        println!("{:14} {rust:7.1} ns {rattle:7.1} ns {:7.2}", r.name, rattle / rust);
    }
}

fn main() {
    time_samples();
    time_frames();
}
