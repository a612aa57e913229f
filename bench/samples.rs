// Prints what the program `samples` prints, from the plain Rust rules.
#[path = "module.rs"]
mod module;
use module::*;

fn main() {
    for l in &LOADS {
        let mut reply = [0u8; 256];
        let mut m = Module::start(l);
        let written = play(l.noisy, 2_000_000, &mut m, &mut reply);
        println!("{} load", l.name);
        for c in m.counters {
            println!("{c}");
        }
        println!("{written}");
    }
}
