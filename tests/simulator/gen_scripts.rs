// Writes scripts for the board program into a folder.
// Usage: gen_scripts FOLDER SEED [RANDOM SCRIPTS]
#![allow(dead_code)]

mod fixed_scripts;
mod folder;
mod reference;
mod rng;
mod script_cases;

use fixed_scripts::fixed_scripts;
use folder::Folder;
use rng::Rng;
use script_cases::{any_script, random_script, Manner, USUAL};

/// Scripts as long as the board program takes, and longer.
fn limits(folder: &mut Folder, rng: &mut Rng) {
    for (name, steps, last_feed) in [("below", 999_999, true), ("at", 1_000_000, false), ("past", 1_000_001, true), ("past_bare", 1_000_001, false)] {
        let mut text = b"members 1\n".to_vec();
        for step in 1..=steps {
            let line: &[u8] = if step % 3 == 0 { b"x" } else { b"crash 2" };
            text.extend_from_slice(line);
            if step < steps || last_feed {
                text.push(b'\n');
            }
        }
        folder.put(&format!("limit_{}", name), &text);
    }
    // The limit in the middle of an operation, lines going on after it.
    let mut text = b"members 2\n".to_vec();
    for _ in 0..200_001 {
        text.extend_from_slice(b"write 1 5\ndeliver 1\ndeliver 1\ndeliver 1\ndeliver 1\n");
    }
    folder.put("limit_busy", &text);
    let manner = Manner { steps: 150_000, slots: 8, crash_once_in: 1_000_000_000, bad_once_in: 40, ..USUAL };
    for n in [3, 12] {
        let text = random_script(rng, n, &manner);
        folder.put(&format!("long_run_{}", n), &text);
    }
}

fn main() {
    let args: Vec<String> = std::env::args().collect();
    if args.len() < 3 {
        println!("usage: gen_scripts FOLDER SEED [RANDOM SCRIPTS]");
        std::process::exit(2);
    }
    let seed: u64 = args[2].parse().expect("seed");
    let random: u32 = if args.len() > 3 { args[3].parse().expect("number") } else { 400 };
    let mut folder = Folder::new(&args[1]);
    let mut rng = Rng::new(seed);
    for (name, text) in fixed_scripts() {
        folder.put(&name, &text);
    }
    limits(&mut folder, &mut rng);
    for _ in 0..random {
        let (n, text) = any_script(&mut rng);
        folder.put(&format!("random_{}", n), &text);
    }
    println!("seed {} scripts {}", seed, folder.made);
}
