// Programs beside the simulator: those that are asked about an operation, and
// the bill program.
// Usage: compare_tools TOOL FOLDER SEED RANDOM_RUNS PROGRAM..
// The tool is overtaker, cause or bill. Writes the scripts into the folder and
// runs each program on every case, with the script's file as its input. Ends
// with 1 at the first output that differs, and where something that can occur
// never came up.
#![allow(dead_code)]

mod asked;
mod asked_cases;
mod asked_grounds;
mod bill;
mod bill_cases;
mod bill_grounds;
mod board;
mod cause;
mod cause_cases;
mod cause_grounds;
mod fixed_scripts;
mod folder;
mod grounds;
mod overtaker;
mod overtaker_cases;
mod overtaker_grounds;
mod reference;
mod rng;
mod script;
mod script_cases;
mod two_ways;

use asked::printed;
use asked_cases::Arguments;
use asked_grounds::{count, missing, Case, Tested};
use bill::TARIFF;
use folder::Folder;
use grounds::Grounds;
use rng::Rng;
use std::ffi::OsStr;
use std::fmt::Display;
use std::fs::File;
use std::os::unix::ffi::OsStrExt;
use std::path::Path;
use std::process::{exit, Child, Command, Stdio};

fn start(program: &str, arguments: &Arguments, script: &Path) -> Child {
    let mut command = Command::new(program);
    command.args(arguments.iter().map(|argument| OsStr::from_bytes(argument)));
    command.stdin(File::open(script).expect("cannot read a script")).stdout(Stdio::piped()).stderr(Stdio::piped());
    command.spawn().expect("cannot run a program")
}

/// A program has to print what is expected, say nothing on standard error and end with 0.
fn difference(started: Child, expected: &[u8]) -> Option<String> {
    let run = started.wait_with_output().expect("cannot wait for a program");
    if run.stdout == expected && run.stderr.is_empty() && run.status.code() == Some(0) {
        return None;
    }
    let (expected, got, said) = (shown(expected), shown(&run.stdout), shown(&run.stderr));
    Some(format!("expected {}, got {} ({}; standard error {})", expected, got, run.status, said))
}

fn shown(bytes: &[u8]) -> String {
    format!("'{}'", bytes[..bytes.len().min(200)].escape_ascii())
}

/// Ends where a program differs. All run at the same time.
fn compare(programs: &[String], arguments: &Arguments, script: &Path, expected: &[u8]) {
    let started: Vec<Child> = programs.iter().map(|program| start(program, arguments, script)).collect();
    for (program, started) in programs.iter().zip(started) {
        if let Some(difference) = difference(started, expected) {
            let arguments: Vec<String> = arguments.iter().map(|argument| shown(argument)).collect();
            println!("DIFF {} {} < {}: {}", program, arguments.join(" "), script.display(), difference);
            exit(1);
        }
    }
}

/// The arguments after the tool.
struct Args<'a> {
    folder: &'a str,
    seed: u64,
    random_runs: u32,
    programs: &'a [String],
}

fn args_of(args: &[String]) -> Args<'_> {
    let (seed, random_runs) = (args[1].parse().expect("seed"), args[2].parse().expect("number"));
    Args { folder: &args[0], seed, random_runs, programs: &args[3..] }
}

fn compare_all<Found: Display>(tested: &Tested<Found>, args: &Args) {
    let mut folder = Folder::new(args.folder);
    let mut grounds = Grounds::default();
    let mut compared = 0;
    for asked in (tested.cases)(&mut Rng::new(args.seed), args.random_runs) {
        let file = folder.put(&asked.name, &asked.script);
        let run = tested.tool.run(&asked.script);
        for arguments in &asked.lists {
            let answered = tested.tool.answer(arguments, &run);
            compare(args.programs, arguments, &file, &printed(&answered));
            count(tested, &mut grounds, &Case { arguments, script: &asked.script, run: &run, answered: &answered });
            compared += 1;
        }
    }
    report(args.seed, &folder, compared, &missing(tested, &grounds));
}

/// The bill has no arguments.
fn compare_bills(args: &Args) {
    let mut folder = Folder::new(args.folder);
    let mut grounds = Grounds::default();
    for (name, script) in bill_cases::cases(&mut Rng::new(args.seed), args.random_runs) {
        let file = folder.put(&name, &script);
        let expected = bill::printed(&mut &script[..], &TARIFF).expect("what is in memory can be read");
        compare(args.programs, &Vec::new(), &file, expected.as_bytes());
        bill_grounds::count(&mut grounds, &script);
    }
    report(args.seed, &folder, folder.made, &bill_grounds::missing(&grounds));
}

fn report(seed: u64, folder: &Folder, compared: u32, missing: &[String]) {
    println!("seed {} scripts {} cases {}, never came up {:?}", seed, folder.made, compared, missing);
    exit(if missing.is_empty() { 0 } else { 1 });
}

fn main() {
    let args: Vec<String> = std::env::args().collect();
    let tool = args.get(1).map_or("", |tool| tool);
    match (tool, args.len() >= 6) {
        ("overtaker", true) => compare_all(&overtaker_grounds::TESTED, &args_of(&args[2..])),
        ("cause", true) => compare_all(&cause_grounds::TESTED, &args_of(&args[2..])),
        ("bill", true) => compare_bills(&args_of(&args[2..])),
        _ => {
            println!("usage: compare_tools overtaker|cause|bill FOLDER SEED RANDOM_RUNS PROGRAM..");
            exit(2);
        }
    }
}
