//! Runs the program that prints a change sheet, and holds its whole output to the paper's lines.
//!
//!     program PATH [SEED] [RUNS]

#![allow(dead_code)] // the modules are shared with the other tests

mod call;
mod chance;
mod damage;
mod examples;
mod lent;
mod making;
mod planner;
mod replaying;
mod shapes;

use chance::Chance;
use planner::entries::row_values;
use planner::run::{run, Answer, Run};
use planner::sheet::{read_sheet, write_sheet};
use planner::task::Model;
use std::io::Write;
use std::process::{Command, Stdio};

fn main() {
    let words: Vec<String> = std::env::args().skip(1).collect();
    let path = words.first().expect("program PATH [SEED] [RUNS]");
    let number = |place: usize, usual: u64| words.get(place).map_or(usual, |word| word.parse().expect("a number"));
    let (seed, runs) = (number(1, 1), number(2, 400));
    if runs == 0 {
        println!("program: no runs by seed: nothing is compared");
        std::process::exit(1);
    }
    let mut inputs = fixed_inputs();
    inputs.extend((0..runs).map(|run| any_input(&mut Chance::new(seed, run))));
    for (number, input) in inputs.iter().enumerate() {
        if let Err(words) = compare(path, input, number % 10 == 0) {
            let shown = &input[..input.len().min(5000)];
            let hex: String = shown.iter().map(|byte| format!("{byte:02x}")).collect();
            println!("program: seed {seed}, run {number}\n{words}\ninput ({} bytes) {hex}", input.len());
            std::process::exit(1);
        }
    }
    println!("program: {} runs, 0 differences", inputs.len());
}

fn compare(path: &str, input: &[u8], in_parts: bool) -> Result<(), String> {
    let wanted = lines(input);
    let (printed, ended) = printed(path, input, in_parts);
    if !ended {
        return Err("the program did not end by itself".to_string());
    }
    if printed == wanted.as_bytes() {
        return Ok(());
    }
    Err(format!("printed:\n{}expected:\n{wanted}", String::from_utf8_lossy(&printed)))
}

/// What the program writes, and whether it ended by itself.
fn printed(path: &str, input: &[u8], in_parts: bool) -> (Vec<u8>, bool) {
    let mut child =
        Command::new(path).stdin(Stdio::piped()).stdout(Stdio::piped()).spawn().expect("the program can be started");
    let mut pipe = child.stdin.take().unwrap();
    let input = input.to_vec();
    // a thread of its own: a program that answers before it has read all must not stop the test
    let feeder = std::thread::spawn(move || feed(&mut pipe, &input, in_parts));
    let output = child.wait_with_output().expect("the program's output");
    feeder.join().unwrap();
    (output.stdout, output.status.code().is_some())
}

/// A pipe may bring its bytes in parts; a pipe closed early is the program's own affair.
fn feed(pipe: &mut impl Write, input: &[u8], in_parts: bool) {
    let part = if in_parts { (input.len() / 3).max(1) } else { input.len().max(1) };
    for bytes in input.chunks(part) {
        if pipe.write_all(bytes).and_then(|()| pipe.flush()).is_err() {
            return;
        }
        if in_parts {
            std::thread::sleep(std::time::Duration::from_millis(2));
        }
    }
}

/// The paper's lines: the sheet is judged before the room.
fn lines(input: &[u8]) -> String {
    if input.len() < 2 {
        return "refused 1\n".to_string();
    }
    let room = u64::from(input[0]) * 256 + u64::from(input[1]);
    match read_sheet(&input[2..]) {
        Err(refusal) => format!("refused {}\n", refusal.number),
        Ok(_) if !(1..=256).contains(&room) => "refused 7\n".to_string(),
        Ok(model) => run_lines(&model, &run(&model, room)),
    }
}

fn run_lines(model: &Model, run: &Run) -> String {
    let blocks = run.cuts.len() + 1;
    match &run.answer {
        Answer::NoPlan => format!("no plan blocks {blocks}\n"),
        Answer::Open { estimate } => format!("open {estimate} blocks {blocks}\n"),
        Answer::Plan { cost, steps } => {
            let mut text = format!("plan {cost} steps {} blocks {blocks}\n", steps.len());
            for (row, values) in row_values(model, run).chunks(3).enumerate() {
                text += &format!("{} {} {} {}\n", row + 1, values[0], values[1], values[2]);
            }
            text
        }
    }
}

fn input(room: u16, sheet: &[u8]) -> Vec<u8> {
    [&room.to_be_bytes()[..], sheet].concat()
}

/// The paper's own, the shortest, the longest.
fn fixed_inputs() -> Vec<Vec<u8>> {
    let sheet = write_sheet(&examples::small_rethread());
    assert_eq!(lines(&input(5, &sheet)), "plan 100 steps 3 blocks 5\n1 2 30 70\n2 0 20 50\n3 3 50 0\n");
    let mut list: Vec<Vec<u8>> =
        [5, 4, 3, 2, 1, 0, 6, 255, 256, 257, 512, 65_535].map(|room| input(room, &sheet)).to_vec();
    list.extend([vec![], vec![0], vec![5], vec![255], vec![0, 5], vec![0, 0], vec![255, 255], vec![0, 5, 0x10]]);
    let chain = write_sheet(&examples::chain(32, 8));
    list.extend([input(256, &chain), input(255, &chain), input(0, &chain)]);
    let mut without_tape = examples::small_rethread();
    without_tape.steps.remove(2);
    list.extend([4, 5, 6].map(|room| input(room, &write_sheet(&without_tape))));
    list.extend((0..sheet.len()).map(|length| input(257, &sheet[..length])));
    let largest = write_sheet(&shapes::full_size(&mut Chance::new(1, 1)));
    assert_eq!(largest.len(), 3365);
    for more in [0, 1, 2, 3, 731, 4096, 62_171, 65_536, 1_000_000] {
        let long = |sheet: &[u8], room| [input(room, sheet), vec![0; more]].concat();
        list.extend([long(&largest, 3), long(&sheet, 5), long(&sheet, 0), long(&[0x20], 5), long(&sheet[..9], 5)]);
    }
    list
}

fn any_input(chance: &mut Chance) -> Vec<u8> {
    let call::Call::Run { sheet, room, .. } = making::any_run(chance) else { unreachable!() };
    let mut input = input(room as u16, &sheet.content);
    if chance.percent(3) {
        let length = chance.below(4);
        input.truncate(length);
    }
    input
}
