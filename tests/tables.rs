//! A call of one of the library's functions on sheets, or of the replay: as the program of library_program.txt reads it, and
//! the lines that it should print.

use crate::chance::Chance;
use crate::planner::library::{lend, read_model, rebuild, replayed, write_cuts, write_model, Done};
use crate::planner::Refusal;

/// So many places of each table lie behind those that are lent. They are printed too.
const PAST: usize = 4;

#[derive(Clone, Copy, PartialEq, Eq, PartialOrd, Ord, Debug)]
pub enum Function {
    ReadModel = 1,
    WriteModel,
    Rebuild,
    WriteCuts,
    Replay,
}

impl Function {
    pub fn name(self) -> &'static str {
        match self {
            Function::ReadModel => "read_model",
            Function::WriteModel => "write_model",
            Function::Rebuild => "rebuild",
            Function::WriteCuts => "write_cuts",
            Function::Replay => "replay",
        }
    }

    /// The tables that are given, in the order of the arguments.
    pub fn given(self) -> &'static [&'static str] {
        match self {
            Function::ReadModel => &["sheet"],
            Function::WriteModel => &["frame", "costs", "marks"],
            Function::Rebuild => &["model", "cut sheet"],
            Function::WriteCuts => &["model", "cuts"],
            Function::Replay => &["model", "cut sheet", "log"],
        }
    }

    /// The tables that are lent to be filled; they come after the given ones.
    pub fn lent(self) -> &'static [&'static str] {
        match self {
            Function::ReadModel => &["frame", "costs", "marks"],
            Function::WriteModel | Function::WriteCuts => &["sheet"],
            Function::Rebuild => &["cuts"],
            Function::Replay => &["rows"],
        }
    }

    fn answer(self) -> &'static str {
        match self {
            Function::ReadModel => "held",
            Function::WriteModel | Function::WriteCuts => "sheet",
            Function::Rebuild => "cuts",
            Function::Replay => "rows",
        }
    }
}

/// How many bytes a value of the table takes.
fn width(table: &str) -> usize {
    match table {
        "costs" => 2,
        "cuts" | "log" | "rows" => 4,
        _ => 1,
    }
}

/// Everything that a function is given: numbers, and tables that it does not change.
#[derive(Clone, PartialEq, Eq, Debug)]
pub struct Given {
    pub function: Function,
    pub numbers: Vec<u64>,
    pub tables: Vec<Vec<u32>>,
}

impl Given {
    pub fn new(function: Function, numbers: &[u64], tables: Vec<Vec<u32>>) -> Given {
        Given { function, numbers: numbers.to_vec(), tables }
    }

    pub fn sheets(function: Function, sheets: &[&[u8]]) -> Given {
        Given::new(function, &[], sheets.iter().map(|sheet| numbers_of(sheet)).collect())
    }

    /// What the function should do if it is lent enough places.
    pub fn judged(&self) -> Result<Done, Refusal> {
        let bytes = |table: usize| bytes_of(&self.tables[table]);
        match self.function {
            Function::ReadModel => read_model(&bytes(0)),
            Function::WriteModel => {
                let [frame, costs, marks] = [0, 1, 2].map(|table| &self.tables[table][..]);
                write_model(self.numbers[0], self.numbers[1], frame, costs, marks)
            }
            Function::Rebuild => rebuild(&bytes(0), &bytes(1)),
            Function::WriteCuts => write_cuts(&bytes(0), self.numbers[0], &self.tables[1]),
            Function::Replay => replayed(&bytes(0), &bytes(1), &self.tables[2]),
        }
    }

    /// How many places each lent table needs, if nothing else is refused.
    pub fn needed(&self) -> Option<Vec<usize>> {
        let done = self.judged().ok()?;
        Some(done.values.iter().map(|values| values.len()).collect())
    }
}

pub fn numbers_of(bytes: &[u8]) -> Vec<u32> {
    bytes.iter().map(|byte| u32::from(*byte)).collect()
}

pub fn bytes_of(table: &[u32]) -> Vec<u8> {
    table.iter().map(|value| *value as u8).collect()
}

/// A call, with what its tables hold before it.
#[derive(Clone)]
pub struct Call {
    pub words: String,
    pub given: Given,
    pub lent: Vec<Vec<u32>>,
    /// The places behind each table, given and lent.
    past: Vec<Vec<u32>>,
}

impl Call {
    /// Lent are tables of these lengths. What they hold before the call, and what lies behind them, is drawn.
    pub fn new(chance: &mut Chance, words: &str, given: Given, lengths: &[usize]) -> Call {
        let names = [given.function.given(), given.function.lent()].concat();
        let lent =
            given.function.lent().iter().zip(lengths).map(|(name, length)| drawn(chance, name, *length)).collect();
        let past = names.iter().map(|name| drawn(chance, name, PAST)).collect();
        Call { words: words.to_string(), given, lent, past }
    }

    /// The answer, and what the lent tables hold after it.
    pub fn outcome(&self) -> (Result<Vec<usize>, Refusal>, Vec<Vec<u32>>) {
        let mut after = self.lent.clone();
        let mut tables: Vec<&mut [u32]> = after.iter_mut().map(|table| &mut table[..]).collect();
        let answer = lend(&self.given.judged(), &mut tables);
        (answer, after)
    }

    /// A head of 34 bytes: the function, the length of the words, two numbers and four lengths. Then the words, and
    /// every table with the places behind it.
    pub fn input(&self, words: &str) -> Vec<u8> {
        let function = self.given.function;
        let tables: Vec<&Vec<u32>> = self.given.tables.iter().chain(&self.lent).collect();
        let mut bytes = vec![function as u8, u8::try_from(words.len()).expect("few words")];
        for place in 0..2 {
            bytes.extend(self.given.numbers.get(place).unwrap_or(&0).to_be_bytes());
        }
        for place in 0..4 {
            bytes.extend((tables.get(place).map_or(0, |table| table.len()) as u32).to_be_bytes());
        }
        bytes.extend(words.as_bytes());
        let names = function.given().iter().chain(function.lent());
        for ((name, table), past) in names.zip(tables).zip(&self.past) {
            bytes.extend(table_bytes(name, table));
            bytes.extend(table_bytes(name, past));
        }
        bytes
    }

    /// The words, the answer, and a line for each lent table.
    pub fn lines(&self, words: &str) -> String {
        let (answer, after) = self.outcome();
        let said = match answer {
            Ok(numbers) => numbers.iter().fold(self.given.function.answer().to_string(), |all, n| format!("{all} {n}")),
            Err(refusal) if refusal.number == 14 => format!("stopped {}", refusal.row),
            Err(refusal) => format!("refused {}", refusal.number),
        };
        let mut text = format!("{words}\n{said}\n");
        let names = self.given.function.lent().iter();
        for ((name, table), past) in names.zip(&after).zip(&self.past[self.given.tables.len()..]) {
            text += &format!("{name} {}{}\n", hex(&table_bytes(name, table)), hex(&table_bytes(name, past)));
        }
        text
    }
}

fn drawn(chance: &mut Chance, name: &str, length: usize) -> Vec<u32> {
    let above = 1 << (8 * width(name));
    (0..length).map(|_| (chance.next() % above) as u32).collect()
}

/// Most significant byte first.
fn table_bytes(name: &str, table: &[u32]) -> Vec<u8> {
    assert!(table.iter().all(|value| u64::from(*value) < 1 << (8 * width(name))), "a value without room in its place");
    table.iter().flat_map(|value| value.to_be_bytes()[4 - width(name)..].to_vec()).collect()
}

fn hex(bytes: &[u8]) -> String {
    bytes.iter().map(|byte| format!("{byte:02x}")).collect()
}
