// Models between their text form (docs/MODELS.md) and their sheets (01, "Sheets").
use std::fs;
use std::io::{self, Read, Write};
use std::process::ExitCode;

const COLUMNS: usize = 16;
const POSITIONS: usize = 32;
const STEPS: usize = 128;
const COST: usize = 65535;
const ROOM: usize = 65535;

const USAGE: &str = "\
sheet write MODEL.txt      writes the model sheet of a text
sheet print MODEL.sheet    prints a model sheet as text
sheet room N MODEL.sheet   writes what the program change_sheet reads: room N in 16 bits, then the sheet's bytes as they are
A file '-' is standard input. Exit status: 0 done, 1 a bad text, a refused sheet or a file that failed, 2 bad arguments.";

// A position is a number counted from 0; names are there for the text alone.
struct Column {
    name: String,
    positions: Vec<String>, // empty where the text gives only the size
    size: usize,
    start: usize,
    goal: Option<usize>,
}

#[derive(Clone, Copy, Default)]
struct Change {
    need: Option<usize>,
    effect: Option<usize>,
}

struct Step {
    name: String,
    cost: usize,
    changes: Vec<Change>, // one for each column
}

#[derive(Default)]
struct Model {
    columns: Vec<Column>,
    steps: Vec<Step>,
}

// ---- the text, word by word

#[derive(Clone, PartialEq)]
enum Token {
    Word(String),
    Colon,
    Comma,
    Semicolon,
    Arrow,
}

impl Token {
    fn shown(&self) -> String {
        match self {
            Token::Word(w) => format!("'{w}'"),
            Token::Colon => "':'".into(),
            Token::Comma => "','".into(),
            Token::Semicolon => "';'".into(),
            Token::Arrow => "'->'".into(),
        }
    }
}

fn in_word(c: char) -> bool {
    c.is_alphanumeric() || "_-./%+".contains(c)
}

// A word up to a blank, a sign or an arrow. `-` belongs to words, `->` does not.
fn word_length(text: &str) -> usize {
    let end = text.find(|c| !in_word(c)).unwrap_or(text.len());
    match text.find("->") {
        Some(arrow) if arrow < end => arrow,
        _ => end,
    }
}

fn tokens_of(line: &str) -> Result<Vec<Token>, String> {
    let mut tokens = Vec::new();
    let mut rest = line.split('#').next().unwrap_or("").trim_start();
    while let Some(c) = rest.chars().next() {
        let (token, length) = match c {
            ':' => (Token::Colon, 1),
            ',' => (Token::Comma, 1),
            ';' => (Token::Semicolon, 1),
            _ if rest.starts_with("->") => (Token::Arrow, 2),
            _ if in_word(c) => {
                let length = word_length(rest);
                (Token::Word(rest[..length].into()), length)
            }
            _ => return Err(format!("'{c}' has no meaning here: names have letters, digits and _ - . / % +")),
        };
        tokens.push(token);
        rest = rest[length..].trim_start();
    }
    Ok(tokens)
}

fn is_number(word: &str) -> bool {
    !word.is_empty() && word.bytes().all(|b| b.is_ascii_digit())
}

// The number of a word of digits; one with too many digits is larger than any limit.
fn number_of(word: &str) -> usize {
    word.parse().unwrap_or(usize::MAX)
}

// What is left of a line.
struct Line {
    tokens: std::vec::IntoIter<Token>,
}

impl Line {
    fn is_empty(&self) -> bool {
        self.tokens.as_slice().is_empty()
    }

    fn next_is(&self, token: &Token) -> bool {
        self.tokens.as_slice().first() == Some(token)
    }

    fn next_is_word(&self) -> bool {
        matches!(self.tokens.as_slice().first(), Some(Token::Word(_)))
    }

    // Goes past the token if it is next.
    fn passes(&mut self, token: &Token) -> bool {
        self.next_is(token) && self.tokens.next().is_some()
    }

    fn unexpected(&self, expected: &str) -> String {
        let found = self.tokens.as_slice().first().map_or("the end of the line".into(), Token::shown);
        format!("expected {expected}, found {found}")
    }

    fn word(&mut self, expected: &str) -> Result<String, String> {
        let Some(Token::Word(word)) = self.tokens.as_slice().first().cloned() else {
            return Err(self.unexpected(expected));
        };
        self.tokens.next();
        Ok(word)
    }

    fn name(&mut self, expected: &str) -> Result<String, String> {
        let word = self.word(expected)?;
        if !word.chars().any(char::is_alphabetic) {
            return Err(format!("expected {expected}, found '{word}': a name has at least one letter"));
        }
        Ok(word)
    }

    fn number(&mut self, what: &str, least: usize, most: usize, unit: &str) -> Result<usize, String> {
        let expected = format!("{least} to {most}{unit}");
        let word = self.word(&format!("{what}, {expected}"))?;
        if !is_number(&word) || number_of(&word) < least || most < number_of(&word) {
            return Err(format!("{what} '{word}': expected {expected}"));
        }
        Ok(number_of(&word))
    }

    fn sign(&mut self, token: Token) -> Result<(), String> {
        if self.passes(&token) {
            return Ok(());
        }
        Err(self.unexpected(&token.shown()))
    }

    fn end(&self, expected: &str) -> Result<(), String> {
        if self.is_empty() {
            return Ok(());
        }
        Err(self.unexpected(&format!("{expected} or the end of the line")))
    }
}

// ---- the text, line by line

// The positions of a column: their names, or only how many there are.
fn read_positions(line: &mut Line) -> Result<(Vec<String>, usize), String> {
    let first = line.name("a position's name or 'size'")?;
    if first == "size" && line.next_is_word() {
        return Ok((Vec::new(), line.number("size", 1, POSITIONS, "")?));
    }
    let mut names = vec![first];
    while line.passes(&Token::Comma) {
        let name = line.name("a position's name")?;
        if names.contains(&name) {
            return Err(format!("two positions '{name}' in one column"));
        }
        names.push(name);
    }
    let size = names.len();
    if POSITIONS < size {
        return Err(format!("{size} positions: a column has 1 to {POSITIONS}"));
    }
    Ok((names, size))
}

// A position by its name or by its number.
fn read_position(line: &mut Line, column: &Column) -> Result<usize, String> {
    let known = if column.positions.is_empty() {
        format!("a number from 0 to {}", column.size - 1)
    } else {
        format!("{} or a number from 0 to {}", column.positions.join(", "), column.size - 1)
    };
    let word = line.word(&format!("a position of column {}: {known}", column.name))?;
    let found = if is_number(&word) {
        Some(number_of(&word)).filter(|&p| p < column.size)
    } else {
        column.positions.iter().position(|p| *p == word)
    };
    found.ok_or_else(|| format!("column {} has no position '{word}': expected {known}", column.name))
}

// column NAME: POSITION, POSITION; start POSITION; goal POSITION
fn read_column(line: &mut Line, columns: &[Column]) -> Result<Column, String> {
    let name = line.name("a column's name")?;
    if columns.iter().any(|c| c.name == name) {
        return Err(format!("two columns '{name}'"));
    }
    if columns.len() == COLUMNS {
        return Err(format!("column '{name}' is one too many: a model has 1 to {COLUMNS} columns"));
    }
    line.sign(Token::Colon)?;
    let (positions, size) = read_positions(line)?;
    let mut column = Column { name, positions, size, start: 0, goal: None };
    let (mut start, mut goal) = (None, None);
    while line.passes(&Token::Semicolon) {
        let word = line.word("'start' or 'goal'")?;
        let place = match word.as_str() {
            "start" => &mut start,
            "goal" => &mut goal,
            _ => return Err(format!("expected 'start' or 'goal', found '{word}'")),
        };
        if place.is_some() {
            return Err(format!("two {word}s of column {}", column.name));
        }
        *place = Some(read_position(line, &column)?);
    }
    line.end("';'")?;
    column.start = start.ok_or(format!("no start of column {}: expected '; start POSITION'", column.name))?;
    column.goal = goal;
    Ok(column)
}

// COLUMN NEED, COLUMN NEED -> EFFECT or COLUMN -> EFFECT
fn read_change(line: &mut Line, columns: &[Column], changes: &mut [Change]) -> Result<(), String> {
    let names = || columns.iter().map(|c| c.name.as_str()).collect::<Vec<_>>().join(", ");
    let word = line.word("a column's name")?;
    let Some(j) = columns.iter().position(|c| c.name == word) else {
        return Err(format!("no column '{word}': expected {}", names()));
    };
    if changes[j].need.is_some() || changes[j].effect.is_some() {
        return Err(format!("column {word} stands twice in one step"));
    }
    if !line.next_is_word() && !line.next_is(&Token::Arrow) {
        return Err(line.unexpected(&format!("a position of column {word} or '->'")));
    }
    if line.next_is_word() {
        changes[j].need = Some(read_position(line, &columns[j])?);
    }
    if line.passes(&Token::Arrow) {
        changes[j].effect = Some(read_position(line, &columns[j])?);
    }
    Ok(())
}

// step NAME COST: CHANGE, CHANGE
fn read_step(line: &mut Line, model: &Model) -> Result<Step, String> {
    let name = line.name("a step's name")?;
    if model.steps.iter().any(|s| s.name == name) {
        return Err(format!("two steps '{name}'"));
    }
    if model.steps.len() == STEPS {
        return Err(format!("step '{name}' is one too many: a model has 0 to {STEPS} steps"));
    }
    let cost = line.number("cost", 0, COST, " tenths of a minute")?;
    line.sign(Token::Colon)?;
    let mut changes = vec![Change::default(); model.columns.len()];
    // a step may need and change nothing
    if !line.is_empty() {
        read_change(line, &model.columns, &mut changes)?;
        while line.passes(&Token::Comma) {
            read_change(line, &model.columns, &mut changes)?;
        }
    }
    line.end("','")?;
    Ok(Step { name, cost, changes })
}

fn read_line(text: &str, model: &mut Model) -> Result<(), String> {
    let mut line = Line { tokens: tokens_of(text)?.into_iter() };
    if line.is_empty() {
        return Ok(());
    }
    let word = line.word("'column' or 'step'")?;
    match word.as_str() {
        // a step has a change for each column, so all of them have to be known
        "column" if !model.steps.is_empty() => return Err("a column after a step: columns come first".into()),
        "column" => model.columns.push(read_column(&mut line, &model.columns)?),
        "step" => model.steps.push(read_step(&mut line, model)?),
        _ => return Err(format!("expected 'column' or 'step', found '{word}'")),
    }
    Ok(())
}

// The model of a text, or the line that is bad and what is wrong with it.
fn read_text(text: &str) -> Result<Model, (usize, String)> {
    let mut model = Model::default();
    let mut last = 1;
    // some editors put a mark of their own before the first character
    for (i, line) in text.trim_start_matches('\u{feff}').lines().enumerate() {
        last = i + 1;
        read_line(line, &mut model).map_err(|words| (last, words))?;
    }
    if model.columns.is_empty() {
        return Err((last, format!("no column: a model has 1 to {COLUMNS}")));
    }
    Ok(model)
}

// ---- the sheet

// Fields one after another, most significant bit first.
#[derive(Default)]
struct Writer {
    bytes: Vec<u8>,
    used: usize,
}

impl Writer {
    fn put(&mut self, width: usize, value: usize) {
        for k in (0..width).rev() {
            if self.used % 8 == 0 {
                self.bytes.push(0);
            }
            self.bytes[self.used / 8] |= ((value >> k & 1) as u8) << (7 - self.used % 8);
            self.used += 1;
        }
    }

    // 0 for none, else the position plus 1.
    fn put_mark(&mut self, position: Option<usize>) {
        self.put(6, position.map_or(0, |p| p + 1));
    }
}

fn write_sheet(model: &Model) -> Vec<u8> {
    let mut to = Writer::default();
    to.put(4, 1);
    to.put(5, model.columns.len());
    to.put(8, model.steps.len());
    for column in &model.columns {
        to.put(6, column.size);
        to.put(5, column.start);
        to.put_mark(column.goal);
    }
    for step in &model.steps {
        to.put(16, step.cost);
        for change in &step.changes {
            to.put_mark(change.need);
            to.put_mark(change.effect);
        }
    }
    to.bytes
}

// A refusal number of 01, and what in this sheet it is given for.
type Refusal = (u8, String);

struct Reader<'a> {
    bytes: &'a [u8],
    used: usize,
}

impl Reader<'_> {
    fn field(&mut self, width: usize, what: &str) -> Result<usize, Refusal> {
        let end = self.used + width;
        if 8 * self.bytes.len() < end {
            return Err((1, format!("the bytes end before {what} is complete")));
        }
        let bit = |at: usize| (self.bytes[at / 8] >> (7 - at % 8) & 1) as usize;
        let value = (self.used..end).fold(0, |value, at| 2 * value + bit(at));
        self.used = end;
        Ok(value)
    }

    fn mark(&mut self, size: usize, what: &str) -> Result<Option<usize>, Refusal> {
        let mark = self.field(6, what)?;
        if size < mark {
            return Err((5, format!("{what} is {mark}, above its size {size}")));
        }
        Ok(mark.checked_sub(1))
    }

    fn column(&mut self, j: usize) -> Result<Column, Refusal> {
        let size = self.field(6, &format!("the size of column {j}"))?;
        if size < 1 || POSITIONS < size {
            return Err((4, format!("the size of column {j} is {size}, not 1 to {POSITIONS}")));
        }
        let start = self.field(5, &format!("the start of column {j}"))?;
        if size <= start {
            return Err((5, format!("the start of column {j} is {start}, not below its size {size}")));
        }
        let goal = self.mark(size, &format!("the goal mark of column {j}"))?;
        Ok(Column { name: format!("c{j}"), positions: Vec::new(), size, start, goal })
    }

    fn step(&mut self, s: usize, columns: &[Column]) -> Result<Step, Refusal> {
        let cost = self.field(16, &format!("the cost of step {s}"))?;
        let mut changes = Vec::new();
        for (j, column) in columns.iter().enumerate() {
            let need = self.mark(column.size, &format!("the need mark of step {s} for column {j}"))?;
            let effect = self.mark(column.size, &format!("the effect mark of step {s} for column {j}"))?;
            changes.push(Change { need, effect });
        }
        Ok(Step { name: format!("s{s}"), cost, changes })
    }

    fn end(&mut self) -> Result<(), Refusal> {
        let fill = (8 - self.used % 8) % 8;
        if self.field(fill, "the fill")? != 0 {
            return Err((6, "a fill bit is 1".into()));
        }
        match self.bytes.len() - self.used / 8 {
            0 => Ok(()),
            1 => Err((6, "a byte follows the sheet".into())),
            more => Err((6, format!("{more} bytes follow the sheet"))),
        }
    }
}

// Judged in 01's order, each field as soon as it is complete.
fn read_sheet(bytes: &[u8]) -> Result<Model, Refusal> {
    let mut from = Reader { bytes, used: 0 };
    let form = from.field(4, "the form")?;
    if form != 1 {
        return Err((2, format!("the form value is {form}, not 1")));
    }
    let columns = from.field(5, "the number of columns")?;
    if columns < 1 || COLUMNS < columns {
        return Err((3, format!("{columns} columns, not 1 to {COLUMNS}")));
    }
    let steps = from.field(8, "the number of steps")?;
    if STEPS < steps {
        return Err((3, format!("{steps} steps, above {STEPS}")));
    }
    let mut model = Model::default();
    for j in 0..columns {
        model.columns.push(from.column(j)?);
    }
    for s in 0..steps {
        model.steps.push(from.step(s, &model.columns)?);
    }
    from.end()?;
    Ok(model)
}

// ---- a sheet as text: it has no names, so columns are called c0, c1, .. and steps s0, s1, ..

fn change_text(column: &Column, change: Change) -> Option<String> {
    match (change.need, change.effect) {
        (None, None) => None,
        (Some(need), None) => Some(format!("{} {need}", column.name)),
        (None, Some(effect)) => Some(format!("{} -> {effect}", column.name)),
        (Some(need), Some(effect)) => Some(format!("{} {need} -> {effect}", column.name)),
    }
}

fn step_text(step: &Step, columns: &[Column]) -> String {
    let changes: Vec<_> = columns.iter().zip(&step.changes).filter_map(|(c, change)| change_text(c, *change)).collect();
    format!("step {} {}: {}", step.name, step.cost, changes.join(", ")).trim_end().into()
}

fn column_text(column: &Column) -> String {
    let goal = column.goal.map_or(String::new(), |p| format!("; goal {p}"));
    format!("column {}: size {}; start {}{goal}", column.name, column.size, column.start)
}

fn model_text(model: &Model) -> String {
    let columns = model.columns.iter().map(column_text);
    let steps = model.steps.iter().map(|s| step_text(s, &model.columns));
    columns.chain(steps).map(|line| line + "\n").collect()
}

// ---- the commands

fn read_file(name: &str) -> Result<Vec<u8>, String> {
    let mut bytes = Vec::new();
    let read = match name {
        "-" => io::stdin().read_to_end(&mut bytes).map(|_| bytes),
        _ => fs::read(name),
    };
    read.map_err(|e| format!("{name}: cannot be read: {e}"))
}

fn write(name: &str) -> Result<Vec<u8>, String> {
    let text = String::from_utf8(read_file(name)?).map_err(|_| format!("{name}: not a text in UTF-8"))?;
    let model = read_text(&text).map_err(|(line, words)| format!("{name}:{line}: {words}"))?;
    Ok(write_sheet(&model))
}

fn print(name: &str) -> Result<Vec<u8>, String> {
    let model = read_sheet(&read_file(name)?).map_err(|(number, words)| format!("{name}: refused {number}: {words}"))?;
    Ok(model_text(&model).into_bytes())
}

// The sheet is not judged here: the program is to judge it.
fn with_room(room: &str, name: &str) -> Result<Vec<u8>, String> {
    if !is_number(room) || ROOM < number_of(room) {
        return Err(format!("room '{room}': expected 0 to {ROOM}, which 16 bits can hold"));
    }
    Ok([&(number_of(room) as u16).to_be_bytes()[..], &read_file(name)?].concat())
}

// Words on standard error, with an exit status. Where nobody reads them any more there is nothing left to say.
fn ended(status: u8, words: &str) -> ExitCode {
    let _ = io::stderr().write_all(format!("{words}\n").as_bytes());
    ExitCode::from(status)
}

fn main() -> ExitCode {
    let args: Vec<String> = std::env::args().skip(1).collect();
    let words: Vec<&str> = args.iter().map(String::as_str).collect();
    let made = match words[..] {
        ["write", name] => write(name),
        ["print", name] => print(name),
        ["room", room, name] => with_room(room, name),
        _ => return ended(2, USAGE),
    };
    let done = made.and_then(|bytes| io::stdout().write_all(&bytes).map_err(|e| format!("cannot write: {e}")));
    match done {
        Ok(()) => ExitCode::SUCCESS,
        Err(words) => ended(1, &words),
    }
}
