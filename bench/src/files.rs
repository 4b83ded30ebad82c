//! Sheet files: lines, fields, and the first fault with its place.

use crate::kinds::Kind;

/// A fault: its number, and the sheet, the line and the field that it names.
pub struct Fault {
    pub number: usize,
    pub sheet: usize,
    pub line: usize,
    pub field: usize,
}

/// A statement, the lower item first, both counted from 0.
pub struct Statement {
    pub first: usize,
    pub second: usize,
    /// for each code, whether the statement allows it
    pub allows: Vec<bool>,
    pub weight: u64,
    pub person: usize,
    pub sworn: bool,
}

pub struct Sheet<'k> {
    pub kind: &'k Kind,
    pub items: usize,
    pub by_weight: bool,
    pub statements: Vec<Statement>,
}

/// Reads the sheets of a file in turn; each is handed to `settle` before the next is looked at.
pub fn read<'k>(file: &[u8], kinds: &'k [Kind], mut settle: impl FnMut(usize, &Sheet<'k>)) -> Result<(), Fault> {
    if file.len() > 65536 {
        return Err(Fault { number: 17, sheet: 0, line: 0, field: 0 });
    }
    let lines = lines_of(file);
    let mut sheets = 0;
    let mut at = 0;
    while at < lines.len() {
        // here a head has to stand
        let head = is_head(lines[at]);
        let sheet = if head { sheets + 1 } else { 0 };
        let place = |(number, field)| Fault { number, sheet, line: at + 1, field };
        too_long(lines[at]).map_err(place)?;
        if !head {
            return Err(place((12, 0)));
        }
        let mut filled = read_head(lines[at], kinds).map_err(place)?;
        sheets += 1;
        at += 1;
        while at < lines.len() && !is_head(lines[at]) {
            let place = |(number, field)| Fault { number, sheet: sheets, line: at + 1, field };
            too_long(lines[at]).map_err(place)?;
            let statement = read_statement(lines[at], &filled).map_err(place)?;
            filled.statements.push(statement);
            at += 1;
        }
        settle(sheets, &filled);
    }
    Ok(())
}

/// The lines: each ends at a line feed, and the last may lack it.
fn lines_of(file: &[u8]) -> Vec<&[u8]> {
    let mut lines: Vec<&[u8]> = file.split(|&b| b == b'\n').collect();
    if lines.last().is_some_and(|line| line.is_empty()) {
        lines.pop();
    }
    lines
}

fn is_head(line: &[u8]) -> bool {
    line.first().is_some_and(|b| b.is_ascii_uppercase())
}

/// What is wrong within a line: the number of the fault and the field.
type Wrong = (usize, usize);

fn too_long(line: &[u8]) -> Result<(), Wrong> {
    if line.len() > 80 { Err((17, 0)) } else { Ok(()) }
}

fn read_head<'k>(line: &[u8], kinds: &'k [Kind]) -> Result<Sheet<'k>, Wrong> {
    let fields: Vec<&[u8]> = line.split(|&b| b == b' ').collect();
    if fields.len() != 3 {
        return Err((13, 0));
    }
    let kind = kinds.iter().find(|kind| fields[0] == [kind.letter as u8]).ok_or((16, 1))?;
    let items = number(fields[1]).ok_or((14, 2))?;
    let by_weight = match fields[2] {
        b"w" => true,
        b"r" => false,
        _ => return Err((16, 3)),
    };
    if !(1..=12).contains(&items) {
        return Err((1, 2));
    }
    Ok(Sheet { kind, items, by_weight, statements: Vec::new() })
}

fn read_statement(line: &[u8], sheet: &Sheet) -> Result<Statement, Wrong> {
    let fields: Vec<&[u8]> = line.split(|&b| b == b' ').collect();
    if fields.len() != 5 && fields.len() != 6 {
        return Err((13, 0));
    }
    // the fields from the left
    let first = number(fields[0]).ok_or((14, 1))?;
    let second = number(fields[1]).ok_or((14, 2))?;
    let allows = set(fields[2], sheet.kind).ok_or((15, 3))?;
    let weight = number(fields[3]).ok_or((14, 4))?;
    let person = number(fields[4]).ok_or((14, 5))?;
    let sworn = fields.len() == 6;
    if sworn && fields[5] != b"!" {
        return Err((15, 6));
    }
    // then what they say
    if !(1..=sheet.items).contains(&first) {
        return Err((2, 1));
    }
    if !(1..=sheet.items).contains(&second) {
        return Err((2, 2));
    }
    if first == second {
        return Err((3, 2));
    }
    if !(1..=1000).contains(&weight) {
        return Err((5, 4));
    }
    if !(1..=20).contains(&person) {
        return Err((6, 5));
    }
    if sheet.statements.len() == 256 {
        return Err((7, 0));
    }
    let statement = Statement { first: first - 1, second: second - 1, allows, weight: weight as u64, person, sworn };
    Ok(if first < second { statement } else { turned(statement, sheet.kind) })
}

/// `0`, or one to six digits of which the first is not `0`.
fn number(field: &[u8]) -> Option<usize> {
    let digits = field.iter().all(|b| b.is_ascii_digit());
    if !digits || field.is_empty() || field.len() > 6 || (field[0] == b'0' && field.len() > 1) {
        return None;
    }
    Some(field.iter().fold(0, |n, b| 10 * n + usize::from(b - b'0')))
}

/// The set that a third field names: nothing, or words parted by `/`.
fn set(field: &[u8], kind: &Kind) -> Option<Vec<bool>> {
    let mut allows = vec![false; kind.words.len()];
    if !field.is_empty() {
        for word in field.split(|&b| b == b'/') {
            allows[kind.words.iter().position(|known| known.as_bytes() == word)?] = true;
        }
    }
    Some(allows)
}

/// The same statement with its items exchanged.
fn turned(statement: Statement, kind: &Kind) -> Statement {
    let mut allows = vec![false; kind.words.len()];
    for code in 0..kind.words.len() {
        if statement.allows[code] {
            allows[kind.converse[code]] = true;
        }
    }
    Statement { first: statement.second, second: statement.first, allows, ..statement }
}
