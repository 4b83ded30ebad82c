//! What is printed of a settled sheet.

use crate::files::Sheet;
use crate::search::{place, Cost, Search, NOTHING};
use std::fmt::Write;

/// The sheet's line, a line for each item, and one for each person who is charged more than nothing.
pub fn report(number: usize, sheet: &Sheet, search: &Search) -> String {
    let mut text = String::new();
    let tally = if sheet.by_weight { 'w' } else { 'r' };
    let end = if search.finished() { "final" } else { "open" };
    let cost = |c: Cost| if sheet.by_weight { c.weight.to_string() } else { format!("{}/{}", c.sworn, c.weight) };
    let (letter, items) = (sheet.kind.letter, sheet.items);
    let (spent, floor) = (cost(search.cost()), cost(search.floor()));
    writeln!(text, "sheet {number} {letter} {items} {tally} cost {spent} floor {floor} {end}").unwrap();
    for item in 0..items {
        write!(text, "item {}", item + 1).unwrap();
        for rank in value(sheet, &search.incumbent, item) {
            write!(text, " {rank}").unwrap();
        }
        text.push('\n');
    }
    for person in 1..=20 {
        let charge = search.charge(person);
        if charge != NOTHING {
            writeln!(text, "person {person} charge {}", cost(charge)).unwrap();
        }
    }
    text
}

/// The numbers of an item's value: of each mark, how many marks of all items lie strictly before it on its line.
fn value(sheet: &Sheet, scenario: &[usize], item: usize) -> Vec<usize> {
    let marks = sheet.kind.example[0].0.len();
    let rank = |mark: usize| {
        let all = (0..sheet.items).flat_map(|other| (0..marks).map(move |its| (other, its)));
        all.filter(|&(other, its)| before(sheet, scenario, (other, its), (item, mark))).count()
    };
    (0..marks).map(rank).collect()
}

/// Whether one item's mark lies strictly before another's, as in the example of the code between them.
fn before(sheet: &Sheet, scenario: &[usize], (i, x): (usize, usize), (j, y): (usize, usize)) -> bool {
    if !sheet.kind.same_line(x, y) {
        return false;
    }
    if i < j {
        let (u, v) = &sheet.kind.example[scenario[place(i, j)]];
        u[x] < v[y]
    } else if j < i {
        let (v, u) = &sheet.kind.example[scenario[place(j, i)]];
        u[x] < v[y]
    } else {
        // a start lies before its own end
        x < y
    }
}
