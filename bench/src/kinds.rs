//! The three kinds: their relations by clauses on values, and what follows from them by trying all small values.

/// A moment is one number, a spell its start and its end, a dwelling its east and its north number.
pub type Value = Vec<u32>;

#[derive(Clone, Copy, PartialEq)]
pub enum Sort {
    Moments,
    Spells,
    Dwellings,
}

pub struct Kind {
    pub sort: Sort,
    pub letter: char,
    /// the relation words, in the order of their codes
    pub words: &'static [&'static str],
    pub converse: Vec<usize>,
    /// for each code, two values between which it holds
    pub example: Vec<(Value, Value)>,
    fitting: Vec<bool>,
}

const MOMENT_WORDS: &[&str] = &["=", "<", ">"];
const SPELL_WORDS: &[&str] = &["eq", "p", "pi", "m", "mi", "o", "oi", "s", "si", "d", "di", "f", "fi"];
const DWELLING_WORDS: &[&str] = &["eq", "n", "ne", "e", "se", "s", "sw", "w", "nw"];

impl Kind {
    pub fn new(sort: Sort) -> Kind {
        let (letter, words) = match sort {
            Sort::Moments => ('M', MOMENT_WORDS),
            Sort::Spells => ('S', SPELL_WORDS),
            Sort::Dwellings => ('D', DWELLING_WORDS),
        };
        let values = small_values(sort);
        let n = words.len();
        // the code from each small value to each
        let code: Vec<Vec<usize>> =
            values.iter().map(|u| values.iter().map(|v| relation(sort, words, u, v)).collect()).collect();
        let mut converse = vec![usize::MAX; n];
        let mut example = vec![(Vec::new(), Vec::new()); n];
        let mut fitting = vec![false; n * n * n];
        for u in 0..values.len() {
            for v in 0..values.len() {
                let c = code[u][v];
                assert!(converse[c] == usize::MAX || converse[c] == code[v][u], "a code with two converses");
                converse[c] = code[v][u];
                example[c] = (values[u].clone(), values[v].clone());
                for w in 0..values.len() {
                    fitting[(c * n + code[v][w]) * n + code[u][w]] = true;
                }
            }
        }
        assert!(!converse.contains(&usize::MAX), "a code that never holds");
        Kind { sort, letter, words, converse, example, fitting }
    }

    /// Whether values exist with c from the first to the second, d from the second to the third, e from the first to the third.
    pub fn fits(&self, c: usize, d: usize, e: usize) -> bool {
        let n = self.words.len();
        self.fitting[(c * n + d) * n + e]
    }

    /// Whether numbers x and y of a value lie on the same line.
    pub fn same_line(&self, x: usize, y: usize) -> bool {
        self.sort == Sort::Spells || x == y
    }
}

/// All values that three items can need: as many places on a line as three items have marks there.
fn small_values(sort: Sort) -> Vec<Value> {
    let mut values = Vec::new();
    match sort {
        Sort::Moments => (0..3).for_each(|x| values.push(vec![x])),
        Sort::Spells => (0..6).for_each(|start| (start + 1..6).for_each(|end| values.push(vec![start, end]))),
        Sort::Dwellings => (0..3).for_each(|east| (0..3).for_each(|north| values.push(vec![east, north]))),
    }
    values
}

/// The code of the one relation that holds from u to v.
fn relation(sort: Sort, words: &[&str], u: &Value, v: &Value) -> usize {
    let holding: Vec<usize> = (0..words.len()).filter(|&c| holds(sort, words[c], u, v)).collect();
    assert!(holding.len() == 1, "not exactly one relation holds");
    holding[0]
}

fn holds(sort: Sort, word: &str, u: &Value, v: &Value) -> bool {
    match sort {
        Sort::Moments => match word {
            "=" => u[0] == v[0],
            "<" => u[0] < v[0],
            ">" => v[0] < u[0],
            _ => unreachable!(),
        },
        Sort::Spells => {
            let (us, ue, vs, ve) = (u[0], u[1], v[0], v[1]);
            match word {
                "eq" => us == vs && ue == ve,
                "p" => ue < vs,
                "pi" => ve < us,
                "m" => ue == vs,
                "mi" => ve == us,
                "o" => us < vs && vs < ue && ue < ve,
                "oi" => vs < us && us < ve && ve < ue,
                "s" => us == vs && ue < ve,
                "si" => us == vs && ve < ue,
                "d" => vs < us && ue < ve,
                "di" => us < vs && ve < ue,
                "f" => vs < us && ue == ve,
                "fi" => us < vs && ue == ve,
                _ => unreachable!(),
            }
        }
        Sort::Dwellings => {
            let (east, north) = (u[0].cmp(&v[0]), u[1].cmp(&v[1]));
            use std::cmp::Ordering::{Equal, Greater, Less};
            match word {
                "eq" => east == Equal && north == Equal,
                "n" => east == Equal && north == Greater,
                "ne" => east == Greater && north == Greater,
                "e" => east == Greater && north == Equal,
                "se" => east == Greater && north == Less,
                "s" => east == Equal && north == Less,
                "sw" => east == Less && north == Less,
                "w" => east == Less && north == Equal,
                "nw" => east == Less && north == Greater,
                _ => unreachable!(),
            }
        }
    }
}
