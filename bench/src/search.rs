//! Costs, and the search by the step rule: each step looks at every prefix anew.

use crate::files::{Sheet, Statement};

/// A sworn count and a weight, compared in this order; by weight the sworn count is always 0.
#[derive(Clone, Copy, PartialEq, PartialOrd)]
pub struct Cost {
    pub sworn: u64,
    pub weight: u64,
}

pub const NOTHING: Cost = Cost { sworn: 0, weight: 0 };

impl Cost {
    pub fn join(self, other: Cost) -> Cost {
        Cost { sworn: self.sworn + other.sworn, weight: self.weight + other.weight }
    }
}

pub fn penalty(sheet: &Sheet, statement: &Statement) -> Cost {
    if statement.sworn && !sheet.by_weight {
        Cost { sworn: 1, weight: 0 }
    } else {
        Cost { sworn: 0, weight: statement.weight }
    }
}

/// The pairs of items in their order: (1,2), (1,3), (2,3), (1,4) and so on.
fn pairs_of(items: usize) -> Vec<(usize, usize)> {
    (0..items).flat_map(|j| (0..j).map(move |i| (i, j))).collect()
}

/// The place of the pair of items i < j.
pub fn place(i: usize, j: usize) -> usize {
    j * (j - 1) / 2 + i
}

pub struct Search<'s> {
    sheet: &'s Sheet<'s>,
    pairs: Vec<(usize, usize)>,
    /// the statements of each pair
    by_pair: Vec<Vec<&'s Statement>>,
    /// the lower bounds of the pairs from each place on, joined
    bounds_from: Vec<Cost>,
    /// the code of each pair in the scenario that is the incumbent
    pub incumbent: Vec<usize>,
    /// the scenario at the cursor, if the cursor has not passed the last one
    cursor: Option<Vec<usize>>,
}

impl<'s> Search<'s> {
    /// The opening: the scenario of all zeros is the incumbent, and the cursor stands at the next.
    pub fn new(sheet: &'s Sheet<'s>) -> Search<'s> {
        let pairs = pairs_of(sheet.items);
        let by_pair: Vec<Vec<&Statement>> = pairs
            .iter()
            .map(|&(i, j)| sheet.statements.iter().filter(|s| (s.first, s.second) == (i, j)).collect())
            .collect();
        let zeros = vec![0; pairs.len()];
        let mut search =
            Search { sheet, pairs, by_pair, bounds_from: vec![NOTHING], incumbent: zeros.clone(), cursor: Some(zeros) };
        for p in (0..search.pairs.len()).rev() {
            let bound = search.bound(p).join(search.bounds_from[0]);
            search.bounds_from.insert(0, bound);
        }
        search.pass(search.pairs.len());
        search
    }

    /// What pair p costs with a code.
    fn pair_cost(&self, p: usize, code: usize) -> Cost {
        let broken = self.by_pair[p].iter().filter(|s| !s.allows[code]);
        broken.fold(NOTHING, |cost, s| cost.join(penalty(self.sheet, s)))
    }

    /// The least that pair p costs with any code.
    fn bound(&self, p: usize) -> Cost {
        let costs = (0..self.sheet.kind.words.len()).map(|code| self.pair_cost(p, code));
        costs.reduce(|a, b| if b < a { b } else { a }).unwrap()
    }

    /// The lower bound of the whole sheet.
    pub fn floor(&self) -> Cost {
        self.bounds_from[0]
    }

    pub fn finished(&self) -> bool {
        self.cursor.is_none()
    }

    /// What the incumbent costs.
    pub fn cost(&self) -> Cost {
        (0..self.pairs.len()).fold(NOTHING, |cost, p| cost.join(self.pair_cost(p, self.incumbent[p])))
    }

    /// What the incumbent costs person p.
    pub fn charge(&self, person: usize) -> Cost {
        let broken = |s: &&Statement| s.person == person && !s.allows[self.incumbent[place(s.first, s.second)]];
        self.sheet.statements.iter().filter(broken).fold(NOTHING, |cost, s| cost.join(penalty(self.sheet, s)))
    }

    /// Up to so many steps, fewer only if the search finishes.
    pub fn run(&mut self, steps: usize) {
        for _ in 0..steps {
            if self.cursor.is_none() {
                return;
            }
            self.step();
        }
    }

    /// One step, of a search that is not finished.
    fn step(&mut self) {
        match self.shortest_refuted() {
            Some(length) => self.pass(length),
            None => {
                self.incumbent = self.cursor.clone().unwrap();
                self.pass(self.pairs.len());
            }
        }
    }

    /// The length of the shortest prefix of the scenario at the cursor that is refuted.
    fn shortest_refuted(&self) -> Option<usize> {
        let scenario = self.cursor.as_ref().unwrap();
        let limit = self.cost();
        let mut cost = NOTHING;
        for length in 0..=self.pairs.len() {
            if length > 0 {
                cost = cost.join(self.pair_cost(length - 1, scenario[length - 1]));
                if self.closes_no_fit(scenario, length - 1) {
                    return Some(length);
                }
            }
            if cost.join(self.bounds_from[length]) >= limit {
                return Some(length);
            }
        }
        None
    }

    /// Whether some triple whose last pair is p does not fit.
    fn closes_no_fit(&self, scenario: &[usize], p: usize) -> bool {
        let (j, k) = self.pairs[p];
        (0..j).any(|i| !self.sheet.kind.fits(scenario[place(i, j)], scenario[p], scenario[place(i, k)]))
    }

    /// Moves the cursor past all scenarios that share its first codes, so many.
    fn pass(&mut self, length: usize) {
        let mut scenario = self.cursor.take().unwrap();
        for p in (0..scenario.len()).rev() {
            if p < length && scenario[p] + 1 < self.sheet.kind.words.len() {
                scenario[p] += 1;
                self.cursor = Some(scenario);
                return;
            }
            scenario[p] = 0;
        }
    }
}
