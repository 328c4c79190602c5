//! Literals, cubes and expressions, held as sets of numbers.

use std::collections::BTreeSet;

/// Most cubes in an expression handed in.
pub const MOST_LENT_CUBES: usize = 1_024;

/// A variable's number: the inputs from 0 on, then the divisors.
#[derive(Clone, Copy, Debug, PartialEq, Eq, PartialOrd, Ord, Hash)]
pub struct Variable(pub u8);

/// A literal's number: twice its variable's, and one more if it is negated.
#[derive(Clone, Copy, Debug, PartialEq, Eq, PartialOrd, Ord, Hash)]
pub struct Literal(pub u8);

impl Variable {
    pub fn plain(self) -> Literal {
        Literal(2 * self.0)
    }

    pub fn negated(self) -> Literal {
        Literal(2 * self.0 + 1)
    }
}

impl Literal {
    pub fn variable(self) -> Variable {
        Variable(self.0 / 2)
    }

    pub fn is_negated(self) -> bool {
        self.0 % 2 == 1
    }

    pub fn opposite(self) -> Literal {
        if self.is_negated() {
            self.variable().plain()
        } else {
            self.variable().negated()
        }
    }

    /// `x3` or `x3'`.
    pub fn text(self) -> String {
        let mark = if self.is_negated() { "'" } else { "" };
        format!("x{}{}", self.variable().0, mark)
    }
}

/// A set of literals, kept as its ascending list: the order of the lists is
/// cube order, where the first difference decides and a prefix comes first.
#[derive(Clone, Debug, Default, PartialEq, Eq, PartialOrd, Ord, Hash)]
pub struct Cube(Vec<Literal>);

/// A set of cubes; walking it goes in cube order.
pub type Expression = BTreeSet<Cube>;

impl Cube {
    /// The set of the literals given, in whatever order and however often.
    pub fn of(literals: impl IntoIterator<Item = Literal>) -> Cube {
        let set: BTreeSet<Literal> = literals.into_iter().collect();
        Cube(set.into_iter().collect())
    }

    /// The set that two masks name, whether or not it is a cube.
    pub fn from_masks(plain: u64, negated: u64) -> Cube {
        Cube::of((0..64u8).map(Variable).flat_map(|v| {
            let in_plain = (plain >> v.0) & 1 == 1;
            let in_negated = (negated >> v.0) & 1 == 1;
            let first = in_plain.then(|| v.plain());
            first.into_iter().chain(in_negated.then(|| v.negated()))
        }))
    }

    /// The plain mask and the negated mask.
    pub fn masks(&self) -> (u64, u64) {
        let sum = |negated: bool| {
            let chosen = self.0.iter().filter(|l| l.is_negated() == negated);
            chosen.map(|l| 1u64 << l.variable().0).sum()
        };
        (sum(false), sum(true))
    }

    pub fn literals(&self) -> &[Literal] {
        &self.0
    }

    pub fn size(&self) -> usize {
        self.0.len()
    }

    pub fn has(&self, literal: Literal) -> bool {
        self.0.binary_search(&literal).is_ok()
    }

    /// Some variable stands in it both plain and negated.
    pub fn is_both_ways(&self) -> bool {
        self.0.iter().any(|l| !l.is_negated() && self.has(l.opposite()))
    }

    /// All of its literals are in the other.
    pub fn is_within(&self, other: &Cube) -> bool {
        self.size() <= other.size() && self.0.iter().all(|l| other.has(*l))
    }

    pub fn is_apart_from(&self, other: &Cube) -> bool {
        self.0.iter().all(|l| !other.has(*l))
    }

    /// The literals common to both.
    pub fn meet(&self, other: &Cube) -> Cube {
        Cube(self.0.iter().copied().filter(|l| other.has(*l)).collect())
    }

    /// Its literals that the other has not.
    pub fn less(&self, other: &Cube) -> Cube {
        Cube(self.0.iter().copied().filter(|l| !other.has(*l)).collect())
    }

    pub fn join(&self, other: &Cube) -> Cube {
        Cube::of(self.0.iter().chain(&other.0).copied())
    }

    /// How a variable stands in it, as a row has it: `1` plain, `0` negated, `-` not at all.
    pub fn mark(&self, variable: Variable) -> char {
        match (self.has(variable.plain()), self.has(variable.negated())) {
            (true, _) => '1',
            (_, true) => '0',
            _ => '-',
        }
    }

    /// Its literals with `*` between them, `1` if there are none.
    pub fn text(&self) -> String {
        if self.0.is_empty() {
            return "1".to_string();
        }
        let names: Vec<String> = self.0.iter().map(|l| l.text()).collect();
        names.join("*")
    }
}

/// The sets named by words, two for each; a word that is missing is 0.
pub fn sets_of_words(words: &[u64]) -> Vec<Cube> {
    let two = |w: &[u64]| Cube::from_masks(w[0], w.get(1).copied().unwrap_or(0));
    words.chunks(2).map(two).collect()
}

/// The words of an expression, cube by cube in cube order.
pub fn words_of(expression: &Expression) -> Vec<u64> {
    let masks = expression.iter().map(Cube::masks);
    masks.flat_map(|(plain, negated)| [plain, negated]).collect()
}

/// The expression that the sets make: none if a variable stands both ways in
/// one of them, or if one contains or equals another.
pub fn expression_of(sets: Vec<Cube>) -> Option<Expression> {
    if sets.iter().any(Cube::is_both_ways) {
        return None;
    }
    for (place, cube) in sets.iter().enumerate() {
        let mut others = sets[..place].iter().chain(&sets[place + 1..]);
        if others.any(|other| other.is_within(cube)) {
            return None;
        }
    }
    Some(sets.into_iter().collect())
}

/// Past 1,024 cubes, where a last one that is only begun counts too.
pub fn is_over_long(words: &[u64]) -> bool {
    words.len() > 2 * MOST_LENT_CUBES
}

/// The expression that lent words hold; an odd number of words holds none.
pub fn lent_expression(words: &[u64]) -> Option<Expression> {
    if words.len() % 2 == 1 {
        return None;
    }
    expression_of(sets_of_words(words))
}

/// What is left when a cube goes that another one is strictly within, or that
/// equals an earlier one.
pub fn without_dropped(cubes: impl IntoIterator<Item = Cube>) -> Expression {
    let once: Expression = cubes.into_iter().collect();
    let stays = |c: &&Cube| !once.iter().any(|o| o != *c && o.is_within(c));
    once.iter().filter(stays).cloned().collect()
}
