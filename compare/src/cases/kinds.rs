//! Cases by kind and by number.

use crate::cases::draw::Draw;
use crate::definition::values::Definition;
use std::collections::HashSet;

/// How a case was made, in plain words, and the bytes that a program is given.
pub type Made = (String, Vec<u8>);

/// Makes the case of a number within its kind.
type Make = Box<dyn Fn(&Definition, &mut Draw, u64) -> Made + Send + Sync>;

/// Cases that were made to try the same.
pub struct Kind {
    /// What they try.
    pub name: &'static str,
    /// How many there are.
    pub count: u64,
    /// How many in a row are drawn from the same random numbers.
    alike: u64,
    /// Makes one of them.
    make: Make,
}

impl Kind {
    /// So many cases that are made one by one.
    pub fn new<F>(name: &'static str, count: u64, make: F) -> Kind
    where
        F: Fn(&Definition, &mut Draw, u64) -> Made + Send + Sync + 'static,
    {
        Kind { name, count, alike: 1, make: Box::new(make) }
    }

    /// The same kind, of which so many cases in a row are drawn from the same random numbers.
    pub fn alike(self, alike: u64) -> Kind {
        Kind { alike, ..self }
    }

    /// The cases of a list.
    pub fn listed(name: &'static str, list: Vec<Made>) -> Kind {
        Kind::new(name, list.len() as u64, move |_, _, n| list[n as usize].clone())
    }
}

/// A share of a number of random cases, in so many parts of a whole, rounded up.
pub fn share(random: u64, parts: u64, whole: u64) -> u64 {
    (random * parts).div_ceil(whole)
}

/// Cases gathered one after another, none of them twice.
#[derive(Default)]
pub struct Gathered {
    /// The cases of the kind that is being gathered.
    list: Vec<Made>,
    /// The bytes of all cases so far.
    known: HashSet<Vec<u8>>,
}

impl Gathered {
    /// Adds a case, unless its bytes are among the gathered ones.
    pub fn add(&mut self, how: impl Into<String>, input: Vec<u8>) {
        if self.known.insert(input.clone()) {
            self.list.push((how.into(), input));
        }
    }

    /// The kind of the cases since the last one.
    pub fn kind(&mut self, name: &'static str) -> Kind {
        Kind::listed(name, std::mem::take(&mut self.list))
    }
}

/// One case of some.
#[derive(Clone, Debug, PartialEq, Eq)]
pub struct Case {
    /// The place of its kind.
    pub kind: usize,
    /// How it was made, in plain words, or nothing.
    pub how: String,
    /// The bytes that a program is given.
    pub input: Vec<u8>,
}

/// All the cases of a comparison, by number.
pub struct Cases {
    /// What they are cases of.
    pub definition: Definition,
    /// What they are drawn from.
    pub seed: u64,
    /// Their kinds, one after another.
    pub kinds: Vec<Kind>,
}

impl Cases {
    /// How many there are.
    pub fn total(&self) -> u64 {
        self.kinds.iter().map(|kind| kind.count).sum()
    }

    /// The number of the first case of a kind.
    pub fn first(&self, kind: usize) -> u64 {
        self.kinds[..kind].iter().map(|kind| kind.count).sum()
    }

    /// The case of this number, the same whenever it is asked for.
    pub fn case(&self, number: u64) -> Case {
        let mut part = number;
        let mut kind = 0;
        while part >= self.kinds[kind].count {
            part -= self.kinds[kind].count;
            kind += 1;
        }
        let Kind { alike, make, .. } = &self.kinds[kind];
        let (how, input) = make(&self.definition, &mut Draw::new(self.seed, number - part % alike), part);
        Case { kind, how, input }
    }

    /// The cases of a kind by its name.
    #[cfg(test)]
    pub fn of_kind(&self, name: &str) -> impl Iterator<Item = Case> + '_ {
        let kind = self.kinds.iter().position(|kind| kind.name == name).expect("there is such a kind");
        let first = self.first(kind);
        (first..first + self.kinds[kind].count).map(|number| self.case(number))
    }
}

#[cfg(test)]
mod tests {
    use super::*;

    /// Cases are numbered through their kinds, and those that are alike are drawn from the same numbers.
    #[test]
    fn cases_by_number() {
        let drawn = |_: &Definition, draw: &mut Draw, n: u64| (n.to_string(), draw.bytes(4));
        let mut gathered = Gathered::default();
        gathered.add("one", vec![1]);
        gathered.add("two", vec![2]);
        gathered.add("one again", vec![1]);
        let kinds = vec![gathered.kind("a"), Kind::new("b", 4, drawn).alike(2), Kind::new("c", 3, drawn)];
        let cases = Cases { definition: Definition::now(), seed: 1, kinds };
        assert_eq!((cases.total(), cases.first(2)), (9, 6));
        let hows: Vec<String> = (0..9).map(|number| cases.case(number).how).collect();
        assert_eq!(hows, ["one", "two", "0", "1", "2", "3", "0", "1", "2"]);
        let inputs: HashSet<Vec<u8>> = (2..9).map(|number| cases.case(number).input).collect();
        assert_eq!(inputs.len(), 2 + 3);
        assert_eq!(cases.case(8), cases.case(8));
        assert_eq!(cases.of_kind("b").next(), Some(cases.case(2)));
        gathered.add("two again", vec![2]);
        assert_eq!(gathered.kind("d").count, 0);
        assert_eq!((share(10, 3, 20), share(0, 3, 20)), (2, 0));
    }
}
