//! Which part of one file is which part of another: by their contents, and where those differ by what they share. It imports no module.

use std::collections::{BTreeSet, HashMap, VecDeque};

/// What a part is known by. Each number stands for some contents; 0 is none.
#[derive(Clone, Default)]
pub struct Known {
    /// All of it.
    pub content: u64,
    /// What is in it: two parts that share more of these are rather each other.
    pub holds: Vec<u64>,
    /// What names it, the strongest first.
    pub names: Vec<u64>,
}

/// A part of the one file, of the other, or of both.
#[derive(Clone, Copy, Debug, PartialEq, Eq)]
pub enum Pair {
    Same(usize, usize),
    Changed(usize, usize),
    First(usize),
    Second(usize),
}

/// Pairs the parts of two lists: those with the same contents, then those that share most, then those with the same names, and, where wanted, the last
/// one left of each. In the order of the first list; those of the second list alone come last. Whether the contents are the same indeed, `is_same` tells.
pub fn pairs(
    first: &[Known],
    second: &[Known],
    last_of_each: bool,
    is_same: impl Fn(usize, usize) -> bool,
) -> Vec<Pair> {
    let mut pairing = Pairing { of_first: vec![None; first.len()], left: (0..second.len()).collect() };
    pairing.by(first, second, |known| known.content);
    let same: Vec<bool> = pairing.of_first.iter().map(Option::is_some).collect();
    pairing.by_what_they_hold(first, second);
    let names = first.iter().chain(second).map(|known| known.names.len()).max().unwrap_or(0);
    for place in 0..names {
        pairing.by(first, second, |known| known.names.get(place).copied().unwrap_or(0));
    }
    if last_of_each {
        pairing.last_of_each();
    }
    let told = pairing.of_first.iter().enumerate().map(|(one, other)| match other {
        Some(other) if same[one] && is_same(one, *other) => Pair::Same(one, *other),
        Some(other) => Pair::Changed(one, *other),
        None => Pair::First(one),
    });
    told.chain(pairing.left.iter().map(|other| Pair::Second(*other))).collect()
}

struct Pairing {
    of_first: Vec<Option<usize>>,
    /// Those of the second list that have none yet.
    left: BTreeSet<usize>,
}

impl Pairing {
    fn pair(&mut self, one: usize, other: usize) {
        self.of_first[one] = Some(other);
        self.left.remove(&other);
    }

    fn unpaired(&self) -> Vec<usize> {
        (0..self.of_first.len()).filter(|one| self.of_first[*one].is_none()).collect()
    }

    /// Pairs those with the same number, in their order.
    fn by(&mut self, first: &[Known], second: &[Known], number: impl Fn(&Known) -> u64) {
        let mut places: HashMap<u64, VecDeque<usize>> = HashMap::new();
        for other in &self.left {
            places.entry(number(&second[*other])).or_default().push_back(*other);
        }
        for one in self.unpaired() {
            let wanted = number(&first[one]);
            if let Some(other) = places.get_mut(&wanted).filter(|_| wanted != 0).and_then(VecDeque::pop_front) {
                self.pair(one, other);
            }
        }
    }

    fn by_what_they_hold(&mut self, first: &[Known], second: &[Known]) {
        let mut holders: HashMap<u64, Vec<usize>> = HashMap::new();
        for other in &self.left {
            second[*other]
                .holds
                .iter()
                .filter(|held| **held != 0)
                .for_each(|held| holders.entry(*held).or_default().push(*other));
        }
        for one in self.unpaired() {
            let mut shared: HashMap<usize, u64> = HashMap::new();
            let distinct: BTreeSet<u64> = first[one].holds.iter().copied().collect();
            for held in distinct {
                let holders = holders.get(&held).map_or(&[][..], Vec::as_slice);
                // What very many hold tells them not apart.
                holders
                    .iter()
                    .take(MANY)
                    .filter(|other| self.left.contains(other))
                    .for_each(|other| *shared.entry(*other).or_default() += 1);
            }
            let most = shared.into_iter().max_by_key(|(other, count)| (*count, std::cmp::Reverse(*other)));
            if let Some((other, _)) = most {
                self.pair(one, other);
            }
        }
    }

    fn last_of_each(&mut self) {
        let unpaired = self.unpaired();
        if let ([one], 1, Some(other)) = (unpaired.as_slice(), self.left.len(), self.left.first().copied()) {
            self.pair(*one, other);
        }
    }
}

const MANY: usize = 64;

#[cfg(test)]
mod tests {
    use super::*;

    fn known(content: u64, holds: &[u64], names: &[u64]) -> Known {
        Known { content, holds: holds.to_vec(), names: names.to_vec() }
    }

    #[test]
    fn by_contents_then_by_names() {
        let first = [known(1, &[], &[10]), known(2, &[], &[20]), known(3, &[], &[30]), known(1, &[], &[40])];
        let second = [known(9, &[], &[20]), known(1, &[], &[0]), known(1, &[], &[0]), known(8, &[], &[80])];
        let expected = [Pair::Same(0, 1), Pair::Changed(1, 0), Pair::First(2), Pair::Same(3, 2), Pair::Second(3)];
        assert_eq!(pairs(&first, &second, false, |_, _| true), expected);
        let expected = [Pair::Same(0, 1), Pair::Changed(1, 0), Pair::Changed(2, 3), Pair::Same(3, 2)];
        assert_eq!(pairs(&first, &second, true, |_, _| true), expected);
    }

    #[test]
    fn by_what_they_share() {
        let first = [known(1, &[5, 6, 7], &[]), known(2, &[8], &[])];
        let second = [known(3, &[8, 5], &[]), known(4, &[6, 7], &[]), known(5, &[], &[])];
        let expected = [Pair::Changed(0, 1), Pair::Changed(1, 0), Pair::Second(2)];
        assert_eq!(pairs(&first, &second, false, |_, _| true), expected);
        assert_eq!(pairs(&[], &[], true, |_, _| true), []);
        // 0 is no contents and no name.
        assert_eq!(
            pairs(&[known(1, &[0], &[0])], &[known(2, &[0], &[0])], false, |_, _| true),
            [Pair::First(0), Pair::Second(0)]
        );
    }
}
