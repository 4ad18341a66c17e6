//! Lists with labels at every place around the slots of jumps: each sequence of few rows, each kind
//! of row in either slot, and very many labels.

use crate::cases::{Case, Lengths};
use crate::list::List;
use crate::random::Random;
use crate::row::{row, Row};
use crate::rows::{encodes, instruction_kinds};

/// Adds a row to a list.
type Part = fn(&mut List);

const DELAYED: Part = |list| list.push(&row(&[28, 5, 0, 1]));
const C_JUMP: Part = |list| list.push(&row(&[29, 7]));
const STAYS: Part = |list| list.push(&row(&[39]));
const LOOP_END: Part = |list| list.push(&row(&[51]));
/// A label whose name no other row of the list has.
const LABEL: Part = |list| list.push_named(&[48], list.names.len().to_string().as_bytes());
/// A label whose name others may have.
const SHARED: Part = |list| list.push_named(&[48], b"a");
/// A label whose name lies outside the names.
const OUTSIDE: Part = |list| list.push(&row(&[48, 0, u32::MAX]));

const PARTS: [Part; 11] = [
    DELAYED,
    C_JUMP,
    STAYS,
    LABEL,
    OUTSIDE,
    LOOP_END,
    SHARED,
    |list| list.push_named(&[49, 5], b"a"),
    |list| list.push(&row(&[50, 0, 1])),
    |list| list.push(&row(&[28, 5])),
    |list| list.push(&row(&[31])),
];
/// Those of which longer lists are made.
const FEW: [Part; 5] = [DELAYED, STAYS, LABEL, OUTSIDE, LOOP_END];

/// Every sequence of up to so many of the parts.
struct Sequences {
    parts: &'static [Part],
    most: u32,
}

impl Sequences {
    fn count(&self) -> u64 {
        (0..=self.most).map(|rows| (self.parts.len() as u64).pow(rows)).sum()
    }

    /// The sequence of this number: the shorter ones come first.
    fn list(&self, number: u64) -> List {
        let size = self.parts.len() as u64;
        let mut list = List::default();
        let mut left = number;
        while left > 0 {
            self.parts[((left - 1) % size) as usize](&mut list);
            left = (left - 1) / size;
        }
        list
    }
}

/// The lists of a run.
pub struct SlotLists {
    sequences: [Sequences; 2],
    others: Vec<List>,
}

impl SlotLists {
    /// Sequences of up to five rows and, of few parts, seven; in a short run four and five.
    pub fn new(short: bool) -> Self {
        let [most, most_of_few] = if short { [4, 5] } else { [5, 7] };
        let every = Sequences { parts: &PARTS, most };
        let longer = Sequences { parts: &FEW, most: most_of_few };
        Self { sequences: [every, longer], others: [each_kind(), many_labels()].concat() }
    }

    pub fn count(&self) -> u64 {
        let sequences = self.sequences.iter().map(Sequences::count).sum::<u64>();
        sequences + self.others.len() as u64
    }

    /// The list of this number, with a little more lent than it takes.
    pub fn case(&self, number: u64) -> Case {
        let list = self.list(number);
        let lengths = Lengths::for_list(&list, 2);
        Case { list, lengths }
    }

    fn list(&self, mut number: u64) -> List {
        for sequences in &self.sequences {
            if number < sequences.count() {
                return sequences.list(number);
            }
            number -= sequences.count();
        }
        self.others[number as usize].clone()
    }
}

/// Each kind of row in either slot, with and without a label before, between and behind the slots.
fn each_kind() -> Vec<List> {
    let mut random = Random::new(1, 1);
    let stays = row(&[39]);
    let instructions = instruction_kinds().map(|kind| encodes(&mut random, kind));
    let others = [row(&[19, 0, 8]), row(&[50, 0, 1]), row(&[51])];
    let mut lists = Vec::new();
    for row in instructions.chain(others) {
        for gaps in 0..8 {
            let labels = [gaps & 1, gaps >> 1 & 1, gaps >> 2];
            for jump in [DELAYED, C_JUMP] {
                lists.push(slotted([jump, LABEL], &[row, stays], labels));
                lists.push(slotted([jump, LABEL], &[stays, row], labels));
            }
        }
    }
    lists
}

/// More labels than a build takes, with both slots filled, with one, and with none.
fn many_labels() -> Vec<List> {
    let slots = [row(&[38]); 2];
    let lists = [2, 1, 0].map(|filled| slotted([C_JUMP, SHARED], &slots[..filled], [5_000; 3]));
    lists.to_vec()
}

/// A jump and what stands in its slots, with so many labels after each.
fn slotted([jump, label]: [Part; 2], slots: &[Row], labels: [usize; 3]) -> List {
    let mut list = List::default();
    jump(&mut list);
    (0..labels[0]).for_each(|_| label(&mut list));
    for (slot, count) in slots.iter().zip(&labels[1..]) {
        list.push(slot);
        (0..*count).for_each(|_| label(&mut list));
    }
    list
}

#[cfg(test)]
mod tests {
    use std::collections::HashSet;

    use super::*;
    use crate::cases;
    use crate::second::{self, Limits};

    fn lists() -> Vec<List> {
        let lists = SlotLists::new(true);
        (0..lists.count()).map(|number| lists.list(number)).collect()
    }

    fn kinds(list: &List) -> Vec<u32> {
        list.rows().map(|row| row[0]).collect()
    }

    #[test]
    fn every_sequence_is_there_once() {
        let sequences = Sequences { parts: &PARTS, most: 3 };
        let lists: Vec<List> =
            (0..sequences.count()).map(|number| sequences.list(number)).collect();
        assert_eq!(lists.len(), 1 + 11 + 11 * 11 + 11 * 11 * 11);
        let spelled: HashSet<(&[u32], &[u8])> =
            lists.iter().map(|list| (&list.numbers[..], &list.names[..])).collect();
        assert_eq!(spelled.len(), lists.len());
        assert!(lists.iter().all(|list| list.rows().count() <= 3));
    }

    #[test]
    fn labels_stand_at_every_place() {
        let all: HashSet<Vec<u32>> = lists().iter().map(kinds).collect();
        for jump in [28, 29] {
            for labelled in [
                vec![48, jump, 39, 39],
                vec![jump, 48, 39, 39],
                vec![jump, 39, 48, 39],
                vec![jump, 39, 39, 48],
                vec![jump, 48, 39, 48, 39, 48],
                vec![jump, 48, 51],
                vec![jump, 39, 48, 49],
                vec![jump, 48, 48],
            ] {
                assert!(all.contains(&labelled), "{labelled:?}");
            }
        }
    }

    #[test]
    fn the_slot_check_and_the_build_meet_their_refusals() {
        let (mut checked, mut built) = (HashSet::new(), HashSet::new());
        for list in lists() {
            let verdict = second::slot_check(&list.numbers, &list.names, &Limits::default());
            checked.insert(verdict.map_or_else(|refused| refused.refusal.number, |()| 0));
            let lengths = Lengths::for_list(&list, 2);
            built.insert(cases::second(&Case { list, lengths }).0.number);
        }
        assert_eq!(checked, [0, 2, 33].into());
        assert_eq!(built, [0, 2, 5, 11, 12, 22, 23, 24, 27, 28].into());
    }
}
