//! The graph of the members, twice: from document 01's lists, made within each
//! component (document 02, #106), and by the Constraints of document 000, section
//! 3.4.
//!
//! Nothing here knows how links come about; the model is held against it.

mod components;

use std::collections::BTreeMap;

pub use components::{components, joined, links_within};

/// Bits of a membership vector.
pub const BITS: usize = 8;
/// Levels 0 to 8.
pub const LEVELS: usize = BITS + 1;
pub const SEATS: usize = 64;

#[derive(Clone, Copy, PartialEq, Eq, Debug)]
pub enum Side {
    Left = 0,
    Right = 1,
}

pub const SIDES: [Side; 2] = [Side::Left, Side::Right];

impl Side {
    pub fn away(self) -> Side {
        match self {
            Side::Left => Side::Right,
            Side::Right => Side::Left,
        }
    }

    pub fn number(self) -> u8 {
        self as u8
    }

    pub fn from_number(number: u8) -> Option<Side> {
        SIDES.get(usize::from(number)).copied()
    }

    /// The side of the number `from` on which the number `other` lies.
    pub fn toward(from: u64, other: u64) -> Side {
        if other < from {
            Side::Left
        } else {
            Side::Right
        }
    }
}

#[derive(Clone, Copy, PartialEq, Eq, Debug)]
pub struct Member {
    pub seat: u8,
    pub number: u64,
    pub vector: u8,
}

/// The links of one lot, by level and side: a seat or none.
pub type Links = [[Option<u8>; 2]; LEVELS];

pub const NO_LINKS: Links = [[None; 2]; LEVELS];

/// The first `level` bits of a vector, read as a number.
pub fn first_bits(vector: u8, level: usize) -> u8 {
    (u16::from(vector) >> (BITS - level)) as u8
}

/// The graph of the members by definition: at each level and on each side the
/// nearest member with the same first bits. Answers in the order of `members`.
pub fn links(members: &[Member]) -> Vec<Links> {
    members.iter().map(|x| links_of(x, members)).collect()
}

fn links_of(x: &Member, members: &[Member]) -> Links {
    let mut links = NO_LINKS;
    for (level, pair) in links.iter_mut().enumerate() {
        for side in SIDES {
            pair[side as usize] = nearest(x, level, side, members);
        }
    }
    links
}

fn nearest(x: &Member, level: usize, side: Side, members: &[Member]) -> Option<u8> {
    members
        .iter()
        .filter(|y| y.number != x.number && Side::toward(x.number, y.number) == side)
        .filter(|y| first_bits(y.vector, level) == first_bits(x.vector, level))
        .min_by_key(|y| y.number.abs_diff(x.number))
        .map(|y| y.seat)
}

/// One list of a level: the members with the same first bits, ascending.
#[derive(Clone, PartialEq, Eq, Debug)]
pub struct List {
    pub level: usize,
    pub bits: u8,
    pub numbers: Vec<u64>,
}

/// The lists of two or more members, lower level first, then bits ascending.
pub fn lists(members: &[Member]) -> Vec<List> {
    (0..LEVELS)
        .flat_map(|level| lists_at(level, members))
        .filter(|list| list.numbers.len() >= 2)
        .collect()
}

fn lists_at(level: usize, members: &[Member]) -> Vec<List> {
    let mut lists: BTreeMap<u8, Vec<u64>> = BTreeMap::new();
    for member in members {
        let bits = first_bits(member.vector, level);
        lists.entry(bits).or_default().push(member.number);
    }
    let list = |(bits, mut numbers): (u8, Vec<u64>)| {
        numbers.sort_unstable();
        List {
            level,
            bits,
            numbers,
        }
    };
    lists.into_iter().map(list).collect()
}

/// Members with the links that they hold, right or wrong.
pub struct Held<'a> {
    members: &'a [Member],
    links: &'a [Links],
    place: [Option<usize>; SEATS],
}

impl<'a> Held<'a> {
    /// `links` are in the order of `members`.
    pub fn new(members: &'a [Member], links: &'a [Links]) -> Held<'a> {
        let mut place = [None; SEATS];
        for (index, member) in members.iter().enumerate() {
            place[usize::from(member.seat)] = Some(index);
        }
        Held {
            members,
            links,
            place,
        }
    }

    /// Constraints 1 to 4 at levels 0 to 8, 5 and 6 at 0 to 7: by Theorem 5 of
    /// document 000, whether every component is a skip graph. A link to a seat that
    /// is no member's breaks Constraint 1 or 2.
    pub fn constraints_hold(&self) -> bool {
        let mut every = 0..self.members.len();
        // 5 and 6 walk along the links, which 1 and 2 keep from going round.
        every.clone().all(|x| self.constraints_1_to_4(x))
            && every.all(|x| self.constraints_5_and_6(x))
    }

    fn constraints_1_to_4(&self, x: usize) -> bool {
        (0..LEVELS).all(|level| SIDES.iter().all(|&side| self.link_is_sound(x, level, side)))
    }

    /// Constraints 1 and 3 on the right, 2 and 4 on the left.
    fn link_is_sound(&self, x: usize, level: usize, side: Side) -> bool {
        let Some(seat) = self.links[x][level][side as usize] else {
            return true;
        };
        let Some(y) = self.place_of(seat) else {
            return false;
        };
        let (from, to) = (self.members[x].number, self.members[y].number);
        let ordered = match side {
            Side::Right => to > from,
            Side::Left => to < from,
        };
        let back = self.links[y][level][side.away() as usize];
        ordered && back == Some(self.members[x].seat)
    }

    fn constraints_5_and_6(&self, x: usize) -> bool {
        (0..LEVELS - 1).all(|level| {
            SIDES.iter().all(|&side| {
                self.links[x][level + 1][side as usize] == self.first_sharing(x, level, side)
            })
        })
    }

    /// The first lot along the level's list that shares one bit more.
    fn first_sharing(&self, x: usize, level: usize, side: Side) -> Option<u8> {
        let wanted = first_bits(self.members[x].vector, level + 1);
        let mut at = self.next(x, level, side);
        while let Some(y) = at {
            if first_bits(self.members[y].vector, level + 1) == wanted {
                return Some(self.members[y].seat);
            }
            at = self.next(y, level, side);
        }
        None
    }

    fn next(&self, x: usize, level: usize, side: Side) -> Option<usize> {
        self.links[x][level][side as usize].and_then(|seat| self.place_of(seat))
    }

    fn place_of(&self, seat: u8) -> Option<usize> {
        self.place.get(usize::from(seat)).copied().flatten()
    }
}

#[cfg(test)]
mod tests {
    use super::*;
    use crate::random::Random;

    fn some_members(random: &mut Random) -> Vec<Member> {
        let vectors = [0, 1, 64, 128, 192, 255, random.byte()];
        let mut numbers: Vec<u64> = (0..20).collect();
        let count = random.below(9) as u8;
        let member = |seat| Member {
            seat,
            number: numbers.swap_remove(random.below(numbers.len())),
            vector: random.pick(&vectors),
        };
        (0..count).map(member).collect()
    }

    /// Each member in one of so many components.
    fn split(members: &[Member], into: usize, random: &mut Random) -> Vec<Links> {
        let component = |_: &Member| random.below(into);
        let components: Vec<usize> = members.iter().map(component).collect();
        links_within(members, &components)
    }

    /// Points a link to any seat, one of no member too, or to none; one time in
    /// two the named lot answers it.
    fn disturb(links: &mut [Links], random: &mut Random) {
        let seats = links.len();
        let (x, level) = (random.below(seats), random.below(LEVELS));
        let side = random.pick(&SIDES);
        let named = random.below(seats + 2).checked_sub(1);
        links[x][level][side as usize] = named.map(|y| y as u8);
        if let (Some(y), true) = (named.filter(|&y| y < seats), random.one_in(2)) {
            links[y][level][side.away() as usize] = Some(x as u8);
        }
    }

    /// Theorem 5, by the answer and whether there are several components.
    #[test]
    fn constraints_agree_with_the_definition() {
        let mut random = Random::new(1);
        let mut met = [[0; 2]; 2];
        for _ in 0..40_000 {
            let members = some_members(&mut random);
            let into = random.pick(&[1, 1, 2, 3, 9]);
            let mut held = split(&members, into, &mut random);
            for _ in 0..random.below(3) {
                if !members.is_empty() {
                    disturb(&mut held, &mut random);
                }
            }
            let says = Held::new(&members, &held).constraints_hold();
            let components = components(&members, &held);
            let each_is_a_graph = held == links_within(&members, &components);
            assert_eq!(says, each_is_a_graph, "{members:?} {held:?}");
            let several = components.iter().any(|&first| first != components[0]);
            met[usize::from(says)][usize::from(several)] += 1;
        }
        assert!(
            met.as_flattened().iter().all(|&count| count > 3_000),
            "{met:?}"
        );
    }

    #[test]
    fn neighbours_in_a_list_are_linked() {
        let mut random = Random::new(2);
        for _ in 0..1_000 {
            let members = some_members(&mut random);
            let links = links(&members);
            let seat_of = |number| members.iter().position(|m| m.number == number).unwrap();
            for list in lists(&members) {
                for pair in list.numbers.windows(2) {
                    let (x, y) = (seat_of(pair[0]), seat_of(pair[1]));
                    assert_eq!(links[x][list.level][Side::Right as usize], Some(y as u8));
                    assert_eq!(links[y][list.level][Side::Left as usize], Some(x as u8));
                }
            }
        }
    }

    #[test]
    fn first_bits_count_from_the_highest() {
        assert_eq!(first_bits(0b1010_0000, 0), 0);
        assert_eq!(first_bits(0b1010_0000, 3), 0b101);
        assert_eq!(first_bits(0b1010_0001, 8), 0b1010_0001);
    }
}
