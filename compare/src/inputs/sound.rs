//! Sound records put together field by field: links and pending messages that
//! fit, whether or not any list of calls leads there.

use super::entry_at;
use crate::graph::{self, first_bits, Links, Member, Side, BITS, LEVELS, NO_LINKS, SIDES};
use crate::lent::place::{
    link_at, ENTRY, LINKS_AT, NO_LINK, NUMBER_AT, PENDING_AT, PHASE_AT, STATE_AT, VECTOR_AT,
};
use crate::lent::{place_of, SIZE};
use crate::model::{shared_bits, Message, State};
use crate::random::Random;
use crate::script::Pools;

/// A seated lot.
struct Lot {
    member: Member,
    leaving: bool,
    links: Links,
}

/// Seats or reserves all lots of the pool, or some of them.
pub fn sound_record(pools: &Pools, random: &mut Random) -> Vec<u8> {
    match random.below(16) {
        0 | 1 => return settled_record(pools, random),
        2 => return merging_record(pools, random),
        _ => {}
    }
    let clearing = random.one_in(2);
    let (mut lots, reserved) = some_lots(pools, random);
    link(&mut lots, clearing, random);
    let mut bytes = written(&lots, &reserved, clearing);
    let some = random.below(100);
    for _ in 0..random.pick(&[0, 0, 0, 1, 2, 5, 20, some]) {
        if let Some(message) = some_message(&lots, clearing, random) {
            send(&mut bytes, message);
        }
    }
    bytes
}

fn send(bytes: &mut [u8], message: Message) {
    let place = place_of(message).expect("a message that fits has a place");
    bytes[PENDING_AT + place / 8] |= 1 << (place % 8);
}

/// As [`sound_record`], in phase open with the links of the graph and nothing
/// pending; some lots may be leaving, or all, and there may be several components.
pub fn settled_record(pools: &Pools, random: &mut Random) -> Vec<u8> {
    let clearing = false;
    let (mut lots, reserved) = some_lots(pools, random);
    let components = random.pick(&[1, 1, 2, 3, 8]);
    link_components(&mut lots, components, clearing, random);
    written(&lots, &reserved, clearing)
}

/// As [`settled_record`], but for one MEET at level 0 or two, mostly between components
/// of which there are several.
fn merging_record(pools: &Pools, random: &mut Random) -> Vec<u8> {
    let clearing = false;
    let (mut lots, reserved) = some_lots(pools, random);
    let components = random.pick(&[2, 3, 4, 5]);
    link_components(&mut lots, components, clearing, random);
    let mut bytes = written(&lots, &reserved, clearing);
    for _ in 0..random.pick(&[1, 1, 2]) {
        if lots.len() > 1 {
            let [to, about] = [(); 2].map(|()| lots[random.below(lots.len())].member.seat);
            if to != about {
                send(&mut bytes, Message::meet(to, about, 0));
            }
        }
    }
    bytes
}

/// Seated lots, without links, and reserved ones.
fn some_lots(pools: &Pools, random: &mut Random) -> (Vec<Lot>, Vec<Member>) {
    let most = pools.seats.len().min(pools.numbers.len());
    let some = random.below(most + 1);
    let count = random.pick(&[some, most]);
    let leaving_of_8 = random.pick(&[0, 1, 4, 8]);
    let reserved_of_8 = random.pick(&[0, 0, 1, 2, 4, 8]);
    let mut numbers = pools.numbers.clone();
    let (mut lots, mut reserved) = (Vec::new(), Vec::new());
    for &seat in &pools.seats[..count] {
        let member = Member {
            seat,
            number: numbers.swap_remove(random.below(numbers.len())),
            vector: random.pick(&pools.vectors),
        };
        if random.below(8) < reserved_of_8 {
            reserved.push(member);
            continue;
        }
        lots.push(Lot {
            member,
            leaving: random.below(8) < leaving_of_8,
            links: NO_LINKS,
        });
    }
    (lots, reserved)
}

/// Links that are the graph of the members, several graphs of a part of them each,
/// nearly one of these, or any that fit.
fn link(lots: &mut [Lot], clearing: bool, random: &mut Random) {
    let changes = match random.below(4) {
        0 => 0,
        1 => 1,
        2 => 1 + random.below(8),
        _ => lots.len() * LEVELS,
    };
    let components = match random.below(8) {
        0 | 1 => 0,
        2 => 2,
        3 => 2 + random.below(4),
        _ => 1,
    };
    link_components(lots, components, clearing, random);
    for _ in 0..changes {
        if !lots.is_empty() {
            let (x, level) = (random.below(lots.len()), random.below(LEVELS));
            let side = random.pick(&SIDES);
            lots[x].links[level][side as usize] = some_fitting(lots, x, level, side, random);
        }
    }
}

/// Each lot into one of so many components, which are graphs; into none if there are
/// to be none.
fn link_components(lots: &mut [Lot], components: usize, clearing: bool, random: &mut Random) {
    if components == 0 {
        return;
    }
    let component = |_: &Lot| random.below(components);
    let components: Vec<usize> = lots.iter().map(component).collect();
    link_as_graphs(lots, &components, |_| true);
    if clearing {
        link_as_graphs(lots, &components, |lot| !lot.leaving);
    }
}

fn link_as_graphs(lots: &mut [Lot], components: &[usize], is_member: fn(&Lot) -> bool) {
    let both = lots
        .iter()
        .zip(components)
        .filter(|(lot, _)| is_member(lot));
    let (members, components): (Vec<Member>, Vec<usize>) = both
        .map(|(lot, component)| (lot.member, *component))
        .unzip();
    let linked = lots.iter_mut().filter(|lot| is_member(lot));
    for (lot, links) in linked.zip(graph::links_within(&members, &components)) {
        lot.links = links;
    }
}

/// None, or a lot on that side that shares the level's bits.
fn some_fitting(
    lots: &[Lot],
    x: usize,
    level: usize,
    side: Side,
    random: &mut Random,
) -> Option<u8> {
    let from = lots[x].member;
    let y = lots[random.below(lots.len())].member;
    let shares = first_bits(y.vector, level) == first_bits(from.vector, level);
    let fits = y.seat != from.seat && Side::toward(from.number, y.number) == side && shares;
    fits.then_some(y.seat)
}

fn written(lots: &[Lot], reserved: &[Member], clearing: bool) -> Vec<u8> {
    let mut bytes = vec![0; SIZE];
    bytes[PHASE_AT] = clearing.into();
    for seat in 0..graph::SEATS {
        bytes[entry_at(seat) + LINKS_AT..entry_at(seat) + ENTRY].fill(NO_LINK);
    }
    for member in reserved {
        write(&mut bytes, member, State::Reserved);
    }
    for lot in lots {
        let state = if lot.leaving {
            State::Leaving
        } else {
            State::Staying
        };
        let entry = write(&mut bytes, &lot.member, state);
        for (level, pair) in lot.links.iter().enumerate() {
            for side in SIDES {
                let link = pair[side as usize].unwrap_or(NO_LINK);
                entry[link_at(level, side as usize)] = link;
            }
        }
    }
    bytes
}

/// Its entry, with the links to write.
fn write<'a>(bytes: &'a mut [u8], lot: &Member, state: State) -> &'a mut [u8] {
    let at = entry_at(lot.seat.into());
    let entry = &mut bytes[at..at + ENTRY];
    entry[STATE_AT] = state as u8;
    entry[NUMBER_AT..VECTOR_AT].copy_from_slice(&lot.number.to_be_bytes());
    entry[VECTOR_AT] = lot.vector;
    entry
}

/// A message that fits its kind and the phase; none if the lots drawn do not.
fn some_message(lots: &[Lot], clearing: bool, random: &mut Random) -> Option<Message> {
    if lots.is_empty() {
        return None;
    }
    let to = &lots[random.below(lots.len())];
    let about = &lots[random.below(lots.len())];
    let (x, y) = (to.member, about.member);
    let side = random.pick(&SIDES);
    let level = random.below(LEVELS) as u8;
    // The highest level where the two may meet comes up most.
    let shared = level.min(shared_bits(x.vector, y.vector) as u8);
    let differ = (x.seat != y.seat).then_some(());
    let stays = |lot: &Lot| (!lot.leaving).then_some(());
    let top = BITS as u8 - 1;
    Some(match (clearing, random.below(4)) {
        (false, 0 | 1) => {
            differ?;
            Message::meet(x.seat, y.seat, shared)
        }
        (false, 2) => {
            differ?;
            Message::probe(x.seat, y.seat, shared.min(top))
        }
        (false, _) => Message::pull(x.seat, random.below(2) as u8, level.min(top), side),
        (true, 0) => Message::going(x.seat, level, side),
        (true, 1) => {
            differ.and(stays(about))?;
            Message::seek(x.seat, y.seat, shared)
        }
        (true, 2) => {
            differ.and(stays(about)).and(stays(to))?;
            Message::found(x.seat, y.seat, shared)
        }
        (true, _) => {
            stays(to)?;
            Message::none(x.seat, level, side)
        }
    })
}
