//! Components: lots joined by links among them, directly or through others, as in
//! Theorem 5 of document 000; or by other pairs besides.

use super::{links_of, Links, Member, SEATS};

/// For each member the smallest seat of its component, in the order of `members`,
/// whose links are in that order too. A link joins its ends whichever of them holds
/// it; one to a seat that is no member's joins nothing.
pub fn components(members: &[Member], links: &[Links]) -> Vec<u8> {
    joined(members, links, [])
}

/// As [`components`], where the lots of these pairs of seats are joined too.
pub fn joined(
    members: &[Member],
    links: &[Links],
    pairs: impl IntoIterator<Item = (u8, u8)>,
) -> Vec<u8> {
    let mut smallest = [None; SEATS];
    for member in members {
        smallest[usize::from(member.seat)] = Some(member.seat);
    }
    let linked = members.iter().zip(links).flat_map(|(member, links)| {
        let links = links.as_flattened().iter().flatten();
        links.map(|&link| (member.seat, link))
    });
    for (one, other) in linked.chain(pairs) {
        let both = [one, other].map(|seat| smallest[usize::from(seat)]);
        let [one, other] = both;
        if one == other || both.contains(&None) {
            continue;
        }
        let same = smallest.iter_mut().filter(|seat| both.contains(seat));
        same.for_each(|seat| *seat = one.min(other));
    }
    let component = |member: &Member| smallest[usize::from(member.seat)];
    let components = members.iter().map(component);
    components
        .map(|seat| seat.expect("each member has one"))
        .collect()
}

/// The graph of the members made within each component: at each level and on each
/// side the nearest member of its own component with the same first bits. Components
/// are any names of them, in the order of `members`.
pub fn links_within<C: PartialEq>(members: &[Member], components: &[C]) -> Vec<Links> {
    let of = |component: &C| -> Vec<Member> {
        let both = members.iter().zip(components);
        let same = both.filter(|(_, other)| *other == component);
        same.map(|(member, _)| *member).collect()
    };
    let both = members.iter().zip(components);
    both.map(|(x, component)| links_of(x, &of(component)))
        .collect()
}

#[cfg(test)]
mod tests {
    use super::super::{links, NO_LINKS, SIDES};
    use super::*;

    fn five() -> Vec<Member> {
        let member = |seat| Member {
            seat,
            number: 10 * u64::from(seat),
            vector: seat << 6,
        };
        [7, 3, 5, 2, 9].map(member).to_vec()
    }

    #[test]
    fn all_members_of_a_graph_are_one_component() {
        let members = five();
        assert_eq!(components(&members, &links(&members)), [2; 5]);
        assert_eq!(components(&members, &[NO_LINKS; 5]), [7, 3, 5, 2, 9]);
        assert_eq!(components(&[], &[]), []);
    }

    /// Held by one end alone, on either side and at any level; to no member at all.
    #[test]
    fn one_link_joins() {
        let members = five();
        for side in SIDES {
            for level in [0, 8] {
                let mut links = vec![NO_LINKS; 5];
                links[0][level][side as usize] = Some(5);
                assert_eq!(components(&members, &links), [5, 3, 5, 2, 9]);
                links[4][level][side as usize] = Some(7);
                assert_eq!(components(&members, &links), [5, 3, 5, 2, 5]);
                links[1][level][side as usize] = Some(40);
                assert_eq!(components(&members, &links), [5, 3, 5, 2, 5]);
            }
        }
    }

    #[test]
    fn pairs_join_besides() {
        let members = five();
        let mut links = vec![NO_LINKS; 5];
        links[0][3][1] = Some(5);
        assert_eq!(joined(&members, &links, [(9, 3)]), [5, 3, 5, 2, 3]);
        assert_eq!(joined(&members, &links, [(7, 2), (3, 40)]), [2, 3, 2, 2, 9]);
        assert_eq!(joined(&members, &links, [(9, 3), (3, 5)]), [3, 3, 3, 2, 3]);
    }

    #[test]
    fn a_graph_within_each_is_that_of_its_members() {
        let members = five();
        assert_eq!(links_within(&members, &[1; 5]), links(&members));
        assert_eq!(links_within(&members, &[0, 1, 2, 3, 4]), [NO_LINKS; 5]);
        let within = links_within(&members, &['a', 'b', 'a', 'b', 'b']);
        let one = links(&[members[0], members[2]]);
        let other = links(&[members[1], members[3], members[4]]);
        assert_eq!(within, [one[0], other[0], one[1], other[1], other[2]]);
    }
}
