//! Every route from one Output Terminal up to the Input Terminals (document 02, No. 8), and the
//! programs `routes`, over a script, and `way`, for a person.
//!
//! A step of `routes` is one byte, the ID, two bytes m, two bytes n (low byte first), then n bytes: a
//! configuration. Its routes are listed in m bytes lent, each of them AA. It prints how many routes
//! and bytes there are, or the refusal, then the lent bytes as `lend` shows them.

use crate::cut::two_bytes;
use crate::entity::Kind;
use crate::lend;
use crate::numbers::{LIST, MARK, ROUTES, STEP, WAY};
use crate::reader;
use crate::relay::{each_step, BadStep, Printed};
use crate::sheet;
use crate::topology::Topology;
use crate::ways::{Refusal, Way};

/// What `way` prints for anything but one word of two hex digits.
const USAGE: &str = "usage: way ID\n";

/// Why there is no list: a clause, and the place if it is one of the reader's.
#[derive(Clone, Copy, Debug, PartialEq, Eq)]
pub struct Refused {
    /// The clause.
    pub way: Way,
    /// "an offset from the first byte", of the configuration; 45, 46 and 49 have none.
    pub place: Option<usize>,
}

impl From<Refusal> for Refused {
    fn from(refusal: Refusal) -> Refused {
        Refused { way: refusal.way, place: Some(refusal.place) }
    }
}

impl From<Way> for Refused {
    fn from(way: Way) -> Refused {
        Refused { way, place: None }
    }
}

impl Refused {
    /// `refused N at P` or `refused N`.
    pub fn line(&self) -> String {
        let number = self.way.number();
        match self.place {
            Some(place) => format!("refused {number} at {place}\n"),
            None => format!("refused {number}\n"),
        }
    }
}

/// What was listed: how many routes, and in how many bytes.
#[derive(Clone, Copy, Debug, PartialEq, Eq)]
pub struct Listed {
    /// The routes.
    pub routes: usize,
    /// The bytes written, from the first on.
    pub bytes: usize,
}

/// Lists the routes of one Output Terminal in a lent list: "IDs from the output to the input with 00
/// after the last". "Refusals: the reader's own but 16 for the configuration, then 45 ..., 46 ..., 49
/// if the lent list is too short for them; a refusal leaves the list's bytes." "Bytes past the last
/// route stay."
pub fn list(id: u8, config: &[u8], lent: &mut [u8]) -> Result<Listed, Refused> {
    let kept = reader::keep(config)?;
    let routes = routes_of(&kept.topology, id)?;
    let bytes: Vec<u8> = routes.iter().flat_map(|route| [route, &[0][..]].concat()).collect();
    lent.get_mut(..bytes.len()).ok_or(Way::ListShort)?.copy_from_slice(&bytes);
    Ok(Listed { routes: routes.len(), bytes: bytes.len() })
}

/// "45 if the ID is not an Output Terminal", then "46 if there are more than 256 routes".
fn routes_of(topology: &Topology, id: u8) -> Result<Vec<Vec<u8>>, Way> {
    let index = topology.find(id).ok_or(Way::RouteUnknown)?;
    if !matches!(topology.entities[index].kind, Kind::OutputTerminal { .. }) {
        return Err(Way::RouteOther);
    }
    let mut found = Vec::new();
    go_on(topology, &[], index, &mut found)?;
    Ok(found)
}

/// Adds the routes that go on at the entity of this index: "in order of pins, the first pin first.
/// Two pins with the same source are two routes."
///
/// Above every entity stands some Input Terminal, since 11 leaves no pin without a source and 12 no
/// chain without an end. So each turn leads to a route, and the 257th ends the walk, however many
/// more there are.
fn go_on(
    topology: &Topology,
    before: &[u8],
    index: usize,
    found: &mut Vec<Vec<u8>>,
) -> Result<(), Way> {
    let entity = &topology.entities[index];
    let route = [before, &[entity.id]].concat();
    for &source in &entity.sources {
        let behind = topology.find(source).expect("refusal 11 comes first");
        go_on(topology, &route, behind, found)?;
    }
    if matches!(entity.kind, Kind::InputTerminal { .. }) {
        if found.len() == ROUTES {
            return Err(Way::ManyRoutes);
        }
        found.push(route);
    }
    Ok(())
}

/// The program `routes`: runs over a whole input.
pub fn program(input: &[u8]) -> String {
    each_step(input, |rest| take(rest).map(|(id, m, config, after)| (step(id, m, config), after)))
}

/// A step: its ID, the length of its list, its configuration, and what follows it.
type Step<'a> = (u8, usize, &'a [u8], &'a [u8]);

/// The first step of what is not empty. An m over 16,384, an n over 8,192 or an input that ends
/// within a step is none.
fn take(input: &[u8]) -> Result<Step<'_>, BadStep> {
    if input.len() < 5 {
        return Err(BadStep);
    }
    let (m, n) = (two_bytes(input, 1), two_bytes(input, 3));
    if m > LIST || n > STEP || input.len() < 5 + n {
        return Err(BadStep);
    }
    Ok((input[0], m, &input[5..5 + n], &input[5 + n..]))
}

/// One step.
pub fn step(id: u8, m: usize, config: &[u8]) -> Printed {
    let mut lent = vec![MARK; m];
    let (line, way) = match list(id, config, &mut lent) {
        Ok(Listed { routes, bytes }) => (format!("routes {routes} {bytes}\n"), None),
        Err(refused) => (refused.line(), Some(refused.way)),
    };
    Printed { lines: line + &lend::shown(&lent), way }
}

/// The program `way`: its one word is the ID of an Output Terminal, two hex digits; standard input a
/// configuration. It prints a route a line, or the refusal. Without that one word it prints how it is
/// used, and reads nothing.
pub fn way<E>(words: &[&str], input: impl FnOnce() -> Result<Vec<u8>, E>) -> Result<Vec<u8>, E> {
    match words {
        [word] if word.len() == 2 && word.bytes().all(|digit| digit.is_ascii_hexdigit()) => {
            let id = u8::from_str_radix(word, 16).expect("two hex digits");
            Ok(lines(id, &input()?).into())
        }
        _ => Ok(USAGE.into()),
    }
}

/// What `way` prints of a configuration.
fn lines(id: u8, config: &[u8]) -> String {
    let mut lent = [0; WAY];
    match list(id, config, &mut lent) {
        // No ID is 00, so that 00 stands after each route and nowhere else.
        Ok(listed) => lent[..listed.bytes - 1].split(|&byte| byte == 0).map(sheet::line).collect(),
        Err(refused) => refused.line(),
    }
}

#[cfg(test)]
mod tests {
    use super::*;
    use crate::generator::build::{case_a, telephone, Part, Plan, Telephone};
    use crate::generator::configs::{desk, feature, input, mixer, output, selector};
    use crate::generator::routes::route_bytes;

    /// The bytes of a list of 64, up to the last that is written.
    fn listed(id: u8, config: &[u8]) -> Result<Vec<u8>, u16> {
        let mut lent = [MARK; 64];
        let listed = list(id, config, &mut lent).map_err(|refused| refused.way.number())?;
        assert_eq!(lent[listed.bytes..], [MARK; 64][listed.bytes..]);
        Ok(lent[..listed.bytes].to_vec())
    }

    #[test]
    fn from_the_output_to_the_input_with_00_after_the_last() {
        assert_eq!(listed(3, &case_a()), Ok(vec![3, 2, 1, 0]));
    }

    #[test]
    fn in_order_of_pins_the_first_pin_first() {
        let routes = [[6, 5, 4, 3, 1, 0], [6, 5, 4, 3, 2, 0]].concat();
        assert_eq!(listed(6, &desk().bytes()), Ok([&routes[..], &[6, 5, 1, 0]].concat()));
        assert_eq!(listed(7, &desk().bytes()), Ok(vec![7, 2, 0]));
    }

    #[test]
    fn two_pins_with_the_same_source_are_two_routes() {
        let parts = vec![
            output(9, 4),
            selector(4, &[2, 1, 2]),
            mixer(2, &[1, 1], 2, (1, 0, 0)),
            input(1, (1, 0, 0)),
        ];
        let up = [9, 4, 2, 1, 0];
        let wanted = [&up[..], &up, &[9, 4, 1, 0], &up, &up].concat();
        assert_eq!(listed(9, &Plan::new(parts, vec![]).bytes()), Ok(wanted));
    }

    /// So many Selectors of so many pins, one above the other, all pins with the same source.
    fn diamond(levels: u8, pins: usize) -> Vec<u8> {
        let mut parts = vec![output(100, levels), input(200, (1, 0, 0))];
        parts.extend((1..=levels).map(|level| {
            let source = if level == 1 { 200 } else { level - 1 };
            selector(level, &vec![source; pins])
        }));
        Plan::new(parts, vec![]).bytes()
    }

    #[test]
    fn at_most_256_routes() {
        let count = |levels, pins| {
            let answer = list(100, &diamond(levels, pins), &mut [0; WAY]);
            answer.map(|listed| listed.routes).map_err(|refused| refused.way)
        };
        assert_eq!(count(8, 2), Ok(256));
        assert_eq!(count(2, 16), Ok(256));
        assert_eq!(count(30, 1), Ok(1));
        assert_eq!(count(9, 2), Err(Way::ManyRoutes));
        assert_eq!(count(2, 17), Err(Way::ManyRoutes));
        assert_eq!(count(30, 24), Err(Way::ManyRoutes));
    }

    #[test]
    fn refusals_in_their_order() {
        let many = diamond(30, 24);
        let number = |id, config: &[u8]| list(id, config, &mut []).unwrap_err().way.number();
        assert_eq!(number(0, &many[1..]), 2);
        for other in [0, 5, 200, 255] {
            assert_eq!(number(other, &many), 45);
        }
        assert_eq!(number(100, &many), 46);
        assert_eq!(number(3, &case_a()), 49);
        let mut broken = case_a();
        broken[43] = 2;
        assert_eq!(step(9, 1, &broken).lines, "refused 12 at 39\nrest 1\n");
        assert_eq!(step(9, 2, &case_a()).lines, "refused 45\nrest 2\n");
        assert_eq!(step(3, 3, &case_a()).lines, "refused 49\nrest 3\n");
        assert_eq!(step(3, 5, &case_a()).lines, "routes 1 4\n03 02 01 00\nrest 1\n");
    }

    /// As many steps as there are entities: "never deeper than 32".
    #[test]
    fn the_longest_route() {
        let mut parts = vec![output(32, 31), input(1, (1, 0, 0))];
        parts.extend((2..=31).map(|id| feature(id, id - 1, 1)));
        let route: Vec<u8> = (0..=32).rev().collect();
        assert_eq!(listed(32, &Plan::new(parts, vec![]).bytes()), Ok(route));
    }

    #[test]
    fn what_is_no_step_ends_the_program() {
        assert_eq!(program(&[]), "");
        let shorts = [&[3][..], &[3, 0], &[3, 0, 0], &[3, 0, 0, 0], &[3, 0, 0, 1, 0]];
        for bad in shorts.into_iter().chain([&[3, 1, 0x40, 0, 0][..], &[3, 0, 0, 2, 0, 9]]) {
            assert_eq!(program(bad), "bad step\n", "{bad:?}");
        }
        assert_eq!(program(&[3, 0, 0x40, 0, 0]), "refused 1 at 0\nrest 16384\n");
        assert_eq!(program(&route_bytes(3, 3, &[0; 8192])), "refused 1 at 0\nrest 3\n");
        assert_eq!(program(&route_bytes(3, 3, &[0; 8193])), "bad step\n");
        let twice = [route_bytes(3, 4, &case_a()), route_bytes(3, 16385, &case_a())].concat();
        assert_eq!(program(&twice), "routes 1 4\n03 02 01 00\nrest 0\nbad step\n");
    }

    #[test]
    fn one_word_of_two_hex_digits() {
        let printed = |words: &[&str], config: Vec<u8>| {
            String::from_utf8(way(words, || Ok::<_, ()>(config)).expect("read")).expect("text")
        };
        let tables = telephone(Telephone::Tables, 2, 0x61);
        assert_eq!(printed(&["04"], tables.clone()), "04 07 02\n04 07 03\n");
        assert_eq!(printed(&["07"], tables), "refused 45\n");
        let parts =
            vec![Part::Input { id: 0xBC, terminal: 1, cluster: (1, 0, 0) }, output(0xAB, 0xBC)];
        let plan = Plan::new(parts, vec![]);
        for word in ["ab", "AB", "aB", "Ab"] {
            assert_eq!(printed(&[word], plan.bytes()), "AB BC\n");
        }
        assert_eq!(printed(&["03"], case_a()[1..].to_vec()), "refused 2 at 0\n");
        assert_eq!(printed(&["64"], diamond(8, 2)).lines().count(), 256);
        assert_eq!(printed(&["64"], diamond(9, 2)), "refused 46\n");
        let wrong = [&[][..], &["3"], &["003"], &["+3"], &["0x"], &["0g"], &[""], &["03", "03"]];
        for words in wrong {
            let unread = || -> Result<Vec<u8>, ()> { unreachable!("nothing is read") };
            assert_eq!(way(words, unread), Ok(b"usage: way ID\n".to_vec()));
        }
    }
}
