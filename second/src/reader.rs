//! The reader: one configuration in, the whole answer out (refusals 1 to 17).

use crate::controls::{self, Control, Table};
use crate::cut::{self, Cut};
use crate::numbers::{CONTROLS, RECORD};
use crate::requests::State;
use crate::streaming;
use crate::topology::{self, Topology};
use crate::ways::{Refusal, Way};

/// What the reader answers beside the sheet.
#[derive(Clone, Debug, PartialEq, Eq)]
pub struct Answer {
    /// None: "An acceptance answers 0 for number and place."
    pub refusal: Option<Refusal>,
    /// The AudioControl interface number and the table of controls.
    pub state: State,
    /// The count of entities.
    pub entities: usize,
}

impl Answer {
    /// As the programs print it: `accepted I E C` or `refused N at P`.
    pub fn line(&self) -> String {
        match self.refusal {
            Some(refusal) => refusal.line(),
            None => {
                let State { number, table } = &self.state;
                format!("accepted {number} {} {}\n", self.entities, table.count)
            }
        }
    }

    /// The clause of a refusal.
    pub fn way(&self) -> Option<Way> {
        self.refusal.map(|refusal| refusal.way)
    }
}

/// Reads a configuration. "A refusal answers its number, a place, interface number 0, zero counts
/// and an empty table; the sheet keeps its bytes."
pub fn read(config: &[u8], sheet: &mut [u8]) -> Answer {
    match accept(config, sheet) {
        Ok(answer) => answer,
        Err(refusal) => Answer { refusal: Some(refusal), state: State::empty(), entities: 0 },
    }
}

/// What a configuration says that keeps every rule but 16, which is about the lent sheet.
pub struct Kept<'a> {
    /// Its groups and its header.
    pub cut: Cut<'a>,
    /// Its entities and their clusters.
    pub topology: Topology<'a>,
    /// Its controls, 128 at most.
    pub controls: Vec<Control>,
}

/// The three layers in their order; the first refusal stands: "the reader's own but 16".
pub fn keep(config: &[u8]) -> Result<Kept<'_>, Refusal> {
    let cut = cut::cut(config)?;
    let topology = topology::read(&cut.run)?;
    streaming::check(&cut.groups, &topology)?;
    let controls = controls::of_topology(&topology);
    if controls.len() > CONTROLS {
        return Err(Refusal::at(Way::ManyControls, cut.header.place));
    }
    Ok(Kept { cut, topology, controls })
}

fn accept(config: &[u8], sheet: &mut [u8]) -> Result<Answer, Refusal> {
    let Kept { cut, topology, controls } = keep(config)?;
    let entities = topology.entities.len();
    if sheet.len() < RECORD * entities {
        return Err(Refusal::at(Way::SheetShort, cut.header.place));
    }
    write_sheet(&topology, sheet);
    let table = Table::of(&controls).expect("refusal 15 comes first");
    Ok(Answer { refusal: None, state: State { number: cut.control_number, table }, entities })
}

/// "no header, in entity order: ID; kind ...; c; bitmap (2); name index; pins; 00"; "then twenty-four
/// source IDs", "unused ones 00. Bytes past the last record stay."
fn write_sheet(topology: &Topology, sheet: &mut [u8]) {
    let rows = sheet.chunks_exact_mut(RECORD);
    for ((entity, cluster), row) in topology.entities.iter().zip(&topology.clusters).zip(rows) {
        let [low, high] = cluster.bitmap.to_le_bytes();
        let pins = entity.sources.len();
        row.fill(0);
        row[0] = entity.id;
        row[1] = entity.kind_byte();
        row[2] = cluster.channels;
        row[3] = low;
        row[4] = high;
        row[5] = cluster.name;
        row[6] = pins as u8;
        row[8..8 + pins].copy_from_slice(&entity.sources);
    }
}

#[cfg(test)]
mod tests {
    use super::*;
    use crate::generator::build::case_a;
    use crate::numbers::SHEET;

    fn refused(config: &[u8]) -> Option<(u16, usize)> {
        read(config, &mut [0; SHEET]).refusal.map(|one| (one.way.number(), one.place))
    }

    /// The table of document 01, "Cases to prove together".
    #[test]
    fn the_cases_to_prove_together() {
        let a = case_a();
        assert_eq!(a.len(), 109);
        assert_eq!(refused(&a), None);
        let with = |at: usize, byte: u8| {
            let mut changed = a.clone();
            changed[at] = byte;
            refused(&changed)
        };
        assert_eq!(with(2, 108), Some((2, 0)));
        assert_eq!(refused(&a[..8]), Some((1, 0)));
        assert_eq!(with(43, 2), Some((12, 39)));
        assert_eq!(with(42, 1), Some((10, 39)));
        assert_eq!(with(43, 3), Some((11, 39)));
    }

    #[test]
    fn the_sheet_has_to_hold_the_records_and_no_more() {
        let a = case_a();
        let mut short = [9; 95];
        let answer = read(&a, &mut short);
        assert_eq!(answer.refusal, Some(Refusal::at(Way::SheetShort, 18)));
        assert_eq!(answer.state, State::empty());
        assert_eq!(short, [9; 95]);
        let mut exact = [9; 96];
        assert_eq!(read(&a, &mut exact).refusal, None);
        let mut longer = [9; 98];
        assert_eq!(read(&a, &mut longer).refusal, None);
        assert_eq!(longer[..96], exact);
        assert_eq!(longer[96..], [9; 2]);
    }

    #[test]
    fn a_table_by_entity_place_channel_selector() {
        let answer = read(&case_a(), &mut [0; SHEET]);
        let names: Vec<_> =
            answer.state.table.controls().unwrap().iter().map(|one| one.name()).collect();
        assert_eq!(names, [(2, 0, 1), (2, 1, 2)]);
        assert_eq!(answer.entities, 3);
    }
}
