//! The duet box (document 02, No. 11): two sides, each with a microphone or none. It "stands on the
//! request layer's promises and opens none of its insides" (refusals 30, 32 and 61 to 64).

use crate::cut::{self, Descriptor};
use crate::numbers::{DUET_CONTROLS, SHEET};
use crate::reader::{self, Answer};
use crate::requests::{self, Load, Reply, State, NUMBER_AT};
use crate::ways::{Refusal, Way};

/// "Presented interface 0 is the left AudioControl, 1 the right".
#[derive(Clone, Copy, Debug, PartialEq, Eq, Hash, PartialOrd, Ord)]
pub enum Side {
    /// 0.
    Left,
    /// 1.
    Right,
}

impl Side {
    /// Both, in their order.
    pub const BOTH: [Side; 2] = [Side::Left, Side::Right];

    /// The side of this number, if it is 0 or 1.
    pub fn of(number: u8) -> Option<Side> {
        Side::BOTH.get(usize::from(number)).copied()
    }

    /// 0 or 1.
    pub fn number(self) -> u8 {
        self as u8
    }

    /// The other one.
    pub fn other(self) -> Side {
        match self {
            Side::Left => Side::Right,
            Side::Right => Side::Left,
        }
    }
}

/// A refusal of the duet box: the reader's has its place.
#[derive(Clone, Copy, Debug, PartialEq, Eq)]
pub enum Refused {
    /// The box's own.
    Own(Way),
    /// The reader's.
    Reader(Refusal),
}

/// What the box holds: for each side what its microphone's reading left, none where it is empty.
#[derive(Clone, Debug, PartialEq, Eq)]
pub struct Duet {
    /// Left and right.
    pub sides: [Option<State>; 2],
}

impl Duet {
    /// "an empty box".
    pub fn empty() -> Duet {
        Duet { sides: [None, None] }
    }

    /// What a side holds.
    pub fn side(&self, side: Side) -> Option<&State> {
        self.sides[usize::from(side.number())].as_ref()
    }

    fn place(&mut self, side: Side) -> &mut Option<State> {
        &mut self.sides[usize::from(side.number())]
    }

    /// How many controls a side holds, none where it is empty.
    pub fn controls(&self, side: Side) -> usize {
        self.side(side).map_or(0, |state| usize::from(state.table.count))
    }

    /// "30 comes first wherever a state is given, for a table that is none or over 192 controls in
    /// all": of either side, whichever is addressed.
    pub fn check(&self) -> Result<(), Way> {
        let tables = self.sides.iter().flatten().map(|state| &state.table);
        if let Some(way) = tables.filter_map(requests::table_breach).next() {
            return Err(way);
        }
        if self.controls(Side::Left) + self.controls(Side::Right) > DUET_CONTROLS {
            return Err(Way::SidesOver);
        }
        Ok(())
    }

    /// "plugging in gives 61 if the side is taken, then the reader's, then 62 if both sides' controls
    /// would pass 192". 62 is known before the sheet is written, so the reading is tried with another.
    pub fn plug_in(
        &mut self,
        side: Side,
        config: &[u8],
        sheet: &mut [u8],
    ) -> Result<Answer, Refused> {
        self.check().map_err(Refused::Own)?;
        if self.side(side).is_some() {
            return Err(Refused::Own(Way::SideTaken));
        }
        let tried = reader::read(config, &mut sheet.to_vec());
        if let Some(refusal) = tried.refusal {
            return Err(Refused::Reader(refusal));
        }
        if usize::from(tried.state.table.count) + self.controls(side.other()) > DUET_CONTROLS {
            return Err(Refused::Own(Way::SidesFull));
        }
        let answer = reader::read(config, sheet);
        *self.place(side) = Some(answer.state.clone());
        Ok(answer)
    }

    /// "Unplugging a side gives its room back."
    pub fn unplug(&mut self, side: Side) -> Result<(), Way> {
        self.check()?;
        self.place(side).take().map(|_| ()).ok_or(Way::UnplugEmpty)
    }

    /// A load of one side's control.
    pub fn load(&mut self, side: Side, load: &Load) -> Result<(), Way> {
        self.check()?;
        let state = self.place(side).as_mut().ok_or(Way::LoadEmpty)?;
        requests::load(&mut state.table, load)
    }

    /// A request: "63 for an empty side, a request after 31 and in front of 32; a presented number
    /// other than 0 and 1 is 32". The box "puts in the microphone's own number and hands the request
    /// down".
    pub fn request(&mut self, setup: &[u8], data: &[u8], reply: &mut [u8]) -> Result<Reply, Way> {
        self.check()?;
        requests::check_setup(setup)?;
        let side = Side::of(setup[NUMBER_AT]).ok_or(Way::PresentedNumber)?;
        let state = self.place(side).as_mut().ok_or(Way::RequestEmpty)?;
        let mut handed = setup.to_vec();
        handed[NUMBER_AT] = state.number;
        requests::request(state, &handed, data, reply)
    }
}

/// "For a side and an ID it also gives back that entity's own descriptor bytes, a stretch of one of
/// the two configurations that the caller lends. That side's must be one the reader accepts, 16
/// apart". No state is given; the other side's is not looked at.
pub fn stretch<'a>(
    side: Side,
    id: u8,
    left: &'a [u8],
    right: &'a [u8],
) -> Result<&'a [u8], Refused> {
    let config = match side {
        Side::Left => left,
        Side::Right => right,
    };
    // A sheet that holds as many records as there may be, so that 16 does not come.
    if let Some(refusal) = reader::read(config, &mut [0; SHEET]).refusal {
        return Err(Refused::Reader(refusal));
    }
    let run = cut::cut(config).expect("the reader accepts it").run;
    let bears = |one: &&Descriptor<'a>| one.bytes[3] == id;
    run.iter().find(bears).map(|one| one.bytes).ok_or(Refused::Own(Way::StretchUnknown))
}

#[cfg(test)]
mod tests {
    use super::*;
    use crate::generator::build::case_a;
    use crate::generator::configs::desk;

    const VOLUME: Load = Load { name: (2, 1, 2), min: 0, max: 1000, res: 1, cur: 300 };

    fn both() -> Duet {
        let mut duet = Duet::empty();
        let mut right = desk();
        right.control[2] = 77;
        duet.plug_in(Side::Left, &case_a(), &mut [0; SHEET]).expect("accepted");
        duet.plug_in(Side::Right, &right.bytes(), &mut [0; SHEET]).expect("accepted");
        duet
    }

    #[test]
    fn the_microphones_own_number_is_put_in() {
        let mut duet = both();
        assert_eq!(duet.side(Side::Right).map(|state| state.number), Some(77));
        let mut reply = [0; 2];
        let get = |number| [0xA1, 0x81, 0, 0, number, 5, 1, 0];
        assert_eq!(duet.request(&get(1), &[], &mut reply), Ok(Reply::Got(1)));
        assert_eq!(reply, [1, 0]);
        assert_eq!(duet.request(&get(77), &[], &mut reply), Err(Way::PresentedNumber));
        assert_eq!(duet.request(&get(0), &[], &mut reply), Err(Way::UnitUnknown));
    }

    #[test]
    fn the_order_of_refusals() {
        let mut duet = both();
        let mut sheet = [7; SHEET];
        let taken = duet.plug_in(Side::Left, &[], &mut sheet);
        assert_eq!(taken, Err(Refused::Own(Way::SideTaken)));
        assert_eq!(duet.load(Side::Left, &VOLUME), Ok(()));
        assert_eq!(duet.unplug(Side::Left), Ok(()));
        assert_eq!(duet.unplug(Side::Left), Err(Way::UnplugEmpty));
        assert_eq!(duet.load(Side::Left, &VOLUME), Err(Way::LoadEmpty));
        let short = duet.plug_in(Side::Left, &[], &mut sheet);
        assert_eq!(short, Err(Refused::Reader(Refusal::at(Way::LengthLow, 0))));
        let mut ask = |setup: &[u8]| duet.request(setup, &[], &mut []);
        assert_eq!(ask(&[0xA1, 0x80, 0, 0, 0, 0, 0, 0]), Err(Way::SetupRequest));
        assert_eq!(ask(&[0xA1, 0x81, 0, 0, 0, 0, 0, 0]), Err(Way::RequestEmpty));
        assert_eq!(ask(&[0xA1, 0x81, 0, 0, 2, 0, 0, 0]), Err(Way::PresentedNumber));
        duet.sides[1].as_mut().expect("plugged in").table.count = 129;
        assert_eq!(duet.unplug(Side::Left), Err(Way::TableCount));
        assert_eq!(duet.load(Side::Left, &VOLUME), Err(Way::TableCount));
        assert_eq!(duet.request(&[], &[], &mut []), Err(Way::TableCount));
        let spoilt = duet.plug_in(Side::Left, &[], &mut sheet);
        assert_eq!(spoilt, Err(Refused::Own(Way::TableCount)));
        assert_eq!(sheet, [7; SHEET]);
    }

    #[test]
    fn a_stretch_is_that_entitys_bytes() {
        let (a, broken) = (case_a(), [9; 3]);
        assert_eq!(stretch(Side::Left, 2, &a, &broken), Ok(&a[39..48]));
        assert_eq!(stretch(Side::Right, 3, &broken, &a), Ok(&a[48..57]));
        let unknown = Err(Refused::Own(Way::StretchUnknown));
        assert_eq!(stretch(Side::Left, 0, &a, &broken), unknown);
        assert_eq!(stretch(Side::Left, 4, &a, &broken), unknown);
        let short = Err(Refused::Reader(Refusal::at(Way::LengthLow, 0)));
        assert_eq!(stretch(Side::Right, 1, &a, &broken), short);
    }
}
