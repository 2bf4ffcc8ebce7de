//! Loads and class requests over a table (refusals 20, 21 and 30 to 39).

use crate::controls::{Control, Holds, Table, PIN_SELECTOR};
use crate::numbers::{CHANNELS, PINS};
use crate::settings::Fault;
use crate::ways::Way;

/// "channel number 255 of a Feature Unit addresses that selector on all channels that have it".
pub const ALL_CHANNELS: u8 = 255;

/// Where a setup has the interface number: the "wIndex low byte".
pub const NUMBER_AT: usize = 4;

/// What the box holds between steps.
#[derive(Clone, Debug, PartialEq, Eq)]
pub struct State {
    /// The AudioControl interface number.
    pub number: u8,
    /// The table of controls.
    pub table: Table,
}

impl State {
    /// Before anything is plugged in.
    pub fn empty() -> State {
        State { number: 0, table: Table::empty() }
    }
}

/// "A load gives MIN, MAX, RES, CUR to one ranged control, named by unit ID, channel and
/// selector".
#[derive(Clone, Copy, Debug)]
pub struct Load {
    /// Unit ID, channel, selector.
    pub name: (u8, u8, u8),
    /// MIN.
    pub min: u16,
    /// MAX.
    pub max: u16,
    /// RES.
    pub res: u16,
    /// CUR.
    pub cur: u16,
}

/// An accepted request.
#[derive(Clone, Debug, PartialEq, Eq)]
pub enum Reply {
    /// "an accepted Set leaves the reply too".
    Set,
    /// How many bytes an accepted Get wrote "to the front of the reply": "the first wLength bytes
    /// of the value, or all of it if wLength is larger", and for several values "a Get's whole
    /// block is what wLength cuts".
    Got(usize),
}

/// Refusal 30: "the table is not one".
pub fn table_breach(table: &Table) -> Option<Way> {
    let Some(controls) = table.controls() else {
        return Some(Way::TableCount);
    };
    for (index, control) in controls.iter().enumerate() {
        if controls[..index].iter().any(|earlier| earlier.name() == control.name()) {
            return Some(Way::TableTwice);
        }
        if let Some(way) = control_breach(control) {
            return Some(way);
        }
    }
    None
}

/// What 30 says of one control: "an unknown selector, a channel over 16 (over 0 for a
/// Selector's), a pin count no Selector may have, or, in a loaded control, an illegal range, or,
/// in an unranged or loaded one, a number too wide for the control or a value that is no setting".
fn control_breach(control: &Control) -> Option<Way> {
    match Holds::of(control.selector) {
        None => Some(Way::TableSelector),
        Some(Holds::Pin) => pin_breach(control),
        Some(_) if usize::from(control.channel) > CHANNELS => Some(Way::TableChannel),
        Some(Holds::YesNo) if unranged_wide(control) => Some(Way::TableWideUnranged),
        Some(Holds::YesNo) => (control.cur > 1).then_some(Way::TableSettingYesNo),
        Some(Holds::Ranged(_)) if !control.loaded => None,
        Some(Holds::Ranged(scale)) => {
            if [control.min, control.max, control.res, control.cur]
                .iter()
                .any(|&held| scale.too_wide(held))
            {
                return Some(Way::TableWideLoaded);
            }
            let range = scale.range(control.min, control.max, control.res);
            match scale.fault(range) {
                Some(Fault::Order) => Some(Way::TableOrder),
                Some(Fault::ResZero) => Some(Way::TableResZero),
                Some(Fault::ResHigh) => Some(Way::TableResHigh),
                Some(Fault::VolumeMin) => Some(Way::TableVolumeMin),
                None => (!scale.is_setting(range, scale.number(control.cur)))
                    .then_some(Way::TableSettingLoaded),
            }
        }
    }
}

/// The part of 30 for a Selector's control.
fn pin_breach(control: &Control) -> Option<Way> {
    if control.channel > 0 {
        return Some(Way::TableSelectorChannel);
    }
    if !(1..=PINS).contains(&usize::from(control.pins)) {
        return Some(Way::TablePins);
    }
    if unranged_wide(control) {
        return Some(Way::TableWideUnranged);
    }
    (!(1..=u16::from(control.pins)).contains(&control.cur)).then_some(Way::TableSettingPin)
}

/// Whether a number of an unranged control, all of which have one byte, is too wide.
fn unranged_wide(control: &Control) -> bool {
    [control.min, control.max, control.res, control.cur].iter().any(|&held| held > 255)
}

/// A load: refusals 30, 20 and 21 in this order. All leave the table as it stood.
pub fn load(table: &mut Table, load: &Load) -> Result<(), Way> {
    if let Some(way) = table_breach(table) {
        return Err(way);
    }
    let count = usize::from(table.count);
    let control = table.places[..count]
        .iter_mut()
        .find(|control| control.name() == load.name)
        .ok_or(Way::LoadUnknown)?;
    let scale = Holds::of(control.selector).and_then(Holds::scale).ok_or(Way::LoadUnranged)?;
    if [load.min, load.max, load.res, load.cur].iter().any(|&held| scale.too_wide(held)) {
        return Err(Way::LoadWide);
    }
    let range = scale.range(load.min, load.max, load.res);
    match scale.fault(range) {
        Some(Fault::Order) => return Err(Way::LoadOrder),
        Some(Fault::ResZero) => return Err(Way::LoadResZero),
        Some(Fault::ResHigh) => return Err(Way::LoadResHigh),
        Some(Fault::VolumeMin) => return Err(Way::LoadVolumeMin),
        None => {}
    }
    (control.min, control.max, control.res) = (load.min, load.max, load.res);
    control.cur = scale.held(scale.stored(range, scale.number(load.cur)));
    control.loaded = true;
    Ok(())
}

/// The five pairs of type and request: "21/01, A1/81, A1/82, A1/83 or A1/84".
#[derive(Clone, Copy, Debug, PartialEq, Eq)]
enum Asks {
    Set,
    GetCur,
    GetMin,
    GetMax,
    GetRes,
}

impl Asks {
    fn of(kind: u8, request: u8) -> Option<Asks> {
        match (kind, request) {
            (0x21, 0x01) => Some(Asks::Set),
            (0xA1, 0x81) => Some(Asks::GetCur),
            (0xA1, 0x82) => Some(Asks::GetMin),
            (0xA1, 0x83) => Some(Asks::GetMax),
            (0xA1, 0x84) => Some(Asks::GetRes),
            _ => None,
        }
    }

    /// The number that a Get reads.
    fn number(self, control: &Control) -> u16 {
        match self {
            Asks::Set | Asks::GetCur => control.cur,
            Asks::GetMin => control.min,
            Asks::GetMax => control.max,
            Asks::GetRes => control.res,
        }
    }
}

/// A request: refusals 30 and 31 to 39 in this order. "All leave table and reply as they stood".
pub fn request(
    state: &mut State,
    setup: &[u8],
    data: &[u8],
    reply: &mut [u8],
) -> Result<Reply, Way> {
    if let Some(way) = table_breach(&state.table) {
        return Err(way);
    }
    let asks = asked(setup)?;
    let places = address(state, setup)?;
    let addressed: Vec<Control> = places.iter().map(|&place| state.table.places[place]).collect();
    let holds = Holds::of(setup[3]).expect("refusal 30 comes first");
    check_controls(&addressed, holds, asks)?;
    let length = usize::from(setup[6]) + 256 * usize::from(setup[7]);
    if asks == Asks::Set {
        let values = values_to_store(&addressed, holds, length, data)?;
        for (place, value) in places.into_iter().zip(values) {
            state.table.places[place].cur = value;
        }
        return Ok(Reply::Set);
    }
    let block = block(&addressed, holds, asks);
    let sent = &block[..block.len().min(length)];
    reply.get_mut(..sent.len()).ok_or(Way::ReplyShort)?.copy_from_slice(sent);
    Ok(Reply::Got(sent.len()))
}

/// Refusal 31: "setup not 8 bytes, or type and request not" one of the five.
fn asked(setup: &[u8]) -> Result<Asks, Way> {
    if setup.len() != 8 {
        return Err(Way::SetupLength);
    }
    Asks::of(setup[0], setup[1]).ok_or(Way::SetupRequest)
}

/// Refusal 31 alone, for what stands above this layer.
pub fn check_setup(setup: &[u8]) -> Result<(), Way> {
    asked(setup).map(|_| ())
}

/// Refusals 32, 33 and 34: the places of the addressed controls, "from the lowest such channel
/// up". They are of one selector; a request for one channel has one of them.
fn address(state: &State, setup: &[u8]) -> Result<Vec<usize>, Way> {
    if setup[NUMBER_AT] != state.number {
        return Err(Way::InterfaceNumber);
    }
    let (channel, selector, unit) = (setup[2], setup[3], setup[5]);
    let controls = state.table.controls().expect("refusal 30 comes first");
    let of_unit = || controls.iter().filter(|control| control.unit == unit);
    if of_unit().next().is_none() {
        return Err(Way::UnitUnknown);
    }
    let all = channel == ALL_CHANNELS && selector != PIN_SELECTOR;
    let asked = |control: &Control| {
        (control.unit, control.selector) == (unit, selector) && (all || control.channel == channel)
    };
    let mut places: Vec<usize> =
        (0..controls.len()).filter(|&place| asked(&controls[place])).collect();
    places.sort_by_key(|&place| controls[place].channel);
    let all_pins = of_unit().all(|control| Holds::of(control.selector) == Some(Holds::Pin));
    match places.is_empty() {
        false => Ok(places),
        true if all_pins => Err(Way::SelectorValue),
        true if all => Err(Way::ChannelsUnknown),
        true => Err(Way::ControlUnknown),
    }
}

/// Refusals 35 and 36: "36 if any is not loaded".
fn check_controls(controls: &[Control], holds: Holds, asks: Asks) -> Result<(), Way> {
    let bound = matches!(asks, Asks::GetMin | Asks::GetMax | Asks::GetRes);
    match holds {
        Holds::YesNo if bound => Err(Way::UnrangedYesNo),
        Holds::Pin if bound => Err(Way::UnrangedPin),
        Holds::Ranged(_) if controls.iter().any(|control| !control.loaded) => Err(Way::NotLoaded),
        _ => Ok(()),
    }
}

/// "The block holds the values from the lowest such channel up, each at its size".
fn block(controls: &[Control], holds: Holds, asks: Asks) -> Vec<u8> {
    let mut block = Vec::new();
    for control in controls {
        block.extend(&asks.number(control).to_le_bytes()[..holds.size()]);
    }
    block
}

/// Refusals "37 and 38 over the whole block", or what an accepted Set stores in these controls.
fn values_to_store(
    controls: &[Control],
    holds: Holds,
    length: usize,
    data: &[u8],
) -> Result<Vec<u16>, Way> {
    let whole = controls.len() * holds.size();
    if length != whole {
        return Err(Way::SetLength);
    }
    if data.len() != whole {
        return Err(Way::SetData);
    }
    let values = data.chunks(holds.size());
    controls.iter().zip(values).map(|(one, value)| value_to_store(one, holds, value)).collect()
}

/// Refusal 38, or what an accepted Set stores in one control. The data is as long as its size.
fn value_to_store(control: &Control, holds: Holds, data: &[u8]) -> Result<u16, Way> {
    let wire = data.iter().rev().fold(0, |so_far, &byte| so_far * 256 + u16::from(byte));
    match holds {
        Holds::YesNo if wire > 1 => Err(Way::SetYesNo),
        Holds::Pin if wire < 1 => Err(Way::SetPinZero),
        Holds::Pin if wire > u16::from(control.pins) => Err(Way::SetPinHigh),
        Holds::YesNo | Holds::Pin => Ok(wire),
        Holds::Ranged(scale) => {
            let range = scale.range(control.min, control.max, control.res);
            Ok(scale.held(scale.stored(range, scale.number(wire))))
        }
    }
}

#[cfg(test)]
mod tests {
    use super::*;

    fn volume_box() -> State {
        let volume = Control { unit: 2, selector: 2, ..Control::default() };
        let pin = Control { unit: 3, pins: 2, cur: 1, ..Control::default() };
        State { number: 4, table: Table::of(&[volume, pin]).unwrap() }
    }

    fn loaded_box() -> State {
        let mut state = volume_box();
        let range = Load { name: (2, 0, 2), min: 0xEC00, max: 0, res: 256, cur: 0 };
        assert_eq!(load(&mut state.table, &range), Ok(()));
        state
    }

    #[test]
    fn a_get_after_a_set_gives_the_closest() {
        let mut state = loaded_box();
        let set = [0x21, 1, 0, 2, 4, 2, 2, 0];
        let wanted = (-300i16).to_le_bytes();
        assert_eq!(request(&mut state, &set, &wanted, &mut []), Ok(Reply::Set));
        let mut reply = [7; 3];
        let get = [0xA1, 0x81, 0, 2, 4, 2, 2, 0];
        assert_eq!(request(&mut state, &get, &[], &mut reply), Ok(Reply::Got(2)));
        assert_eq!(reply, [0x00, 0xFF, 7]);
    }

    #[test]
    fn the_order_of_refusals() {
        let mut state = volume_box();
        let mut ask = |setup: &[u8]| request(&mut state, setup, &[], &mut []);
        assert_eq!(ask(&[0xA1]), Err(Way::SetupLength));
        assert_eq!(ask(&[0xA1, 0x85, 9, 9, 9, 9, 9, 9]), Err(Way::SetupRequest));
        assert_eq!(ask(&[0xA1, 0x84, 9, 9, 9, 9, 9, 9]), Err(Way::InterfaceNumber));
        assert_eq!(ask(&[0xA1, 0x84, 9, 9, 4, 9, 9, 9]), Err(Way::UnitUnknown));
        assert_eq!(ask(&[0xA1, 0x84, 9, 9, 4, 2, 9, 9]), Err(Way::ControlUnknown));
        assert_eq!(ask(&[0xA1, 0x84, 9, 9, 4, 3, 9, 9]), Err(Way::SelectorValue));
        assert_eq!(ask(&[0xA1, 0x84, 0, 0, 4, 3, 9, 9]), Err(Way::UnrangedPin));
        assert_eq!(ask(&[0xA1, 0x84, 0, 2, 4, 2, 9, 9]), Err(Way::NotLoaded));
        assert_eq!(ask(&[0x21, 0x01, 0, 0, 4, 3, 9, 9]), Err(Way::SetLength));
        assert_eq!(ask(&[0xA1, 0x81, 0, 0, 4, 3, 9, 9]), Err(Way::ReplyShort));
        assert_eq!(ask(&[0xA1, 0x81, 0, 0, 4, 3, 1, 0]), Err(Way::ReplyShort));
        assert_eq!(ask(&[0xA1, 0x81, 0, 0, 4, 3, 0, 0]), Ok(Reply::Got(0)));
    }

    #[test]
    fn a_get_sends_no_more_than_is_asked_for() {
        let mut state = loaded_box();
        for (length, sent) in [(0, 0), (1, 1), (2, 2), (64, 2)] {
            let mut reply = [7; 3];
            let get = [0xA1, 0x84, 0, 2, 4, 2, length, 0];
            assert_eq!(request(&mut state, &get, &[], &mut reply), Ok(Reply::Got(sent)));
            assert_eq!(reply[..sent], [0, 1][..sent]);
            assert!(reply[sent..].iter().all(|&byte| byte == 7));
        }
    }

    /// Unit 2 with volume on channels 3, 0 and 16, which stand in this order, and mute on two.
    fn channels_box() -> State {
        let control =
            |channel, selector| Control { unit: 2, channel, selector, ..Control::default() };
        let pin = Control { unit: 3, pins: 2, cur: 1, ..Control::default() };
        let controls =
            [control(3, 2), control(1, 1), control(0, 2), pin, control(0, 1), control(16, 2)];
        State { number: 4, table: Table::of(&controls).unwrap() }
    }

    fn load_channel(state: &mut State, channel: u8, min: u16, res: u16) {
        let range = Load { name: (2, channel, 2), min, max: 0, res, cur: 0 };
        assert_eq!(load(&mut state.table, &range), Ok(()));
    }

    #[test]
    fn a_block_goes_by_channel_number() {
        let mut state = channels_box();
        load_channel(&mut state, 3, 0xFF00, 3);
        load_channel(&mut state, 0, 0xFE00, 256);
        load_channel(&mut state, 16, 0xFD00, 7);
        let set = [0x21, 1, 255, 2, 4, 2, 6, 0];
        let wanted = [0x7F, 0xFF, 0x00, 0x80, 0xFF, 0xFC];
        assert_eq!(request(&mut state, &set, &wanted, &mut []), Ok(Reply::Set));
        assert_eq!([2, 0, 5].map(|place| state.table.places[place].cur), [0xFF00, 0x8000, 0xFD00]);
        let mut reply = [7; 5];
        let get = [0xA1, 0x82, 255, 2, 4, 2, 5, 0];
        assert_eq!(request(&mut state, &get, &[], &mut reply), Ok(Reply::Got(5)));
        assert_eq!(reply, [0x00, 0xFE, 0x00, 0xFF, 0x00]);
    }

    #[test]
    fn the_order_of_refusals_of_a_block() {
        let mut state = channels_box();
        let mut ask = |setup: &[u8], data: &[u8]| request(&mut state, setup, data, &mut [0; 1]);
        assert_eq!(ask(&[0xA1, 0x84, 255, 1, 4, 9, 9, 9], &[]), Err(Way::UnitUnknown));
        assert_eq!(ask(&[0xA1, 0x84, 255, 3, 4, 2, 9, 9], &[]), Err(Way::ChannelsUnknown));
        assert_eq!(ask(&[0xA1, 0x84, 255, 0, 4, 2, 9, 9], &[]), Err(Way::ControlUnknown));
        assert_eq!(ask(&[0xA1, 0x84, 255, 0, 4, 3, 9, 9], &[]), Err(Way::SelectorValue));
        assert_eq!(ask(&[0xA1, 0x84, 255, 1, 4, 2, 9, 9], &[]), Err(Way::UnrangedYesNo));
        assert_eq!(ask(&[0x21, 0x01, 255, 2, 4, 2, 9, 9], &[]), Err(Way::NotLoaded));
        assert_eq!(ask(&[0x21, 0x01, 255, 1, 4, 2, 1, 0], &[9]), Err(Way::SetLength));
        assert_eq!(ask(&[0x21, 0x01, 255, 1, 4, 2, 2, 0], &[9]), Err(Way::SetData));
        assert_eq!(ask(&[0x21, 0x01, 255, 1, 4, 2, 2, 0], &[1, 9]), Err(Way::SetYesNo));
        assert_eq!(ask(&[0xA1, 0x81, 255, 1, 4, 2, 2, 0], &[]), Err(Way::ReplyShort));
        assert_eq!(ask(&[0xA1, 0x81, 255, 1, 4, 2, 1, 0], &[]), Ok(Reply::Got(1)));
        assert_eq!(state, channels_box());
    }

    #[test]
    fn silence_is_a_setting_for_30() {
        let mut state = loaded_box();
        state.table.places[0].cur = 0x8000;
        assert_eq!(table_breach(&state.table), None);
        state.table.places[0].cur = 0x8001;
        assert_eq!(table_breach(&state.table), Some(Way::TableSettingLoaded));
    }

    #[test]
    fn a_control_that_is_not_loaded_has_no_number_tested() {
        let mut state = volume_box();
        state.table.places[0].res = 0;
        state.table.places[0].min = 0x8000;
        assert_eq!(table_breach(&state.table), None);
    }
}
