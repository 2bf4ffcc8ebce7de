//! Streaming groups: refusal 14.

use super::{
    desk, feature, input, selector, Cases, MIDI, PLAY, PLAYBACK, RECORD, RECORDING, RECORD_IDLE,
    STEREO,
};
use crate::generator::build::{class, filler, general, idle, pcm, pcm_range, working, Part, Plan};
use crate::ways::Way;

/// All of them.
pub fn all(cases: &mut Cases) {
    general_descriptors(cases);
    format_descriptors(cases);
}

/// Refusal 14 up to the FORMAT_TYPE descriptor's opening.
fn general_descriptors(cases: &mut Cases) {
    cases.refuse("no endpoints and a class descriptor", Way::IdleClass, |plan| {
        plan.groups[RECORD_IDLE].body.push(general(6, 1));
        plan.group_place(RECORD_IDLE)
    });
    cases.refuse("no endpoints and a class descriptor later", Way::IdleClass, |plan| {
        plan.groups[RECORD_IDLE].body = vec![filler(0x41, 4), vec![2, 0x24]];
        plan.group_place(RECORD_IDLE)
    });
    cases.refuse("a working group made to have no endpoints", Way::IdleClass, |plan| {
        plan.groups[RECORD].interface[4] = 0;
        plan.group_place(RECORD)
    });
    cases.keep("no endpoints and others", |plan| {
        plan.groups[RECORD_IDLE].body = vec![filler(0x41, 4), filler(0x25, 7)];
    });
    let record = |body: Vec<Vec<u8>>| {
        move |plan: &mut Plan| {
            plan.groups[RECORD].body = body;
            plan.group_place(RECORD)
        }
    };
    let format = pcm(2, &[48000]);
    cases.refuse("an endpoint and nothing", Way::GeneralAbsent, record(vec![]));
    let mut last = desk();
    last.groups.truncate(RECORD + 1);
    last.groups[RECORD].body.clear();
    let place = last.group_place(RECORD);
    cases.refuse_plan("the configuration ends before GENERAL", &last, Way::GeneralAbsent, place);
    last.groups[RECORD].body.push(general(6, 1));
    cases.refuse_plan("the configuration ends before the format", &last, Way::FormatAbsent, place);
    let others = [vec![2, 0x24], vec![7, 0x25, 1, 6, 1, 1, 0], vec![7, 0x24, 2, 6, 1, 1, 0]];
    for other in others {
        let body = vec![other, format.clone()];
        cases.refuse("GENERAL of another opening", Way::GeneralOpening, record(body));
    }
    let body = vec![filler(5, 9), general(6, 1), format.clone()];
    cases.refuse("another before GENERAL", Way::GeneralOpening, record(body));
    let body = vec![format.clone(), general(6, 1)];
    cases.refuse("the format before GENERAL", Way::GeneralOpening, record(body));
    for length in [3, 4, 6, 8] {
        let mut wrong = general(6, 1);
        wrong.resize(length, 0);
        wrong[0] = length as u8;
        let body = vec![wrong, format.clone()];
        cases.refuse("GENERAL of another length", Way::GeneralLength, record(body));
    }
    for (id, way) in [
        (0, Way::LinkUnknown),
        (77, Way::LinkUnknown),
        (3, Way::LinkUnit),
        (4, Way::LinkUnit),
        (5, Way::LinkUnit),
        (8, Way::LinkUnit),
        (1, Way::LinkType),
        (7, Way::LinkType),
    ] {
        let body = vec![general(id, 1), format.clone()];
        cases.refuse(&format!("linked to {id}"), way, record(body));
    }
    for terminal in [0x0100, 0x0102, 0x0001, 0x0201, 0x0301] {
        cases.refuse("the linked Terminal's type", Way::LinkType, |plan| {
            plan.parts[RECORDING] = Part::Output { id: 6, terminal, source: 5 };
            plan.group_place(RECORD)
        });
        cases.refuse("the linked Input Terminal's type", Way::LinkType, |plan| {
            plan.parts[PLAYBACK] = Part::Input { id: 2, terminal, cluster: STEREO };
            plan.group_place(PLAY)
        });
    }
    cases.keep("two groups linked to one Terminal", |plan| {
        plan.groups[PLAY].body[0] = general(6, 1);
    });
    cases.refuse("no format", Way::FormatAbsent, record(vec![general(6, 1)]));
    let body = vec![general(6, 1), filler(5, 9), format.clone()];
    cases.refuse("another before the format", Way::FormatOpening, record(body));
    let others = [vec![2, 0x24], vec![3, 0x24, 1], vec![4, 0x25, 2, 1], general(6, 1)];
    for other in others {
        let body = vec![general(6, 1), other];
        cases.refuse("the format's opening", Way::FormatOpening, record(body));
    }
    for tag in [1, 2] {
        let body = vec![general(6, tag), vec![3, 0x24, 2]];
        cases.refuse("a format of 3 bytes", Way::FormatLength, record(body));
    }
}

/// Refusal 14 within the FORMAT_TYPE descriptor.
fn format_descriptors(cases: &mut Cases) {
    for tag in [0, 2, 0x0100, 0x0101, 0x1001, 0x2001, 0xFFFF] {
        for format in [vec![4, 0x24, 2, 9], pcm(9, &[1])] {
            cases.keep("another tag is not read further", |plan| {
                plan.groups[RECORD].body = vec![general(6, tag), format];
            });
        }
    }
    cases.keep("what follows the format is not looked at", |plan| {
        plan.groups[RECORD].body.insert(2, class(&[1, 0]));
        plan.groups[RECORD].body.push(class(&[2]));
    });
    let at = |name: &str, way: Option<Way>, format: Vec<u8>, cases: &mut Cases| match way {
        Some(way) => cases.refuse(name, way, |plan| {
            plan.groups[RECORD].body[1] = format;
            plan.group_place(RECORD)
        }),
        None => cases.keep(name, |plan| plan.groups[RECORD].body[1] = format),
    };
    for length in 4..8 {
        let mut format = pcm(2, &[48000]);
        format.truncate(length);
        format[0] = length as u8;
        at("tag 1 and a length below 8", Some(Way::PcmLength), format, cases);
    }
    let mut bare = pcm(2, &[]);
    at("tag 1, length 8 and f 0", Some(Way::PcmRangeLength), bare.clone(), cases);
    bare[7] = 1;
    at("tag 1, length 8 and f 1", Some(Way::PcmRates), bare, cases);
    let with = |index: usize, byte: u8| {
        let mut format = pcm(2, &[48000]);
        format[index] = byte;
        format
    };
    for byte in [0, 2, 3, 255] {
        at("format byte 3", Some(Way::PcmFormat), with(3, byte), cases);
    }
    for byte in [0, 1, 3, 255] {
        at("format byte 4", Some(Way::PcmChannels), with(4, byte), cases);
    }
    for byte in [0, 5, 32, 255] {
        at("format byte 5", Some(Way::PcmSubframe), with(5, byte), cases);
    }
    for size in 1..=4u8 {
        for (bits, kept) in [(0, false), (1, true), (8 * size, true), (8 * size + 1, false)] {
            let mut format = with(5, size);
            format[6] = bits;
            let way = (!kept).then_some(Way::PcmResolution);
            at(&format!("{bits} bits in {size}"), way, format, cases);
        }
    }
    at("255 bits", Some(Way::PcmResolution), with(6, 255), cases);
    for rates in [1usize, 2, 3, 82] {
        let format = pcm(2, &vec![44100; rates]);
        at(&format!("{rates} rates"), None, format.clone(), cases);
        let mut short = format.clone();
        short.pop();
        short[0] -= 1;
        at(&format!("{rates} rates, one byte short"), Some(Way::PcmRates), short, cases);
        let mut long = format;
        long.push(0);
        long[0] += 1;
        at(&format!("{rates} rates, one byte long"), Some(Way::PcmRates), long, cases);
    }
    let mut round = pcm(2, &[0]);
    round.truncate(10);
    round[0] = 10;
    round[7] = 86;
    at("86 rates would go round to 10", Some(Way::PcmRates), round, cases);
    for (low, high, kept) in [
        (0, 0, true),
        (8000, 8000, true),
        (8000, 7999, false),
        (0x0001_00FF, 0x0002_0000, true),
        (0x0002_0000, 0x0001_FFFF, false),
        (0x0000_FF00, 0x0001_0000, true),
        (0x0001_0000, 0x0000_FFFF, false),
        (0x00FF_FFFF, 0x00FF_FFFF, true),
        (0x0000_00FF, 0x0000_0100, true),
        (0x0000_0100, 0x0000_00FF, false),
    ] {
        let way = (!kept).then_some(Way::PcmRangeOrder);
        at(&format!("rates {low} to {high}"), way, pcm_range(2, low, high), cases);
    }
    for length in [11, 13, 15, 17] {
        let mut format = pcm_range(2, 1, 2);
        format.resize(length, 0);
        format[0] = length as u8;
        at("a range of another length", Some(Way::PcmRangeLength), format, cases);
    }
    cases.refuse("two streaming faults, the first by place", Way::PcmFormat, |plan| {
        plan.groups[RECORD].body[1][3] = 2;
        plan.groups[PLAY].body.clear();
        plan.group_place(RECORD)
    });
    cases.refuse("a fault in the later group alone", Way::GeneralAbsent, |plan| {
        plan.groups[PLAY].body.clear();
        plan.group_place(PLAY)
    });
    let mut before = desk();
    before.control_after = before.groups.len();
    before.groups[PLAY].body.clear();
    let place = before.group_place(PLAY);
    cases.refuse_plan("a streaming fault before AudioControl", &before, Way::GeneralAbsent, place);
    cases.keep("a MIDI group is not read as a stream", |plan| {
        plan.groups[MIDI].body = vec![class(&[1]), class(&[2])];
    });
    // The Output Terminal's c is that of what enters, through a Selector's first pin.
    let through = Plan::new(
        vec![
            Part::Output { id: 9, terminal: 0x0101, source: 8 },
            selector(8, &[7, 1]),
            feature(7, 1, 6),
            input(1, (6, 0x003F, 0)),
        ],
        vec![idle(1, 0), working(1, 1, 9, pcm(6, &[48000]))],
    );
    cases.keep_plan("a stream of six channels", &through);
    let mut wrong = through;
    wrong.groups[1].body[1] = pcm(2, &[48000]);
    let place = wrong.group_place(1);
    cases.refuse_plan("a stream of two where six enter", &wrong, Way::PcmChannels, place);
}
