//! Cutting: refusals 1 to 8.

use super::{desk, input, output, Cases, KEYS, MIDI, RECORD, RECORD_IDLE, STEREO, VENDOR};
use crate::generator::build::{class, filler, idle, interface, GroupPlan, Part, Plan};
use crate::numbers::{CONFIGURATION_MOST, ENTITIES};
use crate::ways::Way;

/// All of them.
pub fn all(cases: &mut Cases) {
    opening(cases);
    interfaces(cases);
    headers(cases);
    collections(cases);
    counts(cases);
}

/// Refusals 1, 2 and 3.
fn opening(cases: &mut Cases) {
    let desk_bytes = desk().bytes();
    let end = desk_bytes.len();
    cases.refuse_bytes("no byte", vec![], Way::LengthLow, 0);
    cases.refuse_bytes("one byte", vec![9], Way::LengthLow, 0);
    cases.refuse_bytes("8 bytes that say 8", vec![8, 2, 8, 0, 0, 0, 0, 0], Way::LengthLow, 0);
    let bare = vec![9, 2, 9, 0, 0, 1, 0, 0x80, 0];
    cases.refuse_bytes("9 bytes", bare.clone(), Way::NoAudioControl, 9);
    let full = desk().padded(CONFIGURATION_MOST);
    cases.keep_plan("4,096 bytes", &full);
    let over = desk().padded(CONFIGURATION_MOST + 1);
    cases.refuse_plan("4,097 bytes", &over, Way::LengthHigh, 0);
    let with = |at: usize, byte: u8| {
        let mut changed = desk_bytes.clone();
        changed[at] = byte;
        changed
    };
    for byte in [0, 8, 10, 255] {
        cases.refuse_bytes("byte 0 is not 09", with(0, byte), Way::OpeningLength, 0);
    }
    for byte in [1, 3, 4, 0x24] {
        cases.refuse_bytes("byte 1 is not 02", with(1, byte), Way::OpeningType, 0);
    }
    let low = desk_bytes[2];
    cases.refuse_bytes("bytes 2..3 one less", with(2, low - 1), Way::OpeningTotal, 0);
    cases.refuse_bytes("bytes 2..3 one more", with(2, low + 1), Way::OpeningTotal, 0);
    cases.refuse_bytes("bytes 2..3, high byte", with(3, 9), Way::OpeningTotal, 0);
    let mut swapped = desk_bytes.clone();
    swapped.swap(2, 3);
    cases.refuse_bytes("bytes 2..3, high byte first", swapped, Way::OpeningTotal, 0);
    cases.refuse_bytes("length 0", with(9, 0), Way::DescriptorShort, 9);
    cases.refuse_bytes("length 1", with(9, 1), Way::DescriptorShort, 9);
    let header = desk().header_place();
    cases.refuse_bytes("length 0 of the header", with(header, 0), Way::DescriptorShort, header);
    let tail = |bytes: &[u8]| {
        let mut plan = desk();
        plan.groups[VENDOR].body.push(bytes.to_vec());
        plan.bytes()
    };
    cases.keep_bytes("last descriptor ends at L", tail(&[2, 0x41]));
    cases.keep_bytes("last descriptor ends at L, 5 long", tail(&[5, 0x24, 0, 0, 0]));
    cases.refuse_bytes("runs one past L", tail(&[3, 0x41]), Way::DescriptorLong, end);
    cases.refuse_bytes("runs far past L", tail(&[255, 0x24, 1]), Way::DescriptorLong, end);
    cases.refuse_bytes("a single last byte, 2", tail(&[2]), Way::DescriptorLong, end);
    cases.refuse_bytes("a single last byte, 1", tail(&[1]), Way::DescriptorShort, end);
    cases.refuse_bytes("a single last byte, 0", tail(&[0]), Way::DescriptorShort, end);
    cases.refuse_bytes(
        "two short ones, the first",
        tail(&[2, 1, 0, 1]),
        Way::DescriptorShort,
        end + 2,
    );
}

/// Refusal 4.
fn interfaces(cases: &mut Cases) {
    for length in [2, 3, 4, 7, 8, 10, 11, 255] {
        cases.refuse("an interface of another length", Way::InterfaceLength, |plan| {
            plan.groups[VENDOR].interface.resize(length, 0);
            plan.groups[VENDOR].interface[0] = length as u8;
            plan.group_place(VENDOR)
        });
    }
    cases.refuse("a skipped interface of 8 before all others", Way::InterfaceLength, |plan| {
        plan.groups[KEYS].interface.truncate(8);
        plan.groups[KEYS].interface[0] = 8;
        plan.group_place(KEYS)
    });
    cases.refuse("an AudioControl interface of 10", Way::InterfaceLength, |plan| {
        plan.control.push(0);
        plan.control[0] = 10;
        plan.control_place()
    });
    cases.refuse("a streaming pair twice", Way::InterfacePair, |plan| {
        let again = plan.groups[RECORD_IDLE].clone();
        plan.groups.push(again);
        plan.group_place(VENDOR + 1)
    });
    cases.refuse("a skipped pair twice", Way::InterfacePair, |plan| {
        plan.groups[VENDOR].interface[2] = 4;
        plan.group_place(VENDOR)
    });
    cases.refuse("a skipped group bears the AudioControl pair", Way::InterfacePair, |plan| {
        plan.groups[VENDOR].interface[2] = 0;
        plan.group_place(VENDOR)
    });
    cases.refuse("AudioControl bears an earlier pair", Way::InterfacePair, |plan| {
        plan.control[2] = 4;
        plan.control_place()
    });
    cases.keep("AudioControl's number with another setting", |plan| {
        plan.groups[VENDOR].interface[2] = 0;
        plan.groups[VENDOR].interface[3] = 1;
    });
    cases.keep("another AudioControl number", |plan| plan.control[2] = 200);
    cases.keep("a skipped number with two settings", |plan| {
        plan.groups[VENDOR].interface[2] = 4;
        plan.groups[VENDOR].interface[3] = 1;
    });
    cases.refuse("a second AudioControl", Way::SecondAudioControl, |plan| {
        plan.groups[VENDOR].interface = interface(9, 0, 0, 1, 1);
        plan.group_place(VENDOR)
    });
    cases.refuse("a second AudioControl in front", Way::SecondAudioControl, |plan| {
        plan.groups[KEYS].interface = interface(9, 0, 0, 1, 1);
        plan.control_place()
    });
    for setting in [1, 2, 255] {
        cases.refuse("AudioControl with a setting", Way::AudioControlSetting, |plan| {
            plan.control[3] = setting;
            plan.control_place()
        });
    }
    cases.refuse("no AudioControl", Way::NoAudioControl, |plan| {
        plan.control[6] = 0;
        plan.bytes().len()
    });
    cases.refuse("no AudioControl, class 2 subclass 1", Way::NoAudioControl, |plan| {
        plan.control[5] = 2;
        plan.bytes().len()
    });
    cases.refuse("no AudioControl and a short interface", Way::InterfaceLength, |plan| {
        plan.control[6] = 0;
        plan.groups[VENDOR].interface = vec![2, 4];
        plan.group_place(VENDOR)
    });
    cases.refuse("two faults, the pair first", Way::InterfacePair, |plan| {
        plan.groups[RECORD].interface[3] = 0;
        plan.groups[VENDOR].interface = vec![2, 4];
        plan.group_place(RECORD)
    });
    cases.refuse("two faults, the length first", Way::InterfaceLength, |plan| {
        plan.groups[RECORD].interface.truncate(8);
        plan.groups[RECORD].interface[0] = 8;
        plan.groups[VENDOR].interface[2] = 4;
        plan.group_place(RECORD)
    });
    cases.keep("AudioControl's protocol byte is not read", |plan| plan.control[7] = 0x30);
    cases.keep("AudioControl with an endpoint", |plan| {
        plan.control[4] = 1;
        plan.tail = vec![vec![9, 5, 0x82, 3, 2, 0, 16, 0, 0]];
    });
    cases.keep("a streaming group's protocol byte is not read", |plan| {
        plan.groups[RECORD].interface[7] = 0x20;
    });
    for (first, second) in [(1, 0), (1, 4), (2, 2), (0, 1), (14, 1)] {
        cases.keep("a class that is skipped", |plan| {
            plan.groups[VENDOR].interface[5] = first;
            plan.groups[VENDOR].interface[6] = second;
        });
    }
}

/// Refusals 5 and 6.
fn headers(cases: &mut Cases) {
    let alone = Plan { header: Some(vec![]), ..Plan::new(vec![], vec![]) };
    cases.refuse_plan("nothing after the interface", &alone, Way::HeaderAtEnd, 18);
    cases.refuse("the next group begins", Way::HeaderAtGroup, |plan| {
        plan.header = Some(vec![]);
        plan.parts.clear();
        plan.header_place()
    });
    cases.refuse("an entity where the header should stand", Way::HeaderOpening, |plan| {
        plan.header = Some(vec![]);
        plan.header_place()
    });
    cases.refuse("another descriptor before the header", Way::HeaderOpening, |plan| {
        plan.control.extend([2, 0x41]);
        plan.header_place() - 2
    });
    for (at, byte) in [(1, 0x25), (1, 0x05), (2, 0), (2, 2), (3, 1), (4, 0), (4, 2), (3, 0x10)] {
        cases.refuse("header: bytes 1 to 4", Way::HeaderOpening, |plan| {
            let mut header = class(&[1, 0, 1, 0, 0, 3, 1, 2, 3]);
            header[at] = byte;
            plan.header = Some(header);
            plan.header_place()
        });
    }
    for length in [2, 3, 4] {
        cases.refuse("header: too short for its opening", Way::HeaderOpening, |plan| {
            plan.header = Some(vec![0, 0x24, 1, 0][..length].to_vec());
            plan.header.as_mut().unwrap()[0] = length as u8;
            plan.header_place()
        });
    }
    for length in [5, 6, 7, 8, 10, 12, 13] {
        cases.refuse("header: length is not 8+n", Way::HeaderLength, |plan| {
            let mut header = class(&[1, 0, 1, 0, 0, 3, 1, 2, 3, 4, 5]);
            header.truncate(length);
            header[0] = length as u8;
            plan.header = Some(header);
            plan.header_place()
        });
    }
    cases.refuse("header: n 248 would wrap to length 0", Way::HeaderLength, |plan| {
        plan.header = Some(vec![8, 0x24, 1, 0, 1, 0, 0, 248]);
        plan.header_place()
    });
    let total = |plan: &Plan| -> u16 {
        let bytes = plan.bytes();
        let at = plan.header_place();
        u16::from_le_bytes([bytes[at + 5], bytes[at + 6]])
    };
    for change in [-1, 1, 256, -9] {
        cases.refuse("total wrong", Way::TotalWrong, |plan| {
            plan.total = Some((total(plan) as i32 + change) as u16);
            plan.header_place()
        });
    }
    cases.refuse("total of the run alone", Way::TotalWrong, |plan| {
        plan.total = Some(total(plan) - 11);
        plan.header_place()
    });
    cases.refuse("total counts past the break", Way::TotalWrong, |plan| {
        plan.total = Some(total(plan) + 9);
        plan.tail = vec![filler(5, 9)];
        plan.header_place()
    });
    cases.refuse("a class descriptor after a break", Way::ClassAfterRun, |plan| {
        plan.tail = vec![filler(5, 9), class(&[3, 0])];
        plan.header_place()
    });
    cases.refuse("a class descriptor after two others", Way::ClassAfterRun, |plan| {
        plan.tail = vec![filler(5, 9), filler(0x25, 7), vec![2, 0x24]];
        plan.header_place()
    });
    cases.refuse("total wrong and a class descriptor later", Way::TotalWrong, |plan| {
        plan.total = Some(total(plan) + 2);
        plan.tail = vec![filler(5, 9), vec![2, 0x24]];
        plan.header_place()
    });
    cases.keep("others after the run", |plan| {
        plan.tail = vec![filler(5, 9), filler(0x25, 7), filler(0x41, 2)];
    });
    cases.keep("others directly after the run, one long", |plan| {
        plan.tail = vec![filler(0x23, 255)];
    });
}

/// Refusal 7.
fn collections(cases: &mut Cases) {
    let listed = |numbers: &[u8]| {
        let numbers = numbers.to_vec();
        move |plan: &mut Plan| {
            plan.listed = Some(numbers);
            plan.header_place()
        }
    };
    cases.keep("listed in another order", |plan| plan.listed = Some(vec![3, 1, 2]));
    cases.refuse("a number listed twice", Way::ListedTwice, listed(&[1, 2, 3, 1]));
    cases.refuse("a number listed twice, side by side", Way::ListedTwice, listed(&[1, 2, 2, 3]));
    cases.refuse("a number of no group", Way::ListedUnknown, listed(&[1, 2, 3, 77]));
    cases.refuse("the AudioControl number", Way::ListedUnknown, listed(&[0, 1, 2, 3]));
    cases.refuse("a skipped group's number", Way::ListedUnknown, listed(&[1, 2, 3, 5]));
    cases.refuse("a skipped group's number in front", Way::ListedUnknown, listed(&[4, 1, 2, 3]));
    cases.refuse("a streaming number is missing", Way::StreamingUnlisted, listed(&[1, 3]));
    cases.refuse("a MIDI number is missing", Way::MidiUnlisted, listed(&[1, 2]));
    cases.refuse("none is listed", Way::StreamingUnlisted, listed(&[]));
    cases.keep("a streaming group bears the AudioControl number too", |plan| {
        plan.groups[MIDI].interface = interface(0, 1, 0, 1, 3);
    });
    cases.keep("a skipped group bears a streaming number too", |plan| {
        plan.groups[VENDOR].interface[2] = 2;
        plan.groups[VENDOR].interface[3] = 7;
    });
    let none = Plan::new(vec![input(1, STEREO), output(2, 1)], vec![]);
    cases.keep_plan("n is 0", &none);
    let mut only_midi = none.clone();
    only_midi.groups = vec![GroupPlan { interface: interface(1, 0, 2, 1, 3), body: vec![] }];
    cases.keep_plan("one MIDI group alone", &only_midi);
    let mut before = desk();
    before.control_after = before.groups.len();
    cases.keep_plan("all groups before AudioControl", &before);
    let many = Plan::new(vec![input(1, STEREO)], (1..=247).map(|one| idle(one, 0)).collect());
    cases.keep_plan("247 numbers listed", &many);
}

/// Refusal 8.
fn counts(cases: &mut Cases) {
    let inputs =
        |count: usize| -> Vec<Part> { (1..=count).map(|id| input(id as u8, (1, 0, 0))).collect() };
    cases.refuse_plan("no entity", &Plan::new(vec![], vec![]), Way::NoEntity, 18);
    cases.refuse("no entity, total 11", Way::NoEntity, |plan| {
        plan.parts.clear();
        plan.header_place()
    });
    cases.keep_plan("one entity", &Plan::new(inputs(1), vec![]));
    cases.keep_plan("32 entities", &Plan::new(inputs(ENTITIES), vec![]));
    let over = Plan::new(inputs(ENTITIES + 1), vec![]);
    cases.refuse_plan("33 entities", &over, Way::ManyEntities, 18);
    let mut empty = Plan::new(vec![Part::Raw(vec![2, 0x24]); ENTITIES + 1], vec![]);
    cases.refuse_plan("33 of two bytes", &empty, Way::ManyEntities, 18);
    empty.parts.pop();
    cases.refuse_plan("32 of two bytes", &empty, Way::KindAbsent, 26);
    let ids: Vec<Part> = (224..=255).map(|id| input(id, (1, 0, 0))).collect();
    cases.keep_plan("32 entities up to ID 255", &Plan::new(ids, vec![]));
}
