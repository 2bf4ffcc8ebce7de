//! The printed Selector, which the reader no longer accepts: refusal 17 (document 02, No. 6).

use super::{
    class, feature, input, output, printed, selector, Cases, FEATURE, MICROPHONE, PLAYBACK, RECORD,
    RECORDING, SELECTOR, SPEAKER, STEREO, SWITCH, TRIM,
};
use crate::generator::build::{Part, Plan};
use crate::numbers::{ENTITIES, PINS};
use crate::ways::Way;

/// All of them.
pub fn all(cases: &mut Cases) {
    pins(cases);
    near(cases);
    after_9(cases);
    before_10_and_11(cases);
    before_12_to_15(cases);
    several(cases);
}

/// The desk with its first Selector printed, changed once more, and 17 at that Selector.
fn withdrawn(cases: &mut Cases, name: &str, change: impl FnOnce(&mut Plan)) {
    cases.refuse(name, Way::SelectorPrinted, |plan| {
        plan.parts[SELECTOR] = printed(5, &[4, 1]);
        change(plan);
        plan.part_place(SELECTOR)
    });
}

/// Printed Selectors of each number of pins, and of one too few and one too many.
fn pins(cases: &mut Cases) {
    for count in 0..=PINS + 1 {
        let way = match count {
            1..=PINS => Way::SelectorPrinted,
            _ => Way::SelectorPins,
        };
        let parts = vec![input(1, STEREO), printed(2, &vec![1; count]), output(3, 2)];
        let plan = Plan::new(parts, vec![]);
        let name = format!("printed Selector of {count} pins");
        cases.refuse_plan(&name, &plan, way, plan.part_place(1));
    }
    let alone = Plan::new(vec![printed(1, &[1])], vec![]);
    cases.refuse_plan("printed Selector alone", &alone, Way::SelectorPrinted, 26);
    withdrawn(cases, "printed Selector on the desk", |_| {});
    withdrawn(cases, "printed Selector with a name", |plan| {
        plan.parts[SELECTOR] = plan.parts[SELECTOR].with(8, 200);
    });
}

/// What is nearly a printed Selector: 9 where byte 5 is not 0 or the length is another, 11 where the
/// length is 6+p and source 1 is 0, and a Selector by table 4-6 as ever.
fn near(cases: &mut Cases) {
    let mut one = |name: &str, part: Part, way: Way| {
        cases.refuse(name, way, |plan| {
            plan.parts[SELECTOR] = part;
            plan.part_place(SELECTOR)
        });
    };
    for pad in [1, 4, 5, 128, 255] {
        one("length 7+p, byte 5 not 0", printed(5, &[4, 1]).with(5, pad), Way::SelectorPad);
    }
    for length in [7, 10, 11] {
        one("byte 5 is 0", printed(5, &[4, 1]).resized(length), Way::SelectorLength);
    }
    one("length 6+p, source 1 is 0", selector(5, &[0, 1]), Way::SourceZero);
    one("length 6+p by one pin more", printed(5, &[4, 1]).with(4, 3), Way::SourceZero);
    one("length 7+p by one pin less", selector(5, &[0, 4, 1]).with(4, 2), Way::SelectorPrinted);
    cases.keep("a Selector by table 4-6", |plan| plan.parts[SELECTOR] = selector(5, &[4, 1]));
}

/// "after 9": a wrong layout anywhere in the run comes first, before the printed Selector or behind.
fn after_9(cases: &mut Cases) {
    let wrong = [
        (Way::KindAbsent, Part::Raw(vec![2, 0x24])),
        (Way::KindUnknown, Part::Raw(vec![9, 0x24, 7, 6, 0, 0, 0, 0, 0])),
        (Way::SelectorPad, printed(6, &[1]).with(5, 1)),
        (Way::SelectorLength, printed(6, &[1]).resized(9)),
        (Way::SelectorPins, printed(6, &[])),
        (Way::FeatureSize, feature(6, 1, 2).with(5, 0)),
        (Way::InputTerminalLength, input(6, STEREO).resized(13)),
    ];
    for (way, part) in wrong {
        for index in [MICROPHONE, FEATURE, RECORDING, TRIM] {
            let name = format!("printed Selector and {} at {index}", way.words());
            cases.refuse(&name, way, |plan| {
                plan.parts[SELECTOR] = printed(5, &[4, 1]);
                plan.parts[index] = part.clone();
                plan.part_place(index)
            });
        }
    }
    cases.refuse("9 on both sides of a printed Selector", Way::OutputTerminalLength, |plan| {
        plan.parts[PLAYBACK] = output(2, 1).resized(8);
        plan.parts[SELECTOR] = printed(5, &[4, 1]);
        plan.parts[TRIM] = Part::Raw(vec![2, 0x24]);
        plan.part_place(PLAYBACK)
    });
}

/// "before 10", and so before 11: what else is wrong with the printed Selector, or with another.
fn before_10_and_11(cases: &mut Cases) {
    withdrawn(cases, "printed, its ID zero", |plan| plan.parts[SELECTOR] = printed(0, &[4, 1]));
    withdrawn(cases, "printed, an earlier ID", |plan| plan.parts[SELECTOR] = printed(1, &[4, 1]));
    withdrawn(cases, "printed, a later ID", |plan| plan.parts[SELECTOR] = printed(9, &[4, 1]));
    for source in [0, 77, 6, 5] {
        for sources in [[source, 1], [4, source]] {
            withdrawn(cases, &format!("printed, sources {sources:?}"), |plan| {
                plan.parts[SELECTOR] = printed(5, &sources);
            });
        }
    }
    for index in [PLAYBACK, SPEAKER] {
        withdrawn(cases, "printed, another ID zero", |plan| {
            plan.parts[index] = plan.parts[index].with(3, 0);
        });
        withdrawn(cases, "printed, another ID twice", |plan| {
            plan.parts[index] = plan.parts[index].with(3, 1);
        });
    }
    for (index, at) in [(FEATURE, 4), (SPEAKER, 7)] {
        for source in [0, 77, 6] {
            withdrawn(cases, "printed, another's source", |plan| {
                plan.parts[index] = plan.parts[index].with(at, source);
            });
        }
    }
}

/// And before all that comes later.
fn before_12_to_15(cases: &mut Cases) {
    withdrawn(cases, "printed, a loop", |plan| plan.parts[FEATURE] = feature(4, 4, 2));
    withdrawn(cases, "printed, on a loop itself", |plan| plan.parts[FEATURE] = feature(4, 5, 2));
    withdrawn(cases, "printed, a cluster", |plan| plan.parts[MICROPHONE] = input(1, (0, 0, 0)));
    withdrawn(cases, "printed, unlike pins", |plan| {
        plan.parts[SELECTOR] = printed(5, &[1, 2]);
        plan.parts[PLAYBACK] = input(2, (2, 0x0005, 0));
    });
    withdrawn(cases, "printed, a group", |plan| plan.groups[RECORD].body[0] = class(&[1, 6]));
    withdrawn(cases, "printed, 129 controls and more", |plan| {
        plan.parts.push(input(50, (16, 0, 0)));
        let masks = vec![0xFF; 34];
        plan.parts.push(Part::Feature { id: 51, source: 50, size: 2, masks });
    });
}

/// More than one: the first by place.
fn several(cases: &mut Cases) {
    withdrawn(cases, "two printed Selectors", |plan| plan.parts[SWITCH] = printed(8, &[1, 2]));
    cases.refuse("the second Selector alone is printed", Way::SelectorPrinted, |plan| {
        plan.parts[SWITCH] = printed(8, &[1, 2]);
        plan.part_place(SWITCH)
    });
    cases.refuse("printed, the run turned round", Way::SelectorPrinted, |plan| {
        plan.parts[SWITCH] = printed(8, &[1, 2]);
        plan.parts[SELECTOR] = printed(5, &[4, 1]);
        plan.parts.reverse();
        plan.part_place(plan.parts.len() - 1 - SWITCH)
    });
    let all = Plan::new(vec![printed(7, &[7]); ENTITIES], vec![]);
    cases.refuse_plan("printed ones only", &all, Way::SelectorPrinted, all.part_place(0));
    let last = ENTITIES - 1;
    let mut parts: Vec<Part> = (1..=last).map(|id| input(id as u8, (1, 0, 0))).collect();
    parts.push(printed(99, &[1, 2]));
    let plan = Plan::new(parts.clone(), vec![]);
    let place = plan.part_place(last);
    cases.refuse_plan("the last of 32 is printed", &plan, Way::SelectorPrinted, place);
    parts.push(printed(98, &[1]));
    let plan = Plan::new(parts, vec![]);
    cases.refuse_plan("33, two of them printed", &plan, Way::ManyEntities, 18);
}
