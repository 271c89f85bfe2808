//! The test lists of events, for printing them. They are few, and the same at every call.

use crate::cases::generate::dice::Dice;
use crate::cases::generate::Bytes;
use crate::cases::runs::events::{exec, new, relabel, start, step, steps, write};
use crate::model::machine::event::{LONGEST_LIST, START, STEP};

/// All test lists, in the order in which they stand in the file.
pub fn lists() -> Vec<Bytes> {
    let parts = [fields(), kinds(), cuts(), lengths(), chance()];
    parts.concat()
}

/// An event of each kind, the value of a kind.
fn every_event(value_kind: u8, field: u8, number: u32) -> [Bytes; 6] {
    let value = (value_kind, number);
    [
        step(field),
        write(field, 1, value),
        relabel(2, field, 3),
        new(field, 4, value),
        exec(5, field),
        start(field, 6),
    ]
}

/// Every kind of value in an event of each kind; small fields and large ones, alone and together.
fn fields() -> Vec<Bytes> {
    let mut lists = Vec::new();
    for value_kind in [0, 1, 2, 3, 255] {
        for (field, number) in [(0, 0), (15, 7), (16, 0x0102_0304), (255, u32::MAX)] {
            lists.push(every_event(value_kind, field, number).concat());
        }
    }
    lists.extend(every_event(0, 3, 7));
    lists
}

/// Kinds that are none, first, in a sound list and as its last byte.
fn kinds() -> Vec<Bytes> {
    let sound = every_event(1, 2, 3).concat();
    let mut lists = Vec::new();
    for kind in (0..=255).filter(|kind| !(STEP..=START).contains(kind)) {
        let near = (STEP - 2..=START + 2).contains(&kind);
        if near || kind % 32 == 0 || kind == 1 || kind == 255 {
            lists.push([&[kind][..], &sound].concat());
            lists.push([&sound[..], &[kind], &sound].concat());
            lists.push([&sound[..], &[kind]].concat());
        }
    }
    lists
}

/// Every start of a list of all kinds.
fn cuts() -> Vec<Bytes> {
    let sound = every_event(2, 1, 0x0A0B_0C0D).concat();
    let lengths = 0..=sound.len();
    lengths.map(|length| sound[..length].to_vec()).collect()
}

/// Lists about the limit: the longest, one that is cut, and two that are too long. And two of some
/// 1,000 events, which have numbers of four digits, with a fault behind them.
fn lengths() -> Vec<Bytes> {
    let full = steps(7, LONGEST_LIST / 2);
    vec![
        [&full[..2_002], &start(0, 0)[..2]].concat(),
        [&full[..2_000], &[86, 0]].concat(),
        full.clone(),
        full[..LONGEST_LIST - 1].to_vec(),
        [&full[..], &[STEP]].concat(),
        [&full[..], &full].concat(),
    ]
}

/// Events by chance, some lists with a byte changed.
fn chance() -> Vec<Bytes> {
    let mut dice = Dice::new(0x5EED_0050);
    let mut lists = Vec::new();
    for turn in 0..40 {
        let count = 1 + dice.below(12);
        let mut list: Bytes = (0..count).flat_map(|_| event(&mut dice)).collect();
        if turn % 4 == 3 {
            let place = dice.below(list.len());
            list[place] = dice.byte();
        }
        lists.push(list);
    }
    lists
}

fn event(dice: &mut Dice) -> Bytes {
    let (value_kind, field, number) = (dice.byte_below(4), dice.byte(), dice.number());
    let which = dice.below(6);
    every_event(value_kind, field, number)[which].clone()
}

#[cfg(test)]
mod tests {
    use super::*;
    use crate::model::machine::event::{split, Event};

    #[test]
    fn every_kind_of_event_and_value_occurs() {
        let lists = lists();
        let sound = lists.iter().filter_map(|list| split(list).ok());
        let events: Vec<Event> = sound.flatten().collect();
        let occurs = |like: fn(&Event) -> bool| events.iter().any(like);
        assert!(occurs(|event| matches!(event, Event::Step { .. })));
        assert!(occurs(|event| matches!(event, Event::Relabel { .. })));
        assert!(occurs(|event| matches!(event, Event::Exec { .. })));
        assert!(occurs(|event| matches!(event, Event::Start { .. })));
        for kind in 0..=3 {
            let written = |e: &Event| matches!(e, Event::Write { value, .. } if value.kind == kind);
            assert!(events.iter().any(written));
            let brought = |e: &Event| matches!(e, Event::New { value, .. } if value.kind == kind);
            assert!(events.iter().any(brought));
        }
    }

    #[test]
    fn lists_of_every_end_occur() {
        let ends: Vec<_> = lists().iter().map(|list| split(list)).collect();
        let faults = ends.iter().filter_map(|end| end.as_ref().err());
        let places: Vec<usize> = faults.map(|refusal| refusal.place).collect();
        assert!(places.contains(&0) && places.contains(&(LONGEST_LIST - 2)));
        assert!(places.len() > 60 && ends.len() - places.len() > 40);
        assert!(ends.len() < 200, "{} lists", ends.len());
    }

    #[test]
    fn the_lists_are_the_same_at_every_call() {
        assert_eq!(lists(), lists());
    }
}
