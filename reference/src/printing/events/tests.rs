//! Expectations written by hand.

use super::text;
use crate::model::book::tests::hex;
use crate::printing::line::Show;

const EVERY: &str = "50 00  51 03 00 00 07 00 00 00  52 02 03 04  53 03 01 00 07 00 00 00  54 03 00
    55 03 00";

const LISTED: &str = "    0  event 0    step    job 0
    2  event 1    write   by 3, cell 0, plain 7
   10  event 2    relabel by 2, cell 3, label 4
   14  event 3    new     by 3, shape 1, plain 7
   22  event 4    exec    by 3, cell 0
   25  event 5    start   by 3, block 0
";

#[test]
fn every_kind_of_event() {
    let listed = text(&hex(EVERY), Show::Words);
    assert_eq!(listed, format!("{LISTED}events 6\n"));
    assert_eq!(text(&[], Show::Words), "events 0\n");
}

#[test]
fn a_list_is_listed_up_to_the_event_at_fault() {
    let fault = |more: &str| {
        let listed = text(&hex(&format!("{EVERY} {more}")), Show::Words);
        listed.strip_prefix(LISTED).unwrap().to_string()
    };
    let unknown = "   28  event 6    kind 9  <- refused 9: no event has this kind\n";
    assert_eq!(fault("09 50 00"), format!("{unknown}refused 9 at 28\n"));
    let cut = "   28  event 6    kind 81 (write)  <- refused 9: the list ends inside the event\n";
    assert_eq!(fault("51 03 00"), format!("{cut}refused 9 at 28\n"));
}

#[test]
fn values_and_large_numbers() {
    let words = "51 FF FE 01 FF FF FF FF  53 00 20 02 00 01 00 00  51 00 00 03 01 00 00 00";
    let expected = "    0  event 0    write   by 255, cell 254, cell 4294967295
    8  event 1    new     by 0, shape 32, code 256
   16  event 2    write   by 0, cell 0, value kind 3 1
events 3
";
    assert_eq!(text(&hex(words), Show::Words), expected);
    let last = text(&[80, 7].repeat(32_768), Show::Words);
    let lines: Vec<&str> = last.lines().skip(9_999).collect();
    assert_eq!(lines[0], "19998  event 9999  step    job 7");
    assert_eq!(lines[22_768], "65534  event 32767  step    job 7");
    assert_eq!(lines[22_769], "events 32768");
}

#[test]
fn a_list_that_is_too_long() {
    let words = "    0  start of the list  <- refused 9: the list is longer than 65536 bytes";
    let expected = format!("{words}\nrefused 9 at 0\n");
    assert_eq!(text(&[80; 65_537], Show::Words), expected);
    let blank = words.replacen("start", &format!("{}start", " ".repeat(25)), 1);
    let expected = format!("{blank}\nrefused 9 at 0\n");
    assert_eq!(text(&[80; 65_537], Show::BytesAndWords), expected);
}

#[test]
fn events_with_their_bytes() {
    let words = "50 0A  51 03 00 00 07 00 00 00  56 01 02 03 04 05 06 07 08";
    let expected = "    0  50 0A                    event 0    step    job 10
    2  51 03 00 00 07 00 00 00  event 1    write   by 3, cell 0, plain 7
   10  56 01 02 03 04 05 06 07  event 2    kind 86  <- refused 9: no event has this kind
refused 9 at 10
";
    assert_eq!(text(&hex(words), Show::BytesAndWords), expected);
}
