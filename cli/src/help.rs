//! The help texts, and the version.

use crate::answer::Answer;
use crate::json::Json;
use crate::verbs::Verb;

/// How the command is called.
pub const USAGE: &str = "\
usage: xemdulba check FILE..       the verdict on each book
       xemdulba run BOOK EVENTS    what the events do on the book
       xemdulba round BOOK TURNS   what the jobs do when they take turns
       xemdulba list BOOK          the records in words, and the verdict
       xemdulba events LIST        the events in words
       xemdulba help [VERB]        more, in all or of a verb
       xemdulba --version          the version, and the kit of the proofs (-V)
";

const OVERVIEW: &str = "
Options, anywhere behind the verb:
  --launch LABEL    job 0 begins at this label: 0 to 15, or bound (run, round)
  --json            one object to a line
  --bytes           the bytes of each record too (list, events)
  --hex             every file is hexadecimal text
  --raw             every file is bytes
  --help            help on the verb (-h)
  --                what follows are files

A file holds bytes, or hexadecimal text: two digits for each byte, white space
and commas. A file named *.hex, or any with --hex, is text, and may have
comments behind #, 0x before digits, and : and ; too. - is standard input.
";

const STATUS: &str = "
Exit status: 0 accepted, ran, rounded or told; 1 refused; 2 no answer: bad
usage, a file that cannot be read, output that cannot be written. 2 wins over 1.
";

const CHECK: &str = "\
The verdict on each book: accepted with its counts, or refused N at PLACE. What
a refusal means is told on standard error; with several files on the line of
the file, and then a line of counts follows.

  --json     one object to a line
  --hex      every file is hexadecimal text
  --raw      every file is bytes

  $ xemdulba check a1.book a6.book
  a1.book: accepted shapes 2 cells 1 blocks 1 steps 3
  a6.book: refused 8 at 25: a step breaks its typing rule: block 0, step 2: relabel r0, 8
  accepted 1 refused 1 no answer 0
";

const RUN: &str = "\
Runs the events on the book from its start, and prints an answer for each event
(0 done, 1 blocked, 2 no step left, 3 no such), the cells and the jobs; or
refused N at PLACE. A book that check refuses is run too, with a word on
standard error.

  --launch LABEL    job 0 begins at this label, from 0 to 15, which is also its
                    history; refused by 14 above the bound of block 0
  --launch bound    job 0 begins at that bound; without --launch at the smaller
                    of C plus 1 and the bound
  --json            one object to a line
  --hex             both files are hexadecimal text
  --raw             both files are bytes

  $ xemdulba run --launch bound a1.book steps.events | head -n 3
  ran cells 1 jobs 1
  answers 0 0 0 2
  cell 0 shape 1 trust 9 label 9 plain 7 source 12
";

const ROUND: &str = "\
Lets the jobs of the book take so many turns, from its start, with no list of
events. Each turn steps the next job with a step left, from the one after the
last stepped on, job 0 first. A blocked step uses a turn, and the round ends
early when no job has a step left. Prints an answer for each turn that was used
(0 done, 1 blocked), the cells and the jobs; or refused N at PLACE, by 15 where
TURNS is above 4096. A book that check refuses has a round too, with a word on
standard error.

  --launch LABEL    job 0 begins at this label, from 0 to 15, which is also its
                    history; refused by 14 above the bound of block 0
  --launch bound    job 0 begins at that bound; without --launch at the smaller
                    of C plus 1 and the bound
  --json            one object to a line
  --hex             the book is hexadecimal text
  --raw             the book is bytes

  $ xemdulba round --launch bound a1.book 100 | head -n 2
  rounded cells 1 jobs 1 turns 3
  answers 0 0 0
";

const LIST: &str = "\
The records of the book in words, each behind its offset, the one at fault
marked, and the verdict.

  --bytes    the bytes of each record too
  --json     one object to a line
  --hex      the file is hexadecimal text
  --raw      the file is bytes

  $ xemdulba list --bytes a1.book | head -n 2
      0  01 03                    C          3
      2  10                       shape 0    plain
";

const EVENTS: &str = "\
The events of the list in words, each behind its offset, up to the one at fault,
and how many they are, or refused 9 at PLACE.

  --bytes    the bytes of each event too
  --json     one object to a line
  --hex      the file is hexadecimal text
  --raw      the file is bytes

  $ xemdulba events steps.events | head -n 1
      0  event 0    step    job 0
";

const HELP: &str = "\
Help on the command, or on a verb: check, run, round, list, events or help.

  --json     one object

  $ xemdulba help list
";

/// How a verb is called.
pub fn usage(verb: Verb) -> &'static str {
    match verb {
        Verb::Check => "usage: xemdulba check [--json] [--hex | --raw] FILE..",
        Verb::Run => "usage: xemdulba run [--launch LABEL] [--json] [--hex | --raw] BOOK EVENTS",
        Verb::Round => "usage: xemdulba round [--launch LABEL] [--json] [--hex | --raw] BOOK TURNS",
        Verb::List => "usage: xemdulba list [--bytes] [--json] [--hex | --raw] BOOK",
        Verb::Events => "usage: xemdulba events [--bytes] [--json] [--hex | --raw] LIST",
        Verb::Help => "usage: xemdulba help [--json] [VERB]",
    }
}

fn text(verb: Option<Verb>) -> String {
    let Some(verb) = verb else {
        return [USAGE, OVERVIEW, STATUS].concat();
    };
    let more = match verb {
        Verb::Check => CHECK,
        Verb::Run => RUN,
        Verb::Round => ROUND,
        Verb::List => LIST,
        Verb::Events => EVENTS,
        Verb::Help => HELP,
    };
    [usage(verb), "\n\n", more, STATUS].concat()
}

/// The help on a verb, or on the command.
pub fn answer(verb: Option<Verb>, json: bool) -> Answer {
    let mut answer = Answer::new();
    if json {
        let name = verb.map_or(Json::Null, |verb| verb.name().into());
        answer.tell_object(vec![("verb", name), ("help", text(verb).into())]);
    } else {
        answer.tell(text(verb));
    }
    answer
}

/// The version of the command, and the kit that proved the library which it calls.
pub fn version(json: bool) -> Answer {
    let mut answer = Answer::new();
    let (version, kit) = (xemdulba::VERSION, xemdulba::KIT);
    if json {
        answer.tell_object(vec![("version", version.into()), ("kit", kit.into())]);
    } else {
        answer.tell_line(format!("xemdulba {version} ({kit})"));
    }
    answer
}

#[cfg(test)]
mod tests {
    use super::*;

    #[test]
    fn every_verb_tells_its_usage_and_the_statuses() {
        for verb in Verb::ALL {
            let text = text(Some(verb));
            assert!(text.starts_with(&format!("usage: xemdulba {} ", verb.name())));
            assert!(text.ends_with(STATUS));
            assert!(USAGE.contains(&format!("xemdulba {} ", verb.name())));
        }
    }

    #[test]
    fn usage_names_the_options_that_a_verb_has() {
        for verb in Verb::ALL {
            for option in ["--launch", "--json", "--bytes", "--hex", "--raw"] {
                let has = verb.options().any(|name| name == option);
                assert_eq!(usage(verb).contains(option), has, "{option}");
                assert_eq!(text(Some(verb)).contains(option), has, "{option}");
            }
        }
    }
}
