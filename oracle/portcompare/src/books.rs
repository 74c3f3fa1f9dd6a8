//! SCOPE 19.8 to 19.16, books of notices: random inputs through the port and the plain readings.
use judges::books::{self, MERGE_REFUSALS, STANDING_REFUSALS};
use judges::generate_books;
use judges::script::{Answer, Call, Options};
use port::Port;

use crate::cases::{self, Cases, numbered, same, shown};

/// What a run must have met.
const CASES: [&str; 5] = ["accepted", "with rows", "with more than 4096 rows", "with a list", "with carried columns"];

/// What a run of standings must have met beside it.
const NOTICES: [&str; 4] =
    ["with a row that stands", "with one that names another", "with one that names itself", "with one that names none"];

/// What a run had in it.
struct Tally {
    cases: Cases,
    refusals: &'static [u8],
    rows: u64,
}

impl Tally {
    /// Nothing yet, of a call with these cases and refusals.
    fn new(cases: &[&'static str], refusals: &'static [u8]) -> Tally {
        Tally { cases: Cases::with_numbers(cases, refusals), refusals, rows: 0 }
    }

    /// Counts one input and its answer.
    fn count(&mut self, o: &Options, call: &Call, answer: &Answer) {
        self.cases.inputs += 1;
        match answer {
            Answer::Table(words) => {
                self.rows += words[0] as u64;
                self.cases.meet(0, &[true, words[0] > 0, words[0] > 4096, o.ranks.given, o.carried > 0]);
                if let Call::Standing(_) = call {
                    self.cases.meet(CASES.len(), &notices(words));
                }
            },
            Answer::Refused(number) => self.cases.refuse_by(self.refusals, *number),
            _ => {},
        }
    }
}

impl cases::Tally for Tally {
    fn missing(&self) -> Option<String> {
        self.cases.missing()
    }

    fn line(&self) -> String {
        self.cases.line(&format!(" ({} rows)", self.rows))
    }
}

/// Which kinds of notices a table has, in the order of NOTICES.
fn notices(words: &[i64]) -> [bool; NOTICES.len()] {
    let (n, mut kinds) = (words[0] as usize, [false; NOTICES.len()]);
    for (i, cells) in words[2..2 + 2 * n].chunks_exact(2).enumerate() {
        let kind = match (cells, words[2 + 2 * n + 2 * i + 1]) {
            ([1, _], _) => 0,
            (_, 0) => 3,
            ([_, named], _) => 1 + (*named == i as i64) as usize,
            _ => unreachable!(),
        };
        kinds[kind] = true;
    }
    kinds
}

/// Runs a call through the port and compares it with what is due.
fn one(o: &Options, call: &Call, due: &Answer, tally: &mut Tally) -> Result<(), String> {
    tally.count(o, call, due);
    same(&mut Port::default(), o, call, due).map_err(|why| shown(why, o, call))
}

/// Runs COUNT random merges; whether there was no difference and everything was met.
pub fn compare_merges(seed: u64, count: u64) -> bool {
    cases::compare("merges", Tally::new(&CASES, &MERGE_REFUSALS), numbered(seed, count), |number, tally| {
        let (o, call) = generate_books::merge(seed, number);
        let due = books::merge(&o, &call);
        one(&o, &Call::Merge(call), &due, tally)
    })
}

/// Runs COUNT random questions which notice stands.
pub fn compare_standings(seed: u64, count: u64) -> bool {
    let tally = Tally::new(&[&CASES[..], &NOTICES].concat(), &STANDING_REFUSALS);
    cases::compare("standings", tally, numbered(seed, count), |number, tally| {
        let (o, call) = generate_books::standing(seed, number);
        let due = books::standing(&o, &call);
        one(&o, &Call::Standing(call), &due, tally)
    })
}
