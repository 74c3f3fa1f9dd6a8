//! SCOPE 19.17 to 19.22, the answer readers: random places through the port and the plain reading.
use judges::generate_readers;
use judges::readers::{self, READ_REFUSALS};
use judges::script::{Answer, Call, Read};
use port::Port;

use crate::cases::{Cases, compare, numbered, same};

/// What a run must have met: each reader's values, nulls inside, places outside, and the distance shown.
const CASES: [&str; 6] = [
    "values by the plain reader",
    "values by the distance reader",
    "nulls",
    "places outside",
    "distances",
    "frames of 4,096 rows",
];

/// Counts one input and its answer.
fn count(tally: &mut Cases, call: &Read, answer: &Answer) {
    tally.inputs += 1;
    match *answer {
        Answer::Cell(_, mark) => {
            let inside = call.row < call.frame[0] as u64 && call.column < call.frame[1] as u64;
            let distance = inside && mark == 1 && call.column == call.carried + 1;
            tally.meet(0, &[!call.distance && mark == 1, call.distance && mark == 1, inside && mark == 0, !inside]);
            tally.meet(4, &[distance, call.frame[0] == 4096]);
        },
        Answer::Refused(number) => tally.refuse_by(&READ_REFUSALS, number),
        _ => {},
    }
}

/// Runs COUNT random places; whether there was no difference and everything was met.
pub fn compare_all(seed: u64, inputs: u64) -> bool {
    compare("reads", Cases::with_numbers(&CASES, &READ_REFUSALS), numbered(seed, inputs), |number, tally| {
        let call = generate_readers::read(seed, number);
        let due = readers::answer(&call);
        count(tally, &call, &due);
        let call = Call::Read(call);
        same(&mut Port::default(), None, &call, &due).map_err(|why| format!("{why}\n    {call}"))
    })
}
