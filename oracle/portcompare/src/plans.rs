//! SCOPE 19.23 to 19.26, how large an area to lend: random tables and heights through the port and the plain reading; and the
//! schedule itself through the port, with as much room as the first figure says and with one row less.
use judges::generate_books;
use judges::plans::{self, FramesOf, PLAN_REFUSALS, Scheduled};
use judges::script::{Answer, Call, Options, Plan};
use port::Port;

use crate::cases::{Cases, caught, compare, numbered, same, shown};

/// What a run must have met.
const CASES: [&str; 9] = [
    "accepted",
    "met a 6 with one row less",
    "took no right frame",
    "left some untaken",
    "held fewer rows than they took",
    "with more than 4096 right rows",
    "with a list",
    "with carried columns",
    "with an empty frame",
];

/// Counts an accepted input.
fn count(tally: &mut Cases, o: &Options, of: &FramesOf, figures: [u64; 3]) {
    let ([rows, _, rights], many, all) = (figures, of.rights.len() as u64, plans::all_rows(of) as u64);
    tally.meet(0, &[true, rows > 0, rights == 0, rights < many, rights == many && rows < all, all > 4096]);
    let empty = of.lefts.iter().chain(&of.rights).any(|frame| frame[0] == 0);
    tally.meet(6, &[o.ranks.given, o.carried > 0, empty]);
}

/// The schedule through the port: with room for the first figure it has the figures and writes every left frame, with one row less it
/// meets a 6.
fn exact(o: &Options, of: &FramesOf, figures: [u64; 3]) -> Result<(), String> {
    let [rows, turns, rights] = figures;
    let due = Scheduled { short: false, rows, turns, rights, written: of.lefts.len() as u64 };
    let said = plans::schedule(&mut Port::default(), o, of, rows as usize);
    if said != due {
        return Err(format!("with room for {rows} rows the schedule comes to {said:?}"));
    }
    if rows > 0 && !plans::schedule(&mut Port::default(), o, of, rows as usize - 1).short {
        return Err(format!("with room for {} rows the schedule meets no 6", rows - 1));
    }
    Ok(())
}

/// Runs a plan through the port, the plain reading and, where it is not refused, the schedule itself.
fn one(o: &Options, call: &Plan, tally: &mut Cases) -> Result<(), String> {
    let of = plans::judged(o, call);
    let due = of.as_ref().map_or_else(|number| Answer::Refused(*number), |of| Answer::Planned(plans::figures(o, of)));
    tally.inputs += 1;
    same(&mut Port::default(), o, &Call::Plan(call.clone()), &due)?;
    match (of, due) {
        (Ok(of), Answer::Planned(figures)) if figures != plans::counted(o, &of) => {
            Err(format!("the schedule comes to {figures:?}, counted from the rows it is {:?}", plans::counted(o, &of)))
        },
        (Ok(of), Answer::Planned(figures)) => {
            count(tally, o, &of, figures);
            exact(o, &of, figures)
        },
        (Err(number), _) => {
            tally.refuse_by(&PLAN_REFUSALS, number);
            Ok(())
        },
        _ => unreachable!(),
    }
}

/// Runs COUNT inputs; whether there was no difference and everything was met.
pub fn compare_all(seed: u64, count: u64) -> bool {
    compare("plans", Cases::with_numbers(&CASES, &PLAN_REFUSALS), numbered(seed, count), |number, tally| {
        let (o, call) = generate_books::plan(seed, number);
        caught(|| one(&o, &call, tally)).map_err(|why| shown(why, &o, &call))
    })
}
