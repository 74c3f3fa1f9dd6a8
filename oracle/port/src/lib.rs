//! The port itself: calls over the archive, with areas, frames and outputs between guard words.
use judges::script::{Answer, Call, JoinWords, Judge, Open, Options, Place, Ran, Stop, Told};
use judges::words;
use rowkeeper::raw::{self, safe};

mod books;
mod cuts;
mod pairs;
mod plans;
mod readers;
mod spans;
mod tables;
mod takings;

/// The word that stands before and behind everything that is lent, and how often.
const GUARD: i64 = 0x5A5A_C3C3_0F0F_9696;
const GUARDS: usize = 4;

/// Words that are lent, between guard words.
struct Guarded(Vec<i64>);

impl Guarded {
    /// These words, guarded.
    fn new(words: impl Iterator<Item = i64>) -> Guarded {
        let guards = || std::iter::repeat_n(GUARD, GUARDS);
        Guarded(guards().chain(words).chain(guards()).collect())
    }

    /// The words.
    fn get(&self) -> &[i64] {
        &self.0[GUARDS..self.0.len() - GUARDS]
    }

    /// The words, to be altered.
    fn get_mut(&mut self) -> &mut [i64] {
        let end = self.0.len() - GUARDS;
        &mut self.0[GUARDS..end]
    }

    /// Whether the guard words are as they were.
    fn intact(&self) -> bool {
        self.0[..GUARDS].iter().chain(&self.0[self.0.len() - GUARDS..]).all(|w| *w == GUARD)
    }
}

/// Word i of an output before a turn or a run, so that what is untouched is visibly not zero.
fn blank(i: usize) -> i64 {
    (3 * i as i64) % 7 - 9
}

/// An open join with its two areas, and what a call did that no answer tells.
struct Host {
    join: raw::Join,
    left: Guarded,
    right: Guarded,
    wrong: Option<&'static str>,
}

/// A left area as scripts begin one.
fn new_left(length: usize) -> Guarded {
    Guarded::new((0..length as i64).map(|i| (7 * i) % 11 - 5))
}

/// A right area as scripts begin one.
fn new_right(length: usize) -> Guarded {
    Guarded::new((0..length as i64).map(|i| (5 * i) % 13 - 6))
}

/// The refusal of a number; one that there is not stays visible.
fn refused(number: u64) -> Answer {
    Answer::Refused(u8::try_from(number).unwrap_or(u8::MAX))
}

/// The options as the interface has them.
fn raw_options(o: &Options) -> raw::Options {
    let (w, ranks) = (words::options(o), &o.ranks);
    let flags = |at: usize| std::array::from_fn(|j| w[at + j] as u64);
    raw::Options {
        by: w[0] as u64,
        strategy: w[1] as u64,
        allow_eq: w[2] as u64,
        tolerance: w[3],
        check: w[4] as u64,
        descending: flags(5),
        nulls_last: flags(9),
        carried: w[13] as u64,
        ranks: raw::Ranks { given: ranks.given as u64, column: ranks.column, count: ranks.count, codes: ranks.codes },
        with_distance: o.distance,
    }
}

/// The columns of right rows, as far as these options say so.
fn right_columns(o: &Options) -> usize {
    o.b.saturating_add(1).saturating_add(usize::try_from(o.carried).unwrap_or(usize::MAX))
}

/// The columns of an answer, as far as these options say so.
fn answer_columns(o: &Options) -> usize {
    let carried = usize::try_from(o.carried).unwrap_or(usize::MAX);
    carried.saturating_add(if o.distance == 0 { 1 } else { 2 })
}

/// The answer to a call over tables under these options, and what it did that no answer tells and none may do.
fn over_tables(o: &Options, call: &Call) -> (Answer, Option<&'static str>) {
    match call {
        Call::Merge(merge) => books::merge(raw_options(o), right_columns(o), merge),
        Call::Standing(standing) => books::standing(raw_options(o), standing),
        Call::Plan(plan) => plans::plan(raw_options(o), plan),
        Call::Places(call) => cuts::place(raw_options(o), call),
        Call::Pairs(call) => pairs::cut(raw_options(o), answer_columns(o), call),
        Call::TakingsAdd(call) => takings::add(raw_options(o), o.b, call),
        Call::TakingsJoin(call) => takings::join(raw_options(o), o.b, call),
        _ => unreachable!(),
    }
}

impl Host {
    /// A fresh join, or the refusal's number. The areas' words are those that scripts begin with.
    fn open(o: &Open) -> Result<Host, u64> {
        let took = raw::rowkeeper_open(raw_options(&o.options));
        let (left, right) = (new_left(o.left_words), new_right(o.right_words));
        if took.refusal == 0 { Ok(Host { join: took.join, left, right, wrong: None }) } else { Err(took.refusal) }
    }

    /// Notes what a call must not do.
    fn note(&mut self, wrong: bool, what: &'static str) {
        if wrong {
            self.wrong = self.wrong.or(Some(what));
        }
    }

    /// Goes on with the join that a call handed back.
    fn took(&mut self, took: raw::Took) -> Answer {
        self.join = took.join;
        if took.refusal == 0 { Answer::Ok } else { refused(took.refusal) }
    }

    /// Hands in a frame on the left or on the right.
    fn frame(&mut self, words: &[i64], on_left: bool) -> Answer {
        let frame = Guarded::new(words.iter().copied());
        let took = if on_left {
            safe::left(self.join, self.left.get_mut(), self.right.get(), frame.get())
        } else {
            safe::right(self.join, self.left.get(), self.right.get_mut(), frame.get())
        };
        self.note(!frame.intact() || frame.get() != words, "the frame was altered");
        self.took(took)
    }

    /// A move to new areas of these lengths. Where it is refused they must be as they were, and the host keeps its own.
    fn move_to(&mut self, left_words: usize, right_words: usize) -> Answer {
        let (mut left, mut right) = (new_left(left_words), new_right(right_words));
        let old = (self.left.get().to_vec(), self.right.get().to_vec());
        let took = safe::move_join(self.join, self.left.get(), self.right.get(), left.get_mut(), right.get_mut());
        self.note(!left.intact() || !right.intact(), "a guard word of a new area was altered");
        self.note(old != (self.left.get().to_vec(), self.right.get().to_vec()), "an old area was altered");
        if took.refusal == 0 {
            (self.left, self.right) = (left, right);
        } else {
            let same = left.get() == new_left(left_words).get() && right.get() == new_right(right_words).get();
            self.note(!same, "a refused move altered a new area");
        }
        self.took(took)
    }

    /// A port call.
    fn ports(&mut self, ports: [u8; 3]) -> Answer {
        let [left, right, send] = ports.map(u64::from);
        let said = safe::ports(self.join, self.left.get(), self.right.get(), left, right, send);
        let told = [said.left, said.right, said.send];
        self.join = said.join;
        self.note(told.iter().any(|p| *p > 2), "a port was told what there is not");
        self.note(said.refusal != 0 && told != [0; 3], "a refused port call told a port something");
        if said.refusal != 0 {
            return refused(said.refusal);
        }
        Answer::Ports(told.map(|p| p as u8), self.join.state as u8)
    }

    /// A turn with an output of this length.
    fn turn(&mut self, length: usize) -> Answer {
        let mut out = Guarded::new((0..length).map(blank));
        let said = safe::turn(self.join, self.left.get(), self.right.get(), out.get_mut());
        self.join = said.join;
        self.note(!out.intact(), "a guard word of the output was altered");
        self.note(said.answer != 0 && said.sequence != 0, "a turn that wrote nothing told a sequence");
        self.note((said.answer == 3) != (said.refusal != 0), "a refusal's number without a refusal, or none with one");
        let written = match (said.answer, out.get()) {
            (0, [n, c, ..]) => 2 + 2 * (*n as usize % (1 << 20)) * (*c as usize % (1 << 20)),
            _ => 0,
        };
        let rest = out.get().iter().enumerate().skip(written).all(|(i, w)| *w == blank(i));
        self.note(!rest || written > length, "the output was altered where nothing is written");
        match said.answer {
            0 => Answer::Wrote(said.sequence, out.get()[..written.min(length)].to_vec()),
            1 => Answer::Wants,
            2 => Answer::Idle,
            _ => refused(said.refusal),
        }
    }

    /// A run of at most k turns with an output of this length.
    fn run(&mut self, k: usize, length: usize) -> Ran {
        let mut out = Guarded::new((0..length).map(blank));
        let said = safe::run(self.join, k, self.left.get(), self.right.get(), out.get_mut());
        self.join = said.join;
        self.note(!out.intact(), "a guard word of the output was altered");
        self.note((said.stop == 3) != (said.refusal != 0), "a refusal's number without a refusal, or none with one");
        self.note(said.stop > 3, "a run was stopped by what there is not");
        let written = usize::try_from(said.words).unwrap_or(usize::MAX).min(length);
        let rest = out.get().iter().enumerate().skip(written).all(|(i, w)| *w == blank(i));
        self.note(!rest || said.words > length as u64, "the output was altered where nothing is written");
        let stop = match said.stop {
            0 => Stop::Used,
            1 => Stop::Wants,
            2 => Stop::Idle,
            _ => Stop::Refused(u8::try_from(said.refusal).unwrap_or(u8::MAX)),
        };
        Ran { turns: said.turns, count: said.words, stop, words: out.get()[..written].to_vec() }
    }

    /// A word of an area is altered by the host. Nothing happens where the area has no such word.
    fn put(area: &mut Guarded, at: usize, word: i64) -> Answer {
        let Some(place) = area.get_mut().get_mut(at) else { return Answer::Nothing };
        *place = word;
        Answer::Ok
    }

    /// What is no call of the port: looking at the join and its areas, and altering them.
    fn host(&mut self, call: &Call) -> Option<Answer> {
        let mut words = self.join.to_words();
        Some(match *call {
            Call::State => {
                words::decode(&words).map_or(Answer::Nothing, |(_, _, look, _)| Answer::State(Box::new(look)))
            },
            Call::Areas => Answer::Areas(self.left.get().to_vec(), self.right.get().to_vec()),
            Call::Words => Answer::Words(Box::new(words)),
            Call::Put(Place::Join, at, word) => {
                words[at] = word;
                self.join = raw::Join::from_words(words);
                Answer::Ok
            },
            Call::Put(Place::Left, at, word) => Self::put(&mut self.left, at, word),
            Call::Put(Place::Right, at, word) => Self::put(&mut self.right, at, word),
            _ => return None,
        })
    }

    /// The answer to a call.
    fn call(&mut self, call: &Call) -> Answer {
        if let Some(answer) = self.host(call) {
            return answer;
        }
        let answer = match call {
            Call::Left(words) => self.frame(words, true),
            Call::Right(words) => self.frame(words, false),
            Call::End => {
                let took = safe::end_right(self.join, self.left.get(), self.right.get());
                self.took(took)
            },
            Call::Move(left, right) => self.move_to(*left, *right),
            Call::Ports(ports) => self.ports(*ports),
            Call::Turn(length) => self.turn(*length),
            Call::Run(k, length) => Answer::Ran(self.run(*k, *length)),
            _ => unreachable!(),
        };
        self.note(!self.left.intact() || !self.right.intact(), "a guard word of an area was altered");
        answer
    }
}

/// The judge that answers by the port.
#[derive(Default)]
pub struct Port {
    told: Told,
    host: Option<Host>,
    wrong: Option<&'static str>,
}

impl Port {
    /// The open join's words and those of its areas.
    pub fn all_words(&self) -> Option<(JoinWords, &[i64], &[i64])> {
        self.host.as_ref().map(|h| (h.join.to_words(), h.left.get(), h.right.get()))
    }

    /// What a call did that no answer tells and none may do.
    pub fn wrong(&self) -> Option<&'static str> {
        self.wrong.or_else(|| self.host.as_ref().and_then(|h| h.wrong))
    }
}

impl Judge for Port {
    /// Opens, or asks the open join; a call on tables needs none.
    fn call(&mut self, call: &Call) -> Answer {
        match (call, self.told.opens(call), &mut self.host) {
            (Call::Spans(spans), ..) => {
                let (answer, wrong) = spans::answer(spans);
                self.wrong = self.wrong.or(wrong);
                answer
            },
            (Call::Read(read), ..) => {
                let (answer, wrong) = readers::answer(read);
                self.wrong = self.wrong.or(wrong);
                answer
            },
            (Call::Merge(_) | Call::Standing(_) | Call::Plan(_) | Call::Places(_), ..)
            | (Call::Pairs(_) | Call::TakingsAdd(_) | Call::TakingsJoin(_), ..) => {
                let mut wrong = None;
                let answer = self.told.with(|o| {
                    let (answer, did) = over_tables(o, call);
                    wrong = did;
                    answer
                });
                self.wrong = self.wrong.or(wrong);
                answer
            },
            (_, Some(Ok(open)), host) => match Host::open(&open) {
                Ok(opened) => {
                    *host = Some(opened);
                    Answer::Ok
                },
                Err(number) => {
                    *host = None;
                    refused(number)
                },
            },
            (_, Some(Err(answer)), _) => answer,
            (_, _, None) => Answer::NoJoin,
            (call, _, Some(host)) => host.call(call),
        }
    }
}
