//! SCOPE's step rules behind a host that hands right frames over only where they are wanted, as the Rust pulls them from
//! its pipe: a list of calls like any other, so that SCOPE fixes its answers on unsorted sides too. Or behind one that
//! writes into held rows what no right call takes.
use std::collections::VecDeque;

use judges::rules::Rules;
use judges::script::{Answer, Call, Judge, Open, Options, Place, Ran, Stop};

use crate::rust::Ways;

/// Words enough for all frames of a script, in an area or an output.
pub const ROOM: usize = 1 << 13;

/// The rules, and right frames that were handed in and that they have not been given yet.
#[derive(Default)]
pub struct Pulled {
    pub rules: Rules,
    waiting: VecDeque<Vec<i64>>,
    /// Whether right frames wait at all.
    pulls: bool,
    /// Whether the host writes values that the list lacks into held rows.
    writes: bool,
}

impl Pulled {
    /// The rules with right frames as they come, or as they are wanted.
    pub fn new(ways: Ways) -> Self {
        Pulled { pulls: ways.right_pipe, writes: ways.writes, ..Self::default() }
    }

    /// How many right rows wait.
    pub fn rows(&self) -> usize {
        self.waiting.iter().map(|frame| frame[0] as usize).sum()
    }

    /// Whether the rules would take a right frame or the end of right.
    fn right_open(&self) -> bool {
        self.rules.look().is_some_and(|l| !l.failed && !l.ended && l.state != 2)
    }

    /// Gives the rules the next right frame; whether there was one.
    fn next(&mut self) -> bool {
        let Some(frame) = self.waiting.pop_front() else { return false };
        assert_eq!(self.rules.call(&Call::Right(frame)), Answer::Ok);
        true
    }

    /// Gives the rules all right frames.
    fn rest(&mut self) {
        while self.next() {}
    }

    /// A turn, with right frames while it wants any.
    fn wanting(&mut self, output: usize) -> Answer {
        loop {
            let answer = self.rules.call(&Call::Turn(output));
            if answer != Answer::Wants || !self.next() {
                return answer;
            }
        }
    }

    /// A turn after which the node takes in what is left in the pipe.
    fn turn(&mut self, output: usize) -> Answer {
        let answer = self.wanting(output);
        if self.right_open() {
            self.rest();
        }
        answer
    }

    /// At most k such turns.
    fn run(&mut self, k: usize, output: usize) -> Ran {
        let (mut turns, mut words, mut stop) = (0, vec![], Stop::Used);
        while stop == Stop::Used && turns < k as u64 {
            match self.turn(output - words.len()) {
                Answer::Wrote(_, more) => (turns, words) = (turns + 1, [words, more].concat()),
                Answer::Wants => stop = Stop::Wants,
                Answer::Idle => stop = Stop::Idle,
                Answer::Refused(number) => stop = Stop::Refused(number),
                answer => panic!("a turn of a run: {answer}"),
            }
        }
        Ran { turns, count: words.len() as u64, stop, words }
    }
}

impl Judge for Pulled {
    /// The rules' answer; with areas for all frames where they come later than they were handed in.
    fn call(&mut self, call: &Call) -> Answer {
        match call {
            Call::Right(words) if self.writes => return right_written(&mut self.rules, words),
            _ if !self.pulls => return self.rules.call(call),
            Call::Open(o) => {
                return self.rules.call(&Call::Open(Open { left_words: ROOM, right_words: ROOM, ..o.clone() }));
            },
            Call::Opens(..) => return self.rules.call(&Call::Opens(ROOM, ROOM)),
            Call::Move(..) => {},
            Call::Right(words) if self.right_open() => self.waiting.push_back(words.clone()),
            Call::Turn(output) => return self.turn(*output),
            Call::Run(k, output) => return Answer::Ran(self.run(*k, *output)),
            Call::End if self.right_open() => {
                self.rest();
                return self.rules.call(call);
            },
            _ => return self.rules.call(call),
        }
        Answer::Ok
    }
}

/// A right frame as if codes of the list had been handed in where it has others, and the host had then written into the
/// held rows what the frame has there.
fn right_written(rules: &mut Rules, words: &[i64]) -> Answer {
    let Some(o) = rules.options().cloned() else { return Answer::NoJoin };
    let (column, codes) = (o.ranks.column as usize, &o.ranks.codes[..o.ranks.count as usize]);
    let (n, c) = (words[0] as usize, words[1] as usize);
    let present = |i: &usize| words[2 + (n + i) * c + column] == 1;
    let lacked = |i: &usize| present(i) && !codes.contains(&words[2 + i * c + column]);
    let rows: Vec<usize> = (0..n).filter(lacked).collect();
    let mut listed = words.to_vec();
    rows.iter().for_each(|i| listed[2 + i * c + column] = codes[0]);
    let answer = rules.call(&Call::Right(listed));
    if answer == Answer::Ok {
        let look = rules.look().expect("a join is open");
        let first = look.base + look.held - n;
        let put = |i: &usize| Call::Put(Place::Right, (first + i) * c + column, words[2 + i * c + column]);
        rows.iter().map(put).for_each(|call| drop(rules.call(&call)));
    }
    answer
}

/// What the rules write where all left frames wait, right frames come as they are wanted, and right ends once there is no
/// more; and the order fault that stopped it, if one did.
pub fn all_at_once(options: &Options, left: &[Vec<i64>], right: &[Vec<i64>]) -> (Vec<Answer>, Option<u8>) {
    let mut pulled = Pulled { waiting: right.to_vec().into(), pulls: true, ..Pulled::default() };
    pulled.call(&Call::Options(options.clone()));
    pulled.call(&Call::Opens(ROOM, ROOM));
    left.iter().for_each(|frame| drop(pulled.rules.call(&Call::Left(frame.clone()))));
    let mut wrote = vec![];
    loop {
        match pulled.wanting(ROOM) {
            Answer::Wants => drop(pulled.rules.call(&Call::End)),
            Answer::Idle => return (wrote, None),
            Answer::Refused(number) => return (wrote, Some(number)),
            answer => wrote.push(answer),
        }
    }
}
