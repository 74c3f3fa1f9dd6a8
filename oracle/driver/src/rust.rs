//! The Rust itself: the published node between real pipes, driven one waiting left frame a turn.
use std::borrow::Cow;
use std::cell::RefCell;
use std::sync::Arc;

use polars_async::executor::{self, TaskPriority};
use polars_core::prelude::*;
use polars_ops::frame::is_sorted::FAULTS;
use polars_ops::frame::{AsOfOptions, AsofStrategy, JoinArgs, JoinType};
use polars_stream::execute::StreamingExecutionState;
use polars_stream::graph::{LogicalPipeKey, PortState};
use polars_stream::morsel::{Morsel, MorselSeq, SourceToken};
use polars_stream::nodes::ComputeNode;
use polars_stream::nodes::joins::asof_join::AsOfJoinNode;
use polars_stream::pipe::{PhysicalPipe, PortSender};
use slotmap::Key;

use judges::script::{Answer, Call, Judge, Options, Ran, Stop, Told, without_distance};

use crate::{frame, range};

/// How the node is fed. No answer may depend on it, save `right_pipe` on rows that are not sorted as declared: there the
/// answers are those of right frames that are handed in as they are wanted; and `writes`.
#[derive(Clone, Copy)]
pub struct Ways {
    /// How many compute tasks run side by side, with the real linearizing pipe behind them.
    pub pipelines: usize,
    /// While Running, the frame of a turn comes by the left pipe, not from the node's queue.
    pub left_pipe: bool,
    /// Right frames come by the right pipe during a turn, only as many as the node asks for.
    pub right_pipe: bool,
    /// Right frames with values that the list lacks are taken, as if the host had written these into held rows.
    pub writes: bool,
}

impl Default for Ways {
    /// One compute task; frames wait in the node's queue and right frames are taken when they come.
    fn default() -> Self {
        Ways { pipelines: 1, left_pipe: false, right_pipe: false, writes: false }
    }
}

/// The names of a side's by-columns, its key, what it carries, and what stands beside it.
struct Names {
    by: [PlSmallStr; 4],
    key: PlSmallStr,
    carried: &'static [PlSmallStr],
    number: Option<PlSmallStr>,
}

const KEY_LEFT: PlSmallStr = PlSmallStr::from_static("lk");
const NUMBER: PlSmallStr = PlSmallStr::from_static("rn");
const CARRIED: [PlSmallStr; 8] = [
    PlSmallStr::from_static("rc0"),
    PlSmallStr::from_static("rc1"),
    PlSmallStr::from_static("rc2"),
    PlSmallStr::from_static("rc3"),
    PlSmallStr::from_static("rc4"),
    PlSmallStr::from_static("rc5"),
    PlSmallStr::from_static("rc6"),
    PlSmallStr::from_static("rc7"),
];
const LEFT: Names = Names {
    by: [
        PlSmallStr::from_static("lb0"),
        PlSmallStr::from_static("lb1"),
        PlSmallStr::from_static("lb2"),
        PlSmallStr::from_static("lb3"),
    ],
    key: KEY_LEFT,
    carried: &[],
    number: None,
};
/// The right rows' numbers come as one more column, so that the matched rows tell them, beside what they carry.
const RIGHT: Names = Names {
    by: [
        PlSmallStr::from_static("rb0"),
        PlSmallStr::from_static("rb1"),
        PlSmallStr::from_static("rb2"),
        PlSmallStr::from_static("rb3"),
    ],
    key: PlSmallStr::from_static("rk"),
    carried: &CARRIED,
    number: Some(NUMBER),
};

/// SCOPE 3.10: the list of a by-column.
struct List {
    column: usize,
    codes: Arc<[i64]>,
}

impl List {
    /// The list of these options, if they have one.
    fn of(o: &Options) -> Option<List> {
        let codes = || o.ranks.codes[..o.ranks.count as usize].into();
        o.ranks.given.then(|| List { column: o.ranks.column as usize, codes: codes() })
    }

    /// Whether it lacks one of these values; a null is none.
    fn lacks(&self, cells: &[Option<i64>]) -> bool {
        cells.iter().flatten().any(|value| !self.codes.contains(value))
    }
}

/// What a join's frames are made of, and whether the distance was asked for, which the Rust does not write.
struct Shape {
    b: usize,
    carried: usize,
    distance: bool,
    list: Option<List>,
}

impl Names {
    /// The columns of the side's frames: its by-columns, its key, and as much as it carries.
    fn columns(&self, b: usize, carried: usize) -> impl Iterator<Item = PlSmallStr> {
        let carried = self.carried.iter().copied().take(carried);
        self.by.into_iter().take(b).chain([self.key]).chain(carried)
    }

    /// The side's schema with b by-columns.
    fn schema(&self, b: usize, carried: usize) -> SchemaRef {
        Arc::new(Schema::of_names(self.columns(b, carried).chain(self.number)))
    }

    /// A frame's words as the Rust's frame, the list with its column. None where they break SCOPE's frame rule, for no
    /// such frame can be made; and, unless the host writes what it likes, where the list lacks a value.
    fn frame(&self, words: &[i64], s: &Shape, first_number: usize, writes: bool) -> Option<DataFrame> {
        let carried = s.carried.min(self.carried.len());
        let cells = frame::columns(words, self.columns(s.b, carried).count())?;
        let n = cells[0].len();
        if !writes && s.list.as_ref().is_some_and(|list| list.lacks(&cells[list.column])) {
            return None;
        }
        let named = self.columns(s.b, carried).zip(cells);
        let mut columns: Vec<Column> = named.map(|(name, cells)| Column::new(name, cells)).collect();
        if let Some(List { column, codes }) = &s.list {
            columns[*column] = columns[*column].clone().with_list(codes.clone());
        }
        let numbers = || (first_number..first_number + n).map(|i| Some(i as i64)).collect();
        columns.extend(self.number.map(|name| Column::new(name, numbers())));
        Some(DataFrame::new(n, columns))
    }
}

/// What a phase sent, each frame with its sequence.
type Sent = Vec<(u64, DataFrame)>;

/// What can be compared of the node beyond its answers: rows held and dropped, and the remembered rows.
#[derive(Debug, PartialEq)]
pub struct Inside {
    pub held: usize,
    pub pruned: u64,
    pub left: Option<Vec<Option<i64>>>,
    pub right: Option<Vec<Option<i64>>>,
}

/// What was seen of a turn that an order fault spoiled.
#[derive(Debug, Clone, Copy, PartialEq)]
pub struct Spoiled {
    /// Whether a check of the left rows said no.
    pub left: bool,
    /// Whether a check of the right rows said no.
    pub right: bool,
    /// How many frames the node had sent all the same.
    pub sent: usize,
}

/// An open join: the node and what the driver keeps beside it.
pub struct Join {
    shape: Shape,
    ways: Ways,
    node: AsOfJoinNode,
    accepted: usize,
    right_waiting: Vec<DataFrame>,
    ended: bool,
    spoiled: Option<Spoiled>,
}

/// Whether SCOPE refuses these options, by 1, 10 or 11: it gives them no meaning that a stand-in could have.
fn refused(o: &Options) -> bool {
    let bad = o.b > 4 || !(0..=2).contains(&o.strategy) || o.tolerance < -1 || (o.strategy == 2 && !o.eq);
    bad || o.distance > 1 || o.carried > 8 || (o.ranks.given && bad_list(o))
}

/// Whether SCOPE refuses the list of these options by 11.
fn bad_list(o: &Options) -> bool {
    if o.ranks.count == 0 || o.ranks.count > 64 || o.ranks.column >= o.b as u64 {
        return true;
    }
    let mut codes = o.ranks.codes[..o.ranks.count as usize].to_vec();
    codes.sort();
    codes.windows(2).any(|two| two[0] == two[1])
}

/// The node of these options.
fn node(o: &Options) -> AsOfJoinNode {
    let strategy = [AsofStrategy::Backward, AsofStrategy::Forward, AsofStrategy::Nearest][o.strategy as usize];
    let by = |names: &Names| (o.b > 0).then(|| names.by[..o.b].to_vec());
    let flags = |flags: &[bool]| (o.b > 0).then(|| flags.to_vec());
    let options = AsOfOptions {
        strategy,
        tolerance: (o.tolerance >= 0).then(|| Scalar::from_i64(o.tolerance)),
        left_by: by(&LEFT),
        right_by: by(&RIGHT),
        allow_eq: o.eq,
        check_sortedness: o.check,
    };
    let args = JoinArgs { how: JoinType::AsOf(Box::new(options)), suffix: None, build_side: None };
    let (descending, nulls_last) = (flags(&o.descending), flags(&o.nulls_last));
    let (left, right) = (LEFT.schema(o.b, 0), RIGHT.schema(o.b, o.carried as usize));
    AsOfJoinNode::new(left, right, LEFT.key, RIGHT.key, None, None, descending, nulls_last, args)
}

/// A task that sends frames into a pipe, as the node before the join would.
pub(crate) async fn source(mut send: PortSender, frames: Vec<DataFrame>) -> PolarsResult<()> {
    let mut seq = MorselSeq::default();
    for df in frames {
        if send.send(Morsel::new_unregistered(df, seq, SourceToken::new())).await.is_err() {
            break;
        }
        seq = seq.successor();
    }
    Ok(())
}

/// A task that takes all that the join sends, as the node behind it would.
async fn sink(mut recv: polars_stream::pipe::PortReceiver, sent: &RefCell<Sent>) -> PolarsResult<()> {
    while let Ok(morsel) = recv.recv().await {
        let (sf, seq, _, _) = morsel.into_inner();
        sent.borrow_mut().push((seq.to_u64(), sf.into_df_blocking()));
    }
    Ok(())
}

impl Join {
    /// A fresh join, or none where SCOPE refuses its options, or they are strict, which the Rust does not know.
    pub fn open(o: &Options, ways: Ways) -> Option<Self> {
        (!refused(o) && !o.strict).then(|| Self::open_any(o, ways))
    }

    /// A fresh join of any options that the Rust takes.
    pub fn open_any(o: &Options, ways: Ways) -> Self {
        let shape = Shape { b: o.b, carried: o.carried as usize, distance: o.distance == 1, list: List::of(o) };
        Join { shape, ways, node: node(o), accepted: 0, right_waiting: vec![], ended: false, spoiled: None }
    }

    /// A left frame's words as the Rust's frame.
    fn left_frame(&self, words: &[i64]) -> Option<DataFrame> {
        LEFT.frame(words, &self.shape, 0, false)
    }

    /// A right frame's words as the Rust's frame; its rows are numbered from this number on.
    fn right_frame(&self, words: &[i64], first_number: usize) -> Option<DataFrame> {
        RIGHT.frame(words, &self.shape, first_number, self.ways.writes)
    }

    /// One phase: the node's real tasks between real pipes, with these frames in the left and right pipes; what the
    /// node sent. The left pipe is there while Running, the right one until right has ended.
    fn phase(&mut self, left: Vec<DataFrame>, right: Vec<DataFrame>) -> Sent {
        let running = self.node.hook_state() == 0;
        assert!((running || left.is_empty()) && (!self.ended || right.is_empty()));
        let pipe = || PhysicalPipe::new(self.ways.pipelines, LogicalPipeKey::null(), Default::default(), None);
        let (mut left_pipe, mut right_pipe, mut out_pipe) = (running.then(pipe), (!self.ended).then(pipe), pipe());
        let sent = RefCell::new(Vec::new());
        let handles = executor::task_scope(|scope| {
            let mut handles = Vec::new();
            handles.push(scope.spawn_task(TaskPriority::High, sink(out_pipe.recv_port().serial(), &sent)));
            let mut recv = [left_pipe.as_mut().map(|p| p.recv_port()), right_pipe.as_mut().map(|p| p.recv_port())];
            let mut send = [Some(out_pipe.send_port())];
            self.node.spawn(scope, &mut recv, &mut send, &StreamingExecutionState, &mut handles);
            assert!(recv.iter().all(|p| p.is_none()) && send.iter().all(|p| p.is_none()));
            for (pipe, frames) in [(&mut left_pipe, left), (&mut right_pipe, right)] {
                if let Some(pipe) = pipe {
                    handles.push(scope.spawn_task(TaskPriority::High, source(pipe.send_port().serial(), frames)));
                }
            }
            out_pipe.spawn(scope, &mut handles);
            handles
        });
        let errors: Vec<_> = handles.into_iter().filter_map(|h| h.take().err()).collect();
        only_order_errors(&errors);
        sent.into_inner()
    }

    /// SCOPE 5: held rows. The node itself takes right frames into its buffer when no left frame is there.
    fn buffer_right(&mut self, frames: Vec<DataFrame>) {
        let held = self.node.hook_held() + frames.iter().map(|f| f.height()).sum::<usize>();
        let queue = std::mem::take(self.node.hook_left_buffer());
        let sent = self.phase(vec![], frames);
        assert!(sent.is_empty() && self.node.hook_left_buffer().is_empty() && self.node.hook_held() == held);
        *self.node.hook_left_buffer() = queue;
    }

    /// SCOPE 12: one phase in which only the front frame waits.
    pub fn turn(&mut self) -> Answer {
        let mut queue = std::mem::take(self.node.hook_left_buffer());
        let front = queue.pop_front();
        let height = front.as_ref().map(|f| f.height());
        let mut left = vec![];
        if self.ways.left_pipe && self.node.hook_state() == 0 {
            left.extend(front);
        } else {
            self.node.hook_left_buffer().extend(front);
        }
        let right = std::mem::take(&mut self.right_waiting);
        let sent = self.phase(left, right);
        self.spoiled = take_spoiled(sent.len());
        if let Some(spoiled) = self.spoiled {
            return Answer::Refused(if spoiled.left { 8 } else { 9 });
        }
        let back = self.node.hook_left_buffer().len();
        self.node.hook_left_buffer().extend(queue);
        match (&sent[..], height, back) {
            ([], None, 0) => Answer::Idle,
            ([], Some(_), 1) if !self.ended => Answer::Wants,
            ([(seq, df)], Some(n), 0) if df.height() == n => Answer::Wrote(*seq, written(df, self.shape.carried)),
            _ => panic!("turn: {height:?} rows, {back} frames back, sent {sent:?}"),
        }
    }

    /// SCOPE 17: at most k turns, one frame at a time. Outputs are as long as needed.
    fn run(&mut self, k: usize) -> Ran {
        let (mut turns, mut words) = (0, vec![]);
        let stop = loop {
            if turns == k {
                break Stop::Used;
            }
            match self.turn() {
                Answer::Wrote(_, more) => words.extend(more),
                Answer::Wants => break Stop::Wants,
                Answer::Idle => break Stop::Idle,
                Answer::Refused(number) => break Stop::Refused(number),
                answer => panic!("a turn of a run: {answer}"),
            }
            turns += 1;
        };
        Ran { turns: turns as u64, count: words.len() as u64, stop, words }
    }

    /// SCOPE 13: the node's own `update_state`.
    fn ports(&mut self, ports: [u8; 3]) -> Answer {
        let [left, right, send] = ports.map(|p| [PortState::Blocked, PortState::Ready, PortState::Done][p as usize]);
        let (mut recv, mut send) = ([left, right], [send]);
        self.node.update_state(&mut recv, &mut send, &StreamingExecutionState).unwrap();
        Answer::Ports([recv[0] as u8, recv[1] as u8, send[0] as u8], self.node.hook_state())
    }

    /// SCOPE 5.8, left: the frame joins the waiting ones. One that SCOPE refuses has no counterpart and is not taken.
    fn left(&mut self, words: &[i64]) {
        if !self.failed() && self.node.hook_state() == 0 {
            let frame = self.left_frame(words);
            self.node.hook_left_buffer().extend(frame);
        }
    }

    /// SCOPE 5.8, right: the frame's rows are held. One that SCOPE refuses has no counterpart and is not taken.
    fn right(&mut self, words: &[i64]) {
        if self.failed() || self.ended || self.node.hook_state() == 2 {
            return;
        }
        let Some(df) = self.right_frame(words, self.accepted) else { return };
        self.accepted += df.height();
        if self.ways.right_pipe {
            self.right_waiting.push(df);
        } else {
            self.buffer_right(vec![df]);
        }
    }

    /// SCOPE 13.5: right ends. What is still in the pipe is taken first.
    fn end(&mut self) {
        if self.failed() || self.ended || self.node.hook_state() == 2 {
            return;
        }
        let rest = std::mem::take(&mut self.right_waiting);
        if !rest.is_empty() {
            self.buffer_right(rest);
        }
        self.ended = true;
    }

    /// What the node holds and remembers, for a closer look than answers give.
    pub fn inside(&self) -> Inside {
        let row = |df: &DataFrame| df.columns().iter().map(|c| c.values()[0]).collect();
        let waiting = self.right_waiting.iter().map(|f| f.height()).sum::<usize>();
        let held = self.node.hook_held() + waiting;
        let [left, right] = self.node.hook_remembered().map(|r| r.map(row));
        Inside { held, pruned: (self.accepted - held) as u64, left, right }
    }

    /// Sets the next sequence, to see what the Rust does at its end.
    pub fn set_sequence(&mut self, turns: u64) {
        self.node.hook_set_seq(MorselSeq::new(turns));
    }

    /// Whether an order fault has stopped the join; the node is then not used again.
    pub fn failed(&self) -> bool {
        self.spoiled.is_some()
    }

    /// Whether a turn has a counterpart: the node is not Done and no order fault has stopped it.
    fn turns(&self) -> bool {
        !self.failed() && self.node.hook_state() != 2
    }

    /// What was seen of the turn that stopped the join.
    pub fn spoiled(&self) -> Option<Spoiled> {
        self.spoiled
    }

    /// All these frames in one phase, and a second one with right ended: what the Rust writes when nobody counts turns, and
    /// what was seen of the order fault that stopped it.
    pub fn burst(&mut self, left: &[Vec<i64>], right: &[Vec<i64>]) -> Option<(Vec<Answer>, Option<Spoiled>)> {
        let left = left.iter().map(|w| self.left_frame(w)).collect::<Option<_>>()?;
        let number = |at: &mut usize, w: &Vec<i64>| {
            *at += w[0] as usize;
            Some(self.right_frame(w, *at - w[0] as usize))
        };
        let right = right.iter().scan(0, number).collect::<Option<_>>()?;
        let mut sent = self.phase(left, right);
        let mut spoiled = take_spoiled(sent.len());
        if spoiled.is_none() {
            self.ended = true;
            sent.extend(self.phase(vec![], vec![]));
            spoiled = take_spoiled(sent.len());
        }
        let wrote = sent.iter().map(|(seq, df)| Answer::Wrote(*seq, written(df, self.shape.carried))).collect();
        Some((wrote, spoiled))
    }

    /// The answer to a call on an open join. Where SCOPE refuses, the Rust has no counterpart: `left`, `right`, `end` and
    /// `move` say ok and nothing changes; `turn`, `run` and `ports` say nothing.
    pub fn call(&mut self, call: &Call) -> Answer {
        match call {
            Call::Left(w) => self.left(w),
            Call::Right(w) => self.right(w),
            Call::End => self.end(),
            // Its buffers know no areas.
            Call::Move(..) => {},
            Call::Ports(p) if !self.failed() => return self.ports(*p),
            Call::Turn(_) if self.turns() => return self.turn(),
            Call::Run(k, _) if *k == 0 || self.turns() => return Answer::Ran(self.run(*k)),
            _ => return Answer::Nothing,
        }
        Answer::Ok
    }
}

/// Every error of a phase must be the Rust's one order error, and come with a check that said no.
fn only_order_errors(errors: &[PolarsError]) {
    let unsorted = |e: &PolarsError| matches!(e, PolarsError::InvalidOperation(t) if t.contains("is not sorted"));
    assert!(errors.iter().all(unsorted), "{errors:?}");
    assert_eq!(errors.len(), FAULTS.with_borrow(|f| f.len()));
}

/// SCOPE 8.8, refusals 8 and 9, told by the side whose check said no. Where both did it is 8: the Rust's two tasks fail side
/// by side, SCOPE has an order.
fn take_spoiled(sent: usize) -> Option<Spoiled> {
    let faults = FAULTS.take();
    let left = faults.contains(&KEY_LEFT);
    let right = faults.iter().any(|f| *f != KEY_LEFT);
    (left || right).then_some(Spoiled { left, right, sent })
}

/// SCOPE 12.5: the words of an answer: of the rows that the Rust took, their numbers and what they carry. There is no distance
/// among them.
fn written(df: &DataFrame, carried: usize) -> Vec<i64> {
    let names = [NUMBER].into_iter().chain(CARRIED).take(1 + carried);
    let columns: Vec<_> = names.map(|name| df.column(&name).unwrap().values()).collect();
    let cells = || (0..df.height()).flat_map(|i| columns.iter().map(move |column| column[i]));
    let mut out = vec![df.height() as i64, 1 + carried as i64];
    out.extend(cells().map(|x| x.unwrap_or(0)));
    out.extend(cells().map(|x| x.is_some() as i64));
    out
}

/// The judge that answers by the Rust.
#[derive(Default)]
pub struct Rust {
    pub ways: Ways,
    pub join: Option<Join>,
    told: Told,
}

impl Rust {
    /// No join yet; one is fed in this way.
    pub fn fed(ways: Ways) -> Self {
        Rust { ways, ..Rust::default() }
    }

    /// What of an answer to the open join's last call the Rust can be asked about: it writes no distance, and so all columns
    /// but the last where that one is.
    pub fn shared<'a>(&self, said: &'a Answer) -> Cow<'a, Answer> {
        match &self.join {
            Some(join) if join.shape.distance => Cow::Owned(without_distance(said)),
            _ => Cow::Borrowed(said),
        }
    }
}

impl Judge for Rust {
    /// Opens, or asks the open join; points in intervals need none.
    fn call(&mut self, call: &Call) -> Answer {
        match (call, self.told.opens(call), &mut self.join) {
            (Call::Spans(spans), ..) => range::answer(spans, range::Ways::default()),
            (Call::Read(_), ..) => Answer::Nothing,
            (Call::Merge(_) | Call::Standing(_) | Call::Plan(_) | Call::Places(_), ..)
            | (Call::Pairs(_) | Call::TakingsAdd(_) | Call::TakingsJoin(_), ..) => self.told.with(|_| Answer::Nothing),
            (_, Some(Ok(open)), join) => {
                FAULTS.take();
                *join = Join::open(&open.options, self.ways);
                if join.is_some() { Answer::Ok } else { Answer::Nothing }
            },
            (_, Some(Err(answer)), _) => answer,
            (_, _, None) => Answer::NoJoin,
            (call, _, Some(join)) => join.call(call),
        }
    }
}
