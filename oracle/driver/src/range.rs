//! The Rust's range join: the published node between real pipes. Points come first, then intervals; both sides bring their
//! row numbers as one more column, and the rows that the node copies into what it sends tell which ones met.
use std::cell::RefCell;
use std::sync::Arc;

use polars_async::executor::{self, TaskPriority};
use polars_core::prelude::*;
use polars_ops::frame::{IEJoinOptions, InequalityOperator, JoinArgs, JoinType};
use polars_stream::execute::StreamingExecutionState;
use polars_stream::graph::{LogicalPipeKey, PortState};
use polars_stream::nodes::ComputeNode;
use polars_stream::nodes::joins::range_join::RangeJoinNode;
use polars_stream::pipe::{PhysicalPipe, PortReceiver};
use slotmap::Key;

use judges::script::{Answer, Spans};

use crate::frame;
use crate::rust::source;

/// How the node is fed. No answer may depend on it.
#[derive(Clone, Copy, Debug)]
pub struct Ways {
    /// How many compute tasks run side by side, with the real distributing and linearizing pipes around them.
    pub pipelines: usize,
    /// Whether the points are the join's left side.
    pub points_left: bool,
    /// Rows in a frame, of points and of intervals.
    pub rows: usize,
    /// Whether points and bounds come as temporary columns, which the node takes out of what it sends.
    pub temporary: bool,
}

impl Default for Ways {
    /// One compute task; all points in one frame, and all intervals; what is sent has the two numbers alone.
    fn default() -> Self {
        Ways { pipelines: 1, points_left: true, rows: 4096, temporary: true }
    }
}

const POINT: PlSmallStr = PlSmallStr::from_static("point");
const LOWER: PlSmallStr = PlSmallStr::from_static("lower");
const UPPER: PlSmallStr = PlSmallStr::from_static("upper");
const POINT_NUMBER: PlSmallStr = PlSmallStr::from_static("point number");
const INTERVAL_NUMBER: PlSmallStr = PlSmallStr::from_static("interval number");

/// The numbers of an interval row and of a point row that met.
type Pair = (i64, i64);

/// One side: its columns' names and cells, the row number last.
struct Side(Vec<Column>);

impl Side {
    /// The side of these columns, with its row numbers beside them.
    fn new(names: &[PlSmallStr], cells: Vec<Vec<Option<i64>>>, number: PlSmallStr) -> Side {
        let numbers = (0..cells[0].len() as i64).map(Some).collect();
        let names = names.iter().chain([&number]);
        Side(names.zip(cells.into_iter().chain([numbers])).map(|(name, cells)| Column::new(*name, cells)).collect())
    }

    /// Its schema.
    fn schema(&self) -> SchemaRef {
        Arc::new(Schema::of_names(self.0.iter().map(|c| *c.name())))
    }

    /// Its rows in frames of so many.
    fn frames(&self, rows: usize) -> Vec<DataFrame> {
        let all = DataFrame::new(self.0[0].values().len(), self.0.clone());
        let part = |from: usize| all.slice(from as i64, rows.min(all.height() - from));
        (0..all.height()).step_by(rows).map(part).collect()
    }
}

/// The node of these bounds: the comparisons say how the left side's value stands to the right side's.
fn node(call: &Spans, ways: Ways, points: &Side, intervals: &Side) -> RangeJoinNode {
    use InequalityOperator::*;
    let pick = |inclusive: i64, with: InequalityOperator, without: InequalityOperator| {
        if inclusive == 1 { with } else { without }
    };
    let (operator1, operator2) = match ways.points_left {
        true => (pick(call.lower, GtEq, Gt), pick(call.upper, LtEq, Lt)),
        false => (pick(call.lower, LtEq, Lt), pick(call.upper, GtEq, Gt)),
    };
    let options = IEJoinOptions { operator1, operator2: Some(operator2) };
    let args = JoinArgs { how: JoinType::Inner, suffix: None, build_side: None };
    let (point_on, interval_on) = (vec![POINT], vec![LOWER, UPPER]);
    let temporary = |on: &[PlSmallStr]| on.iter().map(|name| ways.temporary.then_some(*name)).collect();
    let (point_temporary, interval_temporary) = (temporary(&point_on), temporary(&interval_on));
    let (p, i) = (points.schema(), intervals.schema());
    if ways.points_left {
        RangeJoinNode::new(p, i, point_on, interval_on, point_temporary, interval_temporary, false, args, options)
    } else {
        RangeJoinNode::new(i, p, interval_on, point_on, interval_temporary, point_temporary, false, args, options)
    }
}

/// A task that takes all that the join sends, and keeps the numbers of the rows that met.
async fn sink(mut recv: PortReceiver, pairs: &RefCell<Vec<Pair>>) -> PolarsResult<()> {
    while let Ok(morsel) = recv.recv().await {
        let df = morsel.into_df_blocking();
        let numbers = |name: &str| df.column(name).unwrap().values();
        let met = numbers(&INTERVAL_NUMBER).iter().zip(numbers(&POINT_NUMBER)).map(|(i, p)| (i.unwrap(), p.unwrap()));
        pairs.borrow_mut().extend(met);
    }
    Ok(())
}

/// One phase: the node's real tasks between real pipes. Frames of the side that the node asks for: of points while it builds,
/// with nothing sent, else of intervals; the pairs that were sent.
fn phase(node: &mut RangeJoinNode, ways: Ways, frames: Vec<DataFrame>, building: bool) -> Vec<Pair> {
    let pipe = || PhysicalPipe::new(ways.pipelines, LogicalPipeKey::null(), Default::default(), None);
    let (mut in_pipe, mut out_pipe) = (pipe(), (!building).then(pipe));
    let pairs = RefCell::new(vec![]);
    let handles = executor::task_scope(|scope| {
        let mut handles = Vec::new();
        if let Some(out) = &mut out_pipe {
            handles.push(scope.spawn_task(TaskPriority::High, sink(out.recv_port().serial(), &pairs)));
        }
        let mut recv = [Some(in_pipe.recv_port()), None];
        if building != ways.points_left {
            recv.swap(0, 1);
        }
        let mut send = [out_pipe.as_mut().map(|p| p.send_port())];
        node.spawn(scope, &mut recv, &mut send, &StreamingExecutionState, &mut handles);
        assert!(recv.iter().all(|p| p.is_none()) && send.iter().all(|p| p.is_none()));
        handles.push(scope.spawn_task(TaskPriority::High, source(in_pipe.send_port().serial(), frames)));
        [Some(&mut in_pipe), out_pipe.as_mut()].into_iter().flatten().for_each(|p| p.spawn(scope, &mut handles));
        handles
    });
    handles.into_iter().for_each(|h| h.take().unwrap());
    pairs.into_inner()
}

/// The node's own `update_state`, with points and intervals in these states and what is behind it ready; the states of
/// points, intervals and send.
fn update(node: &mut RangeJoinNode, ways: Ways, points: PortState, intervals: PortState) -> [PortState; 3] {
    let mut recv = if ways.points_left { [points, intervals] } else { [intervals, points] };
    let mut send = [PortState::Ready];
    node.update_state(&mut recv, &mut send, &StreamingExecutionState).unwrap();
    if !ways.points_left {
        recv.swap(0, 1);
    }
    [recv[0], recv[1], send[0]]
}

/// All pairs in the order in which the node sends them: first it takes the points, then, once they are done, it meets each
/// frame of intervals with them (`compute_and_emit_task`).
fn pairs(call: &Spans, ways: Ways, points: Side, intervals: Side) -> Vec<Pair> {
    use PortState::{Blocked, Done, Ready};
    let mut node = node(call, ways, &points, &intervals);
    assert_eq!(update(&mut node, ways, Ready, Ready), [Ready, Blocked, Blocked]);
    assert!(phase(&mut node, ways, points.frames(ways.rows), true).is_empty());
    assert_eq!(update(&mut node, ways, Done, Ready), [Done, Ready, Ready]);
    let pairs = phase(&mut node, ways, intervals.frames(ways.rows), false);
    assert_eq!(update(&mut node, ways, Done, Done), [Done, Done, Done]);
    pairs
}

/// The table of the pairs that the Rust finds, whatever the points are; none where SCOPE 19 refuses flags or tables: no
/// such node or frame can be made.
pub fn table(call: &Spans, ways: Ways) -> Option<Vec<i64>> {
    let flags = [call.lower, call.upper].iter().all(|flag| [0, 1].contains(flag));
    let (points, intervals) = (frame::columns(&call.points, 1)?, frame::columns(&call.intervals, 2)?);
    let points = Side::new(&[POINT], points, POINT_NUMBER);
    let intervals = Side::new(&[LOWER, UPPER], intervals, INTERVAL_NUMBER);
    let pairs = flags.then(|| pairs(call, ways, points, intervals))?;
    let mut words = vec![pairs.len() as i64, 2];
    words.extend(pairs.iter().flat_map(|(interval, point)| [*interval, *point]));
    words.resize(2 + 4 * pairs.len(), 1);
    Some(words)
}

/// Whether SCOPE 19 refuses these points by 16, where they are a frame.
fn refused_by_16(words: &[i64]) -> bool {
    frame::columns(words, 1).is_some_and(|points| points[0].contains(&None) || !points[0].is_sorted())
}

/// The Rust's answer. Nothing where SCOPE 19 refuses flags, tables or points: the node has no counterpart of it. Outputs
/// are as long as needed.
pub fn answer(call: &Spans, ways: Ways) -> Answer {
    if refused_by_16(&call.points) {
        return Answer::Nothing;
    }
    table(call, ways).map_or(Answer::Nothing, Answer::Table)
}
