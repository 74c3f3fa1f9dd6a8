//! Stand-in: a node that keeps all frames that come, one below the other. The range join takes its points by it.
use polars_async::executor::{JoinHandle, TaskPriority, TaskScope};
use polars_core::frame::DataFrame;
use polars_core::schema::SchemaRef;
use polars_error::PolarsResult;

use crate::execute::StreamingExecutionState;
use crate::graph::PortState;
use crate::nodes::ComputeNode;
use crate::pipe::{RecvPort, SendPort};

/// The frames so far.
#[derive(Debug)]
pub struct InMemorySinkNode(DataFrame);

impl InMemorySinkNode {
    /// A node that has no frame yet.
    pub fn new(schema: SchemaRef) -> Self {
        Self(DataFrame::empty_with_arc_schema(schema))
    }

    /// All rows that came.
    pub fn get_output(&mut self) -> PolarsResult<Option<DataFrame>> {
        Ok(Some(self.0.clone()))
    }
}

impl ComputeNode for InMemorySinkNode {
    /// The node's name.
    fn name(&self) -> &str {
        "in-memory-sink"
    }

    /// Frames can come.
    fn update_state(
        &mut self,
        recv: &mut [PortState],
        _send: &mut [PortState],
        _state: &StreamingExecutionState,
    ) -> PolarsResult<()> {
        recv[0] = PortState::Ready;
        Ok(())
    }

    /// Takes the frames of one phase.
    fn spawn<'env, 's>(
        &'env mut self,
        scope: &'s TaskScope<'s, 'env>,
        recv_ports: &mut [Option<RecvPort<'_>>],
        _send_ports: &mut [Option<SendPort<'_>>],
        _state: &'s StreamingExecutionState,
        join_handles: &mut Vec<JoinHandle<PolarsResult<()>>>,
    ) {
        let mut recv = recv_ports[0].take().unwrap().serial();
        join_handles.push(scope.spawn_task(TaskPriority::High, async move {
            while let Ok(morsel) = recv.recv().await {
                self.0.vstack_mut_owned(morsel.into_df().await)?;
            }
            Ok(())
        }));
    }
}
