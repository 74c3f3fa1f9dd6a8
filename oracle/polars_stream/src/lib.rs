//! The as-of join and the range join node of polars-stream, their files unchanged at their own module paths, and stand-ins
//! for the rest of that crate. This file stands where polars-stream's lib.rs would.
use std::sync::LazyLock;

#[allow(unused, clippy::all)]
pub mod graph {
    include!(concat!(env!("OUT_DIR"), "/graph.rs"));
}

#[allow(unused, clippy::all)]
pub mod morsel {
    include!(concat!(env!("OUT_DIR"), "/morsel.rs"));
}

#[allow(unused, clippy::all)]
pub mod pipe {
    include!(concat!(env!("OUT_DIR"), "/pipe.rs"));
}

pub mod execute {
    /// Stand-in: neither update_state nor spawn of the joins reads it.
    pub struct StreamingExecutionState;
}

pub mod metrics {
    use std::sync::Arc;
    use std::time::Duration;

    use crate::graph::{GraphNodeKey, LogicalPipeKey};
    use crate::pipe::PipeMetrics;

    /// Stand-in: no metrics are kept.
    pub struct GraphMetrics;

    impl GraphMetrics {
        /// Keeps nothing of a new pipe.
        pub fn add_pipe(&mut self, _key: LogicalPipeKey, _metrics: Arc<PipeMetrics>) {}

        /// Keeps nothing of a beginning update.
        pub fn start_state_update(&mut self, _key: GraphNodeKey) {}

        /// Keeps nothing of an ended update.
        pub fn stop_state_update(&mut self, _key: GraphNodeKey, _time: Duration, _done: bool) {}
    }
}

pub mod nodes {
    use polars_async::executor::{JoinHandle, TaskScope};
    use polars_error::PolarsResult;

    use crate::execute::StreamingExecutionState;
    use crate::graph::PortState;
    use crate::pipe::{RecvPort, SendPort};

    /// Stand-in: the part of the trait that the files show.
    pub trait ComputeNode {
        /// The node's name.
        fn name(&self) -> &str;

        /// Whether the node holds much memory and nothing goes on behind it; nobody asks here.
        fn is_memory_intensive_pipeline_blocker(&self) -> bool {
            false
        }

        /// SCOPE 13: from the states in which the ports come to those in which they go.
        fn update_state(
            &mut self,
            recv: &mut [PortState],
            send: &mut [PortState],
            state: &StreamingExecutionState,
        ) -> PolarsResult<()>;

        /// Adds the node's tasks of one phase.
        fn spawn<'env, 's>(
            &'env mut self,
            scope: &'s TaskScope<'s, 'env>,
            recv_ports: &mut [Option<RecvPort<'_>>],
            send_ports: &mut [Option<SendPort<'_>>],
            state: &'s StreamingExecutionState,
            join_handles: &mut Vec<JoinHandle<PolarsResult<()>>>,
        );
    }

    pub mod in_memory_sink;

    pub mod joins {
        #[allow(unused, clippy::all)]
        pub mod range_join {
            include!(concat!(env!("OUT_DIR"), "/range_join.rs"));
        }

        #[allow(unused, clippy::all)]
        pub mod asof_join {
            include!(concat!(env!("OUT_DIR"), "/asof_join.rs"));

            pub mod hooks {
                include!(concat!(env!("CARGO_MANIFEST_DIR"), "/src/hooks.rs"));
            }
        }

        #[allow(unused, clippy::all)]
        pub mod utils {
            include!(concat!(env!("OUT_DIR"), "/utils.rs"));
        }
    }
}

/// How many frames wait between tasks, as in polars-stream where nothing else is set.
static DEFAULT_LINEARIZER_BUFFER_SIZE: LazyLock<usize> = LazyLock::new(|| 4);

/// How many frames wait between tasks, as in polars-stream where nothing else is set.
static DEFAULT_DISTRIBUTOR_BUFFER_SIZE: LazyLock<usize> = LazyLock::new(|| 4);
