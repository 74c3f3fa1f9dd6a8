//! Stand-in: a one-thread executor that polls every task in turn until all are done, and queues for channels. SCOPE,
//! Polars forms: "async tasks become turns". With a seed (`executor::shuffle`) the polling order is random and every
//! channel call may give way first; no answer may depend on it.

pub mod executor;
pub mod primitives;
