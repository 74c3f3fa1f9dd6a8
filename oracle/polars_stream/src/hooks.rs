// A child module of asof_join (see lib.rs), so that the driver can see the node's private fields. It changes the queue
// of waiting left frames, which SCOPE's left call does, and, for one finding, the sequence; nothing else.
use super::*;

impl AsOfJoinNode {
    /// SCOPE 5.7: the left frames that wait.
    pub fn hook_left_buffer(&mut self) -> &mut VecDeque<DataFrame> {
        &mut self.left_buffer
    }

    /// SCOPE 13: the node state, 0 Running, 1 Flush, 2 Done.
    pub fn hook_state(&self) -> u8 {
        match self.state {
            AsOfJoinState::Running => 0,
            AsOfJoinState::FlushInputBuffer => 1,
            AsOfJoinState::Done => 2,
        }
    }

    /// SCOPE 5: held, the count of right rows kept.
    pub fn hook_held(&self) -> usize {
        self.right_buffer.height()
    }

    /// SCOPE 5: the sequence of the next turn that writes.
    pub fn hook_seq(&self) -> u64 {
        self.output_seq.to_u64()
    }

    /// Sets the sequence, to see what the Rust does at its end.
    pub fn hook_set_seq(&mut self, seq: MorselSeq) {
        self.output_seq = seq;
    }

    /// SCOPE 5.1: the row that a side remembers, or none.
    pub fn hook_remembered(&self) -> [Option<&DataFrame>; 2] {
        [self.last_non_null_row_left.as_ref(), self.last_non_null_row_right.as_ref()]
    }
}
