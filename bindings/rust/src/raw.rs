//! The C interface as it is: include/rowkeeper.h in Rust. That header says what everything means.

// ---- tools/interface writes: structs
/// The version of the library that these declarations are of.
pub const VERSION: &str = "0.5.2";
/// The same as a number: 1,000,000 × major + 1,000 × minor + patch.
pub const VERSION_NUMBER: u64 = 5002;
/// The rows that a frame can have at most.
pub const MOST_ROWS: usize = 4096;
/// The by-columns that a join can have at most.
pub const MOST_BY: usize = 4;
/// The carried columns that a join can have at most.
pub const MOST_CARRIED: usize = 8;
/// The codes that a list of ranks can have at most.
pub const MOST_RANKS: usize = 64;
/// Options.tolerance if any distance will do.
pub const NO_TOLERANCE: i64 = -1;
/// Join.layout: the bytes "rowkeep" from the highest down, then the layout's version, 4.
pub const LAYOUT: u64 = 0x726f776b65657004;
/// The last row whose key is not greater.
pub const BACKWARD: u64 = 0;
/// The first row whose key is not smaller.
pub const FORWARD: u64 = 1;
/// The row whose key is nearest; of two equally near keys the greater.
pub const NEAREST: u64 = 2;
/// Nothing is checked.
pub const CHECK_OFF: u64 = 0;
/// Left frames and held rows are checked, and left frames against earlier ones by rows that have a key.
pub const CHECK_ON: u64 = 1;
/// As on; left frames are checked against earlier ones by all their rows.
pub const CHECK_STRICT: u64 = 2;
/// It takes left frames.
pub const RUNNING: u64 = 0;
/// Left is done; frames still wait.
pub const FLUSH: u64 = 1;
/// Everything is done.
pub const DONE: u64 = 2;
/// Nothing can pass it at present.
pub const PORT_BLOCKED: u64 = 0;
/// It can pass frames.
pub const PORT_READY: u64 = 1;
/// Nothing will pass it any more.
pub const PORT_DONE: u64 = 2;
/// The matches of a frame were written.
pub const WROTE: u64 = 0;
/// Right rows that are still to come might match.
pub const WANTS_RIGHT: u64 = 1;
/// No frame waits.
pub const IDLE: u64 = 2;
/// The turn was refused.
pub const REFUSED: u64 = 3;
/// As many turns wrote as the run was given.
pub const TURNS_USED: u64 = 0;

/// A list of codes for one by-column, which then compares by place in the list and not by number; or none.
#[repr(C)]
#[derive(Clone, Copy, Debug, PartialEq, Eq)]
pub struct Ranks {
    /// 1: there is a list; 0: there is none, and the fields below may be anything.
    pub given: u64,
    /// The by-column that it is for, from 0.
    pub column: u64,
    /// How many codes it has, 1 to 64.
    pub count: u64,
    /// The codes in their order, each once; the words behind the first `count` may be anything.
    pub codes: [i64; 64],
}

impl Default for Ranks {
    /// Zeros throughout.
    fn default() -> Self {
        Ranks { given: 0, column: 0, count: 0, codes: [0; 64] }
    }
}

/// What a join is opened with. Flags are 0 or 1, also those past `by`.
#[repr(C)]
#[derive(Clone, Copy, Debug, Default, PartialEq, Eq)]
pub struct Options {
    /// By-columns, 0 to 4; left rows have by + 1 columns, the key last.
    pub by: u64,
    /// BACKWARD, FORWARD or NEAREST.
    pub strategy: u64,
    /// Whether an equal key matches; Nearest needs it.
    pub allow_eq: u64,
    /// The greatest distance of two keys, or NO_TOLERANCE.
    pub tolerance: i64,
    /// CHECK_OFF, CHECK_ON or CHECK_STRICT: whether turns check the order of rows.
    pub check: u64,
    /// For each by-column: whether its numbers descend.
    pub descending: [u64; 4],
    /// For each by-column: whether its nulls come last.
    pub nulls_last: [u64; 4],
    /// Columns that right rows have behind the key, 0 to 8: they come with the match.
    pub carried: u64,
    /// The codes by whose places one by-column is sorted, or none.
    pub ranks: Ranks,
    /// Whether answers have a last column, the distance of the two keys.
    pub with_distance: u64,
}

/// A row that the order check remembers, or none. A mark other than 0 means present.
#[repr(C)]
#[derive(Clone, Copy, Debug, Default, PartialEq, Eq)]
pub struct Row {
    /// Whether there is one.
    pub some: u64,
    /// Its values, those past its columns unused.
    pub values: [i64; 5],
    /// Its marks.
    pub marks: [i64; 5],
}

/// A join: 122 words, no padding. A host may read every field and need not.
#[repr(C)]
#[derive(Clone, Copy, Debug, PartialEq, Eq)]
pub struct Join {
    /// LAYOUT.
    pub layout: u64,
    /// What it was opened with.
    pub options: Options,
    /// The places of the list's codes by rising code, found at opening: nothing for a host to fill or read.
    pub rising: [u8; 64],
    /// The place of the first held row in the right area, in rows.
    pub base: u64,
    /// Right rows held.
    pub held: u64,
    /// Right rows dropped: held row i has the number pruned + i.
    pub pruned: u64,
    /// The place of the first waiting frame in the left area, in words.
    pub queue_start: u64,
    /// Words waiting there; 0: no frame waits.
    pub queue_words: u64,
    /// RUNNING, FLUSH or DONE.
    pub state: u64,
    /// 0 or 1.
    pub right_ended: u64,
    /// 0 or 1.
    pub failed: u64,
    /// Twice the number of turns that wrote.
    pub sequence: u64,
    /// What the order check remembers of left.
    pub last_left: Row,
    /// What the order check remembers of right.
    pub last_right: Row,
}

impl Default for Join {
    /// Zeros throughout.
    fn default() -> Self {
        Join {
            layout: 0,
            options: Options::default(),
            rising: [0; 64],
            base: 0,
            held: 0,
            pruned: 0,
            queue_start: 0,
            queue_words: 0,
            state: 0,
            right_ended: 0,
            failed: 0,
            sequence: 0,
            last_left: Row::default(),
            last_right: Row::default(),
        }
    }
}

/// The answer of opening, left, right and the end of right.
#[repr(C)]
#[derive(Clone, Copy, Debug, Default, PartialEq, Eq)]
pub struct Took {
    /// 0 accepted, else the refusal's number.
    pub refusal: u64,
    /// The join from here on.
    pub join: Join,
}

/// The answer of a port call.
#[repr(C)]
#[derive(Clone, Copy, Debug, Default, PartialEq, Eq)]
pub struct Ported {
    /// 0 accepted, else the refusal's number.
    pub refusal: u64,
    /// The new state of left; 0 if refused.
    pub left: u64,
    /// The new state of right; 0 if refused.
    pub right: u64,
    /// The new state of send; 0 if refused.
    pub send: u64,
    /// The join from here on.
    pub join: Join,
}

/// The answer of a turn.
#[repr(C)]
#[derive(Clone, Copy, Debug, Default, PartialEq, Eq)]
pub struct Turned {
    /// WROTE, WANTS_RIGHT, IDLE or REFUSED.
    pub answer: u64,
    /// With REFUSED the refusal's number, else 0.
    pub refusal: u64,
    /// With WROTE the number of the frame written (0, 2, 4 and so on), else 0.
    pub sequence: u64,
    /// The join from here on.
    pub join: Join,
}

/// The answer of a run.
#[repr(C)]
#[derive(Clone, Copy, Debug, Default, PartialEq, Eq)]
pub struct Ran {
    /// How many turns wrote.
    pub turns: u64,
    /// How many words they wrote, one after the other, from the output's first word on.
    pub words: u64,
    /// TURNS_USED, or the answer of the turn that wrote nothing.
    pub stop: u64,
    /// With REFUSED that turn's refusal, else 0.
    pub refusal: u64,
    /// The join from here on.
    pub join: Join,
}

/// The answer of a call that writes a table.
#[repr(C)]
#[derive(Clone, Copy, Debug, Default, PartialEq, Eq)]
pub struct Written {
    /// 0 accepted, else the refusal's number.
    pub refusal: u64,
    /// How many rows were written; 0 if refused.
    pub rows: u64,
}

/// The answer of a reader's view.
#[repr(C)]
#[derive(Clone, Copy, Debug, Default, PartialEq, Eq)]
pub struct Viewed {
    /// 0 accepted, else the refusal's number.
    pub refusal: u64,
    /// How many rows the frame has; 0 if refused.
    pub rows: u64,
    /// How many columns it has; 0 if refused.
    pub columns: u64,
}

/// A cell of a frame, as its two words.
#[repr(C)]
#[derive(Clone, Copy, Debug, Default, PartialEq, Eq)]
pub struct Cell {
    /// Its value; 0 if it is null.
    pub value: i64,
    /// 1: it has a value; 0: it is null.
    pub mark: i64,
}

/// The answer of a reader for one place.
#[repr(C)]
#[derive(Clone, Copy, Debug, Default, PartialEq, Eq)]
pub struct Shown {
    /// 0 accepted, else the refusal's number.
    pub refusal: u64,
    /// The cell's value; 0 if it is null, or if refused.
    pub value: i64,
    /// 1: it has a value; 0: it is null, or refused.
    pub mark: i64,
}

/// The answer of a plan: the figures of its schedule, all 0 if refused.
#[repr(C)]
#[derive(Clone, Copy, Debug, Default, PartialEq, Eq)]
pub struct Planned {
    /// 0 accepted, else the refusal's number.
    pub refusal: u64,
    /// The most right rows held at once: the smallest R that meets no refusal 6 on the right.
    pub rows: u64,
    /// The turn calls up to the last frame written, those that want right rows among them.
    pub turns: u64,
    /// The right frames taken.
    pub rights: u64,
}

/// The answer of a call over takings.
#[repr(C)]
#[derive(Clone, Copy, Debug, Default, PartialEq, Eq)]
pub struct Taken {
    /// 0 accepted, else the refusal's number.
    pub refusal: u64,
    /// How many rows the table has that was written; 0 if refused.
    pub rows: u64,
    /// The matched sales without an amount, beside the table; 0 if refused.
    pub number: i64,
}

/// How many words a join is.
pub const JOIN_WORDS: usize = 122;
const _: () = assert!(size_of::<Join>() == 8 * JOIN_WORDS && align_of::<Join>() == 8 && size_of::<usize>() == 8);
// ---- tools/interface: end of structs

impl Join {
    /// The join's words, in the order of the fields.
    pub fn to_words(self) -> [i64; JOIN_WORDS] {
        // SAFETY: the struct is fields of 64 bits without padding, and any bits are a word.
        unsafe { core::mem::transmute(self) }
    }

    /// The join of these words. Any words make one: calls judge it.
    pub fn from_words(words: [i64; JOIN_WORDS]) -> Join {
        // SAFETY: as above; any bits are a field.
        unsafe { core::mem::transmute(words) }
    }
}

// ---- tools/interface writes: calls
unsafe extern "C" {
    /// Opens a join: strategy, equality, tolerance, order check, by-columns, carried columns, a list of ranks, the
    /// distance. Safe: it is lent nothing.
    pub safe fn rowkeeper_open(options: Options) -> Took;
    /// Takes a left frame, which then waits.
    pub fn rowkeeper_left(
        join: Join,
        left: *mut i64,
        left_len: usize,
        right: *const i64,
        right_len: usize,
        frame: *const i64,
        frame_len: usize,
    ) -> Took;
    /// Takes a right frame, whose rows are then held.
    pub fn rowkeeper_right(
        join: Join,
        left: *const i64,
        left_len: usize,
        right: *mut i64,
        right_len: usize,
        frame: *const i64,
        frame_len: usize,
    ) -> Took;
    /// Ends right: no right frame will come any more.
    pub fn rowkeeper_end_right(
        join: Join,
        left: *const i64,
        left_len: usize,
        right: *const i64,
        right_len: usize,
    ) -> Took;
    /// Takes the join, with what waits and what is held, to other areas, of any lengths.
    pub fn rowkeeper_move(
        join: Join,
        left: *const i64,
        left_len: usize,
        right: *const i64,
        right_len: usize,
        new_left: *mut i64,
        new_left_len: usize,
        new_right: *mut i64,
        new_right_len: usize,
    ) -> Took;
    /// Moves the node on, for hosts that run it in a pipeline; this is also how left ends.
    pub fn rowkeeper_ports(
        join: Join,
        left: *const i64,
        left_len: usize,
        right: *const i64,
        right_len: usize,
        left_port: u64,
        right_port: u64,
        send_port: u64,
    ) -> Ported;
    /// Writes the matches of the frame that has waited longest, or answers Wants right or Idle.
    pub fn rowkeeper_turn(
        join: Join,
        left: *const i64,
        left_len: usize,
        right: *const i64,
        right_len: usize,
        out: *mut i64,
        out_len: usize,
    ) -> Turned;
    /// Makes turns, up to a given number, and writes their matches one after the other.
    pub fn rowkeeper_run(
        join: Join,
        turns: usize,
        left: *const i64,
        left_len: usize,
        right: *const i64,
        right_len: usize,
        out: *mut i64,
        out_len: usize,
    ) -> Ran;
    /// Without a join: lists which points lie inside the bounds of which intervals, as a pass covers performances.
    pub fn rowkeeper_spans(
        points: *const i64,
        point_words: usize,
        intervals: *const i64,
        interval_words: usize,
        lower_inclusive: u64,
        upper_inclusive: u64,
        out: *mut i64,
        out_words: usize,
    ) -> Written;
    /// Without a join: merges two sorted books of notices into one sorted book, the house's rows first where they
    /// compare equal.
    pub fn rowkeeper_merge(
        options: Options,
        house: *const i64,
        house_words: usize,
        festival: *const i64,
        festival_words: usize,
        out: *mut i64,
        out_words: usize,
    ) -> Written;
    /// Without a join: tells which notices of a sorted book stand, and for those that do not which notice is the last
    /// of its group and key.
    pub fn rowkeeper_standing(
        options: Options,
        book: *const i64,
        book_words: usize,
        place: u64,
        out: *mut i64,
        out_words: usize,
    ) -> Written;
    /// Without a join: the plain reader's view of an answer frame of 1 + carried columns; its cells are then read by
    /// view_cell.
    pub fn rowkeeper_view_plain(carried: u64, frame: *const i64, frame_len: usize) -> Viewed;
    /// Without a join: the distance reader's view, of frames of 1 + carried or of 2 + carried columns, the last being
    /// the distance.
    pub fn rowkeeper_view_distance(carried: u64, frame: *const i64, frame_len: usize) -> Viewed;
    /// Without a join: a cell of a frame that was viewed; a place outside it reads as null.
    pub fn rowkeeper_view_cell(
        rows: u64,
        columns: u64,
        frame: *const i64,
        frame_len: usize,
        row: u64,
        column: u64,
    ) -> Cell;
    /// Without a join: what the plain reader shows of one place of an answer frame.
    pub fn rowkeeper_read_plain(carried: u64, frame: *const i64, frame_len: usize, row: u64, column: u64) -> Shown;
    /// Without a join: what the distance reader shows of one place.
    pub fn rowkeeper_read_distance(carried: u64, frame: *const i64, frame_len: usize, row: u64, column: u64) -> Shown;
    /// Without a join: tells how many right rows a join over two sorted tables holds at most, and so how large an area
    /// to lend.
    pub fn rowkeeper_plan(
        options: Options,
        left: *const i64,
        left_words: usize,
        right: *const i64,
        right_words: usize,
        left_heights: *const i64,
        left_heights_words: usize,
        right_heights: *const i64,
        right_heights_words: usize,
    ) -> Planned;
    /// Without a join: tells where a sorted table is cut for a list of groups, so that the parts can be joined apart.
    pub fn rowkeeper_cut(
        options: Options,
        right: u64,
        table: *const i64,
        table_words: usize,
        boundaries: *const i64,
        boundary_words: usize,
        out: *mut i64,
        out_words: usize,
    ) -> Written;
    /// Without a join: joins two sorted tables whole, pair by pair at a list of groups.
    pub fn rowkeeper_join_cut(
        options: Options,
        left: *const i64,
        left_words: usize,
        right: *const i64,
        right_words: usize,
        boundaries: *const i64,
        boundary_words: usize,
        left_area: *const i64,
        left_area_words: usize,
        right_area: *const i64,
        right_area_words: usize,
        out: *mut i64,
        out_words: usize,
    ) -> Written;
    /// Without a join: adds a frame's matched sales to a table of takings by group: totals and sale counts.
    pub fn rowkeeper_takings_add(
        options: Options,
        table: *const i64,
        table_words: usize,
        number: i64,
        left: *const i64,
        left_words: usize,
        answers: *const i64,
        answer_words: usize,
        out: *mut i64,
        out_words: usize,
    ) -> Taken;
    /// Without a join: joins two tables of takings by group.
    pub fn rowkeeper_takings_join(
        options: Options,
        table: *const i64,
        table_words: usize,
        number: i64,
        other: *const i64,
        other_words: usize,
        other_number: i64,
        out: *mut i64,
        out_words: usize,
    ) -> Taken;
    /// The version of the library, to compare with VERSION_NUMBER. Safe: it is lent nothing.
    pub safe fn rowkeeper_version() -> u64;
}
// ---- tools/interface: end of calls

/// The calls with slices in the place of pointers and lengths. A slice of Rust is never null, is aligned and as long as it
/// says, and what is lent to be written overlaps nothing else; that is all that the calls ask, so these are safe, for any
/// join and any words.
pub mod safe {
    use super::*;

    // ---- tools/interface writes: slices
    /// Takes a left frame, which then waits.
    pub fn left(join: Join, left: &mut [i64], right: &[i64], frame: &[i64]) -> Took {
        // SAFETY: see the module.
        unsafe {
            rowkeeper_left(
                join,
                left.as_mut_ptr(),
                left.len(),
                right.as_ptr(),
                right.len(),
                frame.as_ptr(),
                frame.len(),
            )
        }
    }

    /// Takes a right frame, whose rows are then held.
    pub fn right(join: Join, left: &[i64], right: &mut [i64], frame: &[i64]) -> Took {
        // SAFETY: see the module.
        unsafe {
            rowkeeper_right(
                join,
                left.as_ptr(),
                left.len(),
                right.as_mut_ptr(),
                right.len(),
                frame.as_ptr(),
                frame.len(),
            )
        }
    }

    /// Ends right: no right frame will come any more.
    pub fn end_right(join: Join, left: &[i64], right: &[i64]) -> Took {
        // SAFETY: see the module.
        unsafe { rowkeeper_end_right(join, left.as_ptr(), left.len(), right.as_ptr(), right.len()) }
    }

    /// Takes the join, with what waits and what is held, to other areas, of any lengths.
    pub fn move_join(join: Join, left: &[i64], right: &[i64], new_left: &mut [i64], new_right: &mut [i64]) -> Took {
        // SAFETY: see the module.
        unsafe {
            rowkeeper_move(
                join,
                left.as_ptr(),
                left.len(),
                right.as_ptr(),
                right.len(),
                new_left.as_mut_ptr(),
                new_left.len(),
                new_right.as_mut_ptr(),
                new_right.len(),
            )
        }
    }

    /// Moves the node on, for hosts that run it in a pipeline; this is also how left ends.
    pub fn ports(join: Join, left: &[i64], right: &[i64], left_port: u64, right_port: u64, send_port: u64) -> Ported {
        // SAFETY: see the module.
        unsafe {
            rowkeeper_ports(
                join,
                left.as_ptr(),
                left.len(),
                right.as_ptr(),
                right.len(),
                left_port,
                right_port,
                send_port,
            )
        }
    }

    /// Writes the matches of the frame that has waited longest, or answers Wants right or Idle.
    pub fn turn(join: Join, left: &[i64], right: &[i64], out: &mut [i64]) -> Turned {
        // SAFETY: see the module.
        unsafe {
            rowkeeper_turn(join, left.as_ptr(), left.len(), right.as_ptr(), right.len(), out.as_mut_ptr(), out.len())
        }
    }

    /// Makes turns, up to a given number, and writes their matches one after the other.
    pub fn run(join: Join, turns: usize, left: &[i64], right: &[i64], out: &mut [i64]) -> Ran {
        // SAFETY: see the module.
        unsafe {
            rowkeeper_run(
                join,
                turns,
                left.as_ptr(),
                left.len(),
                right.as_ptr(),
                right.len(),
                out.as_mut_ptr(),
                out.len(),
            )
        }
    }

    /// Without a join: lists which points lie inside the bounds of which intervals, as a pass covers performances.
    pub fn spans(
        points: &[i64],
        intervals: &[i64],
        lower_inclusive: u64,
        upper_inclusive: u64,
        out: &mut [i64],
    ) -> Written {
        // SAFETY: see the module.
        unsafe {
            rowkeeper_spans(
                points.as_ptr(),
                points.len(),
                intervals.as_ptr(),
                intervals.len(),
                lower_inclusive,
                upper_inclusive,
                out.as_mut_ptr(),
                out.len(),
            )
        }
    }

    /// Without a join: merges two sorted books of notices into one sorted book, the house's rows first where they
    /// compare equal.
    pub fn merge(options: Options, house: &[i64], festival: &[i64], out: &mut [i64]) -> Written {
        // SAFETY: see the module.
        unsafe {
            rowkeeper_merge(
                options,
                house.as_ptr(),
                house.len(),
                festival.as_ptr(),
                festival.len(),
                out.as_mut_ptr(),
                out.len(),
            )
        }
    }

    /// Without a join: tells which notices of a sorted book stand, and for those that do not which notice is the last
    /// of its group and key.
    pub fn standing(options: Options, book: &[i64], place: u64, out: &mut [i64]) -> Written {
        // SAFETY: see the module.
        unsafe { rowkeeper_standing(options, book.as_ptr(), book.len(), place, out.as_mut_ptr(), out.len()) }
    }

    /// Without a join: the plain reader's view of an answer frame of 1 + carried columns; its cells are then read by
    /// view_cell.
    pub fn view_plain(carried: u64, frame: &[i64]) -> Viewed {
        // SAFETY: see the module.
        unsafe { rowkeeper_view_plain(carried, frame.as_ptr(), frame.len()) }
    }

    /// Without a join: the distance reader's view, of frames of 1 + carried or of 2 + carried columns, the last being
    /// the distance.
    pub fn view_distance(carried: u64, frame: &[i64]) -> Viewed {
        // SAFETY: see the module.
        unsafe { rowkeeper_view_distance(carried, frame.as_ptr(), frame.len()) }
    }

    /// Without a join: a cell of a frame that was viewed; a place outside it reads as null.
    pub fn view_cell(rows: u64, columns: u64, frame: &[i64], row: u64, column: u64) -> Cell {
        // SAFETY: see the module.
        unsafe { rowkeeper_view_cell(rows, columns, frame.as_ptr(), frame.len(), row, column) }
    }

    /// Without a join: what the plain reader shows of one place of an answer frame.
    pub fn read_plain(carried: u64, frame: &[i64], row: u64, column: u64) -> Shown {
        // SAFETY: see the module.
        unsafe { rowkeeper_read_plain(carried, frame.as_ptr(), frame.len(), row, column) }
    }

    /// Without a join: what the distance reader shows of one place.
    pub fn read_distance(carried: u64, frame: &[i64], row: u64, column: u64) -> Shown {
        // SAFETY: see the module.
        unsafe { rowkeeper_read_distance(carried, frame.as_ptr(), frame.len(), row, column) }
    }

    /// Without a join: tells how many right rows a join over two sorted tables holds at most, and so how large an area
    /// to lend.
    pub fn plan(options: Options, left: &[i64], right: &[i64], left_heights: &[i64], right_heights: &[i64]) -> Planned {
        // SAFETY: see the module.
        unsafe {
            rowkeeper_plan(
                options,
                left.as_ptr(),
                left.len(),
                right.as_ptr(),
                right.len(),
                left_heights.as_ptr(),
                left_heights.len(),
                right_heights.as_ptr(),
                right_heights.len(),
            )
        }
    }

    /// Without a join: tells where a sorted table is cut for a list of groups, so that the parts can be joined apart.
    pub fn cut(options: Options, right: u64, table: &[i64], boundaries: &[i64], out: &mut [i64]) -> Written {
        // SAFETY: see the module.
        unsafe {
            rowkeeper_cut(
                options,
                right,
                table.as_ptr(),
                table.len(),
                boundaries.as_ptr(),
                boundaries.len(),
                out.as_mut_ptr(),
                out.len(),
            )
        }
    }

    /// Without a join: joins two sorted tables whole, pair by pair at a list of groups.
    pub fn join_cut(
        options: Options,
        left: &[i64],
        right: &[i64],
        boundaries: &[i64],
        left_area: &[i64],
        right_area: &[i64],
        out: &mut [i64],
    ) -> Written {
        // SAFETY: see the module.
        unsafe {
            rowkeeper_join_cut(
                options,
                left.as_ptr(),
                left.len(),
                right.as_ptr(),
                right.len(),
                boundaries.as_ptr(),
                boundaries.len(),
                left_area.as_ptr(),
                left_area.len(),
                right_area.as_ptr(),
                right_area.len(),
                out.as_mut_ptr(),
                out.len(),
            )
        }
    }

    /// Without a join: adds a frame's matched sales to a table of takings by group: totals and sale counts.
    pub fn takings_add(
        options: Options,
        table: &[i64],
        number: i64,
        left: &[i64],
        answers: &[i64],
        out: &mut [i64],
    ) -> Taken {
        // SAFETY: see the module.
        unsafe {
            rowkeeper_takings_add(
                options,
                table.as_ptr(),
                table.len(),
                number,
                left.as_ptr(),
                left.len(),
                answers.as_ptr(),
                answers.len(),
                out.as_mut_ptr(),
                out.len(),
            )
        }
    }

    /// Without a join: joins two tables of takings by group.
    pub fn takings_join(
        options: Options,
        table: &[i64],
        number: i64,
        other: &[i64],
        other_number: i64,
        out: &mut [i64],
    ) -> Taken {
        // SAFETY: see the module.
        unsafe {
            rowkeeper_takings_join(
                options,
                table.as_ptr(),
                table.len(),
                number,
                other.as_ptr(),
                other.len(),
                other_number,
                out.as_mut_ptr(),
                out.len(),
            )
        }
    }
    // ---- tools/interface: end of slices
}
