//! Questions of the whole picker, and of its places. On a picker of this crate only `list_place` is ever refused.

use crate::answers::{bytes, number};
use crate::sys::{self, Answer, Ask};
use crate::{ListPlace, PieceCount, PieceIndex, PiecePicker, Refusal};

impl PiecePicker {
    /// The number of pieces.
    pub fn num_pieces(&self) -> Result<i32, Refusal> {
        self.number_of(sys::pp_num_pieces)
    }

    /// The bytes of a block: 16,384, or the piece size where that is less.
    pub fn block_size(&self) -> Result<i32, Refusal> {
        self.number_of(sys::pp_block_size)
    }

    /// The blocks of a whole piece.
    pub fn blocks_per_piece(&self) -> Result<i32, Refusal> {
        self.number_of(sys::pp_blocks_per_piece)
    }

    /// The bytes of the torrent.
    pub fn total_size(&self) -> Result<i64, Refusal> {
        self.value_of(sys::pp_total_size).map(bytes)
    }

    /// The bytes of every piece but the last.
    pub fn full_piece_size(&self) -> Result<i32, Refusal> {
        self.number_of(sys::pp_full_piece_size)
    }

    /// The pad bytes of all pieces.
    pub fn num_pad_bytes(&self) -> Result<i64, Refusal> {
        self.value_of(sys::pp_num_pad_bytes).map(bytes)
    }

    /// The first piece that is neither had nor left out.
    pub fn cursor(&self) -> Result<PieceIndex, Refusal> {
        self.number_of(sys::pp_cursor).map(PieceIndex)
    }

    /// The one behind the last such piece.
    pub fn reverse_cursor(&self) -> Result<PieceIndex, Refusal> {
        self.number_of(sys::pp_reverse_cursor).map(PieceIndex)
    }

    /// Peers counted as having every piece.
    pub fn num_seeds(&self) -> Result<i32, Refusal> {
        self.number_of(sys::pp_num_seeds)
    }

    /// Whether the list is stale.
    pub fn dirty(&self) -> Result<bool, Refusal> {
        self.flag_of(sys::pp_dirty)
    }

    /// Pieces had: flushed, or with the right hash.
    pub fn num_have(&self) -> Result<i32, Refusal> {
        self.number_of(sys::pp_num_have)
    }

    /// Pieces of priority 0 that are not had.
    pub fn num_filtered(&self) -> Result<i32, Refusal> {
        self.number_of(sys::pp_num_filtered)
    }

    /// Pieces of priority 0 that are had.
    pub fn num_have_filtered(&self) -> Result<i32, Refusal> {
        self.number_of(sys::pp_num_have_filtered)
    }

    /// Pieces that are wanted and not had, and with them, as the Rust counts, those of priority 0 that are had.
    pub fn num_want_left(&self) -> Result<i32, Refusal> {
        self.number_of(sys::pp_num_want_left)
    }

    /// Whether every wanted piece is had.
    pub fn is_finished(&self) -> Result<bool, Refusal> {
        self.flag_of(sys::pp_is_finished)
    }

    /// Whether every piece is had.
    pub fn is_seeding(&self) -> Result<bool, Refusal> {
        self.flag_of(sys::pp_is_seeding)
    }

    /// The number of partials.
    pub fn get_download_queue_size(&self) -> Result<usize, Refusal> {
        self.value_of(sys::pp_get_download_queue_size).map(|value| value as usize)
    }

    /// The partials of each queue: downloading, full, finished, of priority 0.
    pub fn get_download_queue_sizes(&self) -> Result<(usize, usize, usize, usize), Refusal> {
        let sizes = self.ask(sys::pp_get_download_queue_sizes);
        Refusal::check(sizes.refusal, sizes.place)?;
        Ok((sizes.downloading as usize, sizes.full as usize, sizes.finished as usize, sizes.zero_prio as usize))
    }

    /// How many whole copies peers and this picker have, and thousandths of another.
    pub fn distributed_copies(&self) -> Result<(i32, i32), Refusal> {
        let copies = self.ask(sys::pp_distributed_copies);
        Refusal::check(copies.refusal, copies.place)?;
        Ok((number(copies.integer), number(copies.fraction)))
    }

    /// The pieces wanted.
    pub fn want(&self) -> Result<PieceCount, Refusal> {
        self.count_of(sys::pp_want)
    }

    /// The pieces wanted and had.
    pub fn have_want(&self) -> Result<PieceCount, Refusal> {
        self.count_of(sys::pp_have_want)
    }

    /// The pieces had.
    pub fn have(&self) -> Result<PieceCount, Refusal> {
        self.count_of(sys::pp_have)
    }

    /// All pieces.
    pub fn all_pieces(&self) -> Result<PieceCount, Refusal> {
        self.count_of(sys::pp_all_pieces)
    }

    /// The piece of the partial at this place, partials by rising piece; none past the last.
    pub fn partial_at(&self, place: i32) -> Result<Option<PieceIndex>, Refusal> {
        let answer = checked(self.ask_of(sys::pp_partial_at, place))?;
        Ok((answer.kind == sys::NUMBER).then(|| PieceIndex(number(answer.value))))
    }

    /// The extent at this place, oldest first; none past the last.
    pub fn recent_extent(&self, place: i32) -> Result<Option<i32>, Refusal> {
        let answer = checked(self.ask_of(sys::pp_recent_extent, place))?;
        Ok((answer.kind == sys::NUMBER).then(|| number(answer.value)))
    }

    /// What stands at this place of the list.
    ///
    /// Refused with 5 past the last, unless the list is stale.
    pub fn list_place(&self, place: i32) -> Result<ListPlace, Refusal> {
        let answer = checked(self.ask_of(sys::pp_list_place, place))?;
        Ok(if answer.kind == sys::STALE { ListPlace::Stale } else { ListPlace::Piece(PieceIndex(number(answer.value))) })
    }

    fn value_of(&self, call: Ask<Answer>) -> Result<u64, Refusal> {
        checked(self.ask(call)).map(|answer| answer.value)
    }

    fn number_of(&self, call: Ask<Answer>) -> Result<i32, Refusal> {
        self.value_of(call).map(number)
    }

    fn flag_of(&self, call: Ask<Answer>) -> Result<bool, Refusal> {
        self.value_of(call).map(|value| value != 0)
    }

    fn count_of(&self, call: Ask<sys::Count>) -> Result<PieceCount, Refusal> {
        let count = self.ask(call);
        Refusal::check(count.refusal, count.place)?;
        Ok(PieceCount { num_pieces: number(count.num_pieces), pad_bytes: bytes(count.pad_bytes), last_piece: count.last_piece })
    }
}

/// The answer, where it is none of the refusals.
pub(crate) fn checked(answer: Answer) -> Result<Answer, Refusal> {
    Refusal::check(answer.refusal, answer.place).map(|()| answer)
}
