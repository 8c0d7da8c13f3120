//! Questions that are answered by a list.

use crate::answers::number;
use crate::questions::checked;
use crate::sys::{self, Answer, AskList, AskListOf};
use crate::{BlockInfo, BlockState, DownloadPriority, DownloadingPiece, PieceIndex, PiecePicker, Refusal};

/// Words of a record (docs/MEMORY.md).
const PEER: usize = 2;
const BLOCK: usize = 4;
const PARTIAL: usize = 7;

impl PiecePicker {
    /// For each piece the peers that have it, seeds included.
    pub fn get_availability_vec(&self) -> Result<Vec<i32>, Refusal> {
        Ok(self.of_pieces(sys::pp_get_availability_vec)?.into_iter().map(i32::from).collect())
    }

    /// The priority of each piece.
    pub fn piece_priorities(&self) -> Result<Vec<DownloadPriority>, Refusal> {
        Ok(self.of_pieces(sys::pp_piece_priorities)?.into_iter().map(|value| DownloadPriority(value as u8)).collect())
    }

    /// The partials of the four queues, one queue after the other.
    pub fn get_download_queue(&self) -> Result<Vec<DownloadingPiece>, Refusal> {
        let mut out = vec![0; PARTIAL * self.partials.len()];
        let answer = checked(self.ask_list(sys::pp_get_download_queue, &mut out))?;
        Ok(out.chunks_exact(PARTIAL).take(answer.value as usize).map(downloading_piece).collect())
    }

    /// The peer that each block of a piece was last requested from.
    ///
    /// Refused with 5.
    pub fn get_downloaders(&self, index: PieceIndex) -> Result<Vec<Option<u64>>, Refusal> {
        let mut out = self.room_for_blocks(PEER)?;
        let answer = checked(self.ask_list_of(sys::pp_get_downloaders, &mut out, index))?;
        Ok(out.chunks_exact(PEER).take(answer.value as usize).map(|record| peer(record[0], record[1])).collect())
    }

    /// The blocks of a piece's partial; none without a partial.
    ///
    /// Refused with 5.
    pub fn blocks_for_piece(&self, index: PieceIndex) -> Result<Option<Vec<BlockInfo>>, Refusal> {
        let mut out = self.room_for_blocks(BLOCK)?;
        let answer = checked(self.ask_list_of(sys::pp_blocks_for_piece, &mut out, index))?;
        if answer.kind == sys::NOTHING {
            return Ok(None);
        }
        Ok(Some(out.chunks_exact(BLOCK).take(answer.value as usize).map(block_info).collect()))
    }

    /// A number for each piece.
    fn of_pieces(&self, call: AskList<u16>) -> Result<Vec<u16>, Refusal> {
        let mut out = vec![0; self.num_pieces()? as usize];
        let answer = checked(self.ask_list(call, &mut out))?;
        out.truncate(answer.value as usize);
        Ok(out)
    }

    /// Records of so many words for the blocks of a whole piece.
    fn room_for_blocks(&self, words: usize) -> Result<Vec<u64>, Refusal> {
        Ok(vec![0; words * self.blocks_per_piece()? as usize])
    }

    fn ask_list<T>(&self, call: AskList<T>, out: &mut [T]) -> Answer {
        let (words, cells, partials) = (&self.words, &self.cells, &self.partials);
        unsafe {
            call(words.as_ptr(), words.len(), cells.as_ptr(), cells.len(), partials.as_ptr(), partials.len(), out.as_mut_ptr(), out.len())
        }
    }

    fn ask_list_of(&self, call: AskListOf<u64>, out: &mut [u64], piece: PieceIndex) -> Answer {
        let (words, cells, partials) = (&self.words, &self.cells, &self.partials);
        unsafe {
            call(words.as_ptr(), words.len(), cells.as_ptr(), cells.len(), partials.as_ptr(), partials.len(), out.as_mut_ptr(), out.len(),
                piece.0)
        }
    }
}

fn peer(has: u64, peer: u64) -> Option<u64> {
    (has != 0).then_some(peer)
}

fn block_info(record: &[u64]) -> BlockInfo {
    BlockInfo { state: BlockState::of(record[0]), num_peers: record[1] as u16, peer: peer(record[2], record[3]) }
}

fn downloading_piece(record: &[u64]) -> DownloadingPiece {
    DownloadingPiece {
        index: PieceIndex(number(record[0])),
        finished: record[1] as u16,
        passed_hash_check: record[2] != 0,
        writing: record[3] as u16,
        locked: record[4] != 0,
        requested: record[5] as u16,
        hashing: record[6] != 0,
    }
}
