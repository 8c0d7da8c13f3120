// ---------- appended by the oracle: what needs the private fields ----------

use crate::image::{Block, Fields, Partial};

/// Which rules of document 01 applied in a ruled pick.
pub mod rules {
    use std::cell::Cell;

    /// The walk round the torrent was ended where the unchanged one goes on for ever.
    pub const RING_WALK: u8 = 1;
    /// A run of no piece, aligned, was taken as the piece alone.
    pub const ZERO_RUN: u8 = 2;

    thread_local! {
        static APPLIED: Cell<u8> = const { Cell::new(0) };
    }

    pub fn note(rule: u8) {
        APPLIED.with(|applied| applied.set(applied.get() | rule));
    }

    /// The rules noted since this was last asked.
    pub fn take() -> u8 {
        APPLIED.with(|applied| applied.replace(0))
    }
}

/// `DownloadQueue`, by number.
const STATES: [DownloadQueue; 7] = [
    DownloadQueue::Downloading,
    DownloadQueue::Full,
    DownloadQueue::Finished,
    DownloadQueue::ZeroPrio,
    DownloadQueue::Open,
    DownloadQueue::DownloadingReverse,
    DownloadQueue::FullReverse,
];

/// `BlockState`, by number.
const BLOCK_STATES: [BlockState; 4] = [BlockState::None, BlockState::Requested, BlockState::Writing, BlockState::Finished];

impl PickerOptions {
    pub fn from_bits(bits: u16) -> Self {
        Self(bits)
    }
}

impl Clone for PiecePicker {
    fn clone(&self) -> Self {
        Self {
            piece_map: self.piece_map.clone(),
            pads_in_piece: self.pads_in_piece.clone(),
            recent_extents: self.recent_extents.clone(),
            pieces: self.pieces.clone(),
            priority_boundaries: self.priority_boundaries.clone(),
            downloads: self.downloads.clone(),
            block_info: self.block_info.clone(),
            free_block_infos: self.free_block_infos.clone(),
            ..*self
        }
    }
}

/// Single fields.
impl PiecePicker {
    pub fn total_size(&self) -> i64 {
        self.total_size
    }

    pub fn full_piece_size(&self) -> i32 {
        self.piece_size
    }

    pub fn is_stale(&self) -> bool {
        self.dirty
    }

    pub fn make_stale(&mut self) {
        self.dirty = true;
    }

    /// The peers counted for `piece`, without the seeds.
    pub fn count(&self, piece: PieceIndex) -> i32 {
        self.piece_map[piece.0 as usize].peer_count as i32
    }

    pub fn counts(&self) -> impl Iterator<Item = i32> + '_ {
        self.piece_map.iter().map(|pos| pos.peer_count as i32)
    }

    pub fn state(&self, piece: PieceIndex) -> DownloadQueue {
        self.piece_map[piece.0 as usize].state
    }

    /// The bucket that `piece` would have in `state`.
    pub fn bucket_in_state(&self, piece: PieceIndex, state: DownloadQueue) -> i32 {
        let mut pos = self.piece_map[piece.0 as usize].clone();
        pos.state = state;
        pos.priority(self.seeds)
    }

    pub fn partial(&self, piece: PieceIndex) -> Option<&DownloadingPiece> {
        match self.state(piece) {
            DownloadQueue::Open => None,
            state => self.find_dl_piece(state.queue(), piece),
        }
    }

    pub fn block(&self, block: PieceBlock) -> Option<&BlockInfo> {
        let partial = self.partial(block.piece_index)?;
        self.blocks_for_piece(partial).get(block.block_index as usize)
    }

    /// The pieces that have a partial, by rising number.
    pub fn partial_pieces(&self) -> impl Iterator<Item = PieceIndex> + '_ {
        self.piece_map.iter().enumerate().filter(|(_, pos)| pos.downloading()).map(|(piece, _)| PieceIndex(piece as i32))
    }

    pub fn extents(&self) -> &[i32] {
        &self.recent_extents
    }

    /// The bucket list; it means nothing while stale.
    pub fn list(&self) -> &[PieceIndex] {
        &self.pieces
    }
}

/// The image, out.
impl PiecePicker {
    pub fn image(&self) -> Vec<u8> {
        let mut out = Vec::with_capacity(32 + 16 * self.piece_map.len());
        self.put_head(&mut out);
        for (piece, pos) in self.piece_map.iter().enumerate() {
            self.put_piece(&mut out, piece as i32, pos);
        }
        for piece in self.partial_pieces() {
            self.put_partial(&mut out, piece);
        }
        for extent in &self.recent_extents {
            out.push(5);
            out.extend((*extent as u32).to_be_bytes());
        }
        if !self.dirty {
            for piece in &self.pieces {
                out.push(6);
                out.extend((piece.0 as u32).to_be_bytes());
            }
        }
        out
    }

    fn put_head(&self, out: &mut Vec<u8>) {
        out.push(1);
        out.extend(self.total_size.to_be_bytes());
        out.extend(self.piece_size.to_be_bytes());
        out.extend((self.seeds as u16).to_be_bytes());
        out.extend((self.cursor as u32).to_be_bytes());
        out.extend((self.reverse_cursor as u32).to_be_bytes());
        out.push(u8::from(self.dirty));
    }

    fn put_piece(&self, out: &mut Vec<u8>, piece: i32, pos: &PiecePos) {
        out.push(2);
        out.extend((pos.peer_count as u16).to_be_bytes());
        out.push(pos.state as u8);
        out.push(pos.piece_priority);
        out.push(u8::from(pos.flushed()));
        out.extend((self.pad_bytes_in_piece(PieceIndex(piece)) as u32).to_be_bytes());
    }

    fn put_partial(&self, out: &mut Vec<u8>, piece: PieceIndex) {
        let partial = self.partial(piece).unwrap_or_else(|| panic!("piece {piece} is not Open, and no partial stands for it"));
        let flags = u8::from(partial.passed_hash_check) | u8::from(partial.locked) << 1 | u8::from(partial.hashing) << 2;
        out.push(3);
        out.extend((piece.0 as u32).to_be_bytes());
        out.push(flags);
        for block in self.blocks_for_piece(partial) {
            out.push(4);
            out.push(block.state as u8);
            out.extend(block.num_peers.to_be_bytes());
            out.push(u8::from(block.peer.is_some()));
            out.extend(block.peer.unwrap_or(0).to_be_bytes());
        }
    }
}

/// The image, in.
impl PiecePicker {
    pub fn from_fields(fields: &Fields) -> Self {
        let head = &fields.head;
        let mut picker = Self::new(head.geometry.total, head.geometry.piece_size as i32);
        picker.seeds = head.seeds as i32;
        picker.cursor = head.cursor as i32;
        picker.reverse_cursor = head.reverse_cursor as i32;
        picker.dirty = head.stale;
        picker.recent_extents = fields.extents.clone();
        picker.take_pieces(fields);
        for partial in &fields.partials {
            picker.take_partial(partial);
        }
        if !picker.dirty {
            picker.take_list(&fields.list);
        }
        picker.set_totals(picker.counted_totals());
        picker
    }

    fn take_pieces(&mut self, fields: &Fields) {
        for (i, piece) in fields.pieces.iter().enumerate() {
            self.piece_map[i] = PiecePos {
                peer_count: piece.count as u32,
                state: STATES[usize::from(piece.state)],
                piece_priority: piece.wish,
                index: if piece.had { FLUSHED_INDEX } else { 0 },
            };
            if piece.pad > 0 {
                self.pads_in_piece.insert(i as i32, piece.pad as i32);
            }
        }
    }

    /// Partials come by rising piece, so that each queue stays sorted.
    fn take_partial(&mut self, partial: &Partial) {
        let piece = PieceIndex(partial.piece as i32);
        let in_state = |state: BlockState| {
            let blocks = partial.blocks.iter();
            blocks.filter(|block| block.state == state as u8).count() as u16
        };
        let blocks_per_piece = self.blocks_per_piece() as usize;
        let taken = DownloadingPiece {
            index: piece,
            info_idx: (self.block_info.len() / blocks_per_piece) as u16,
            finished: in_state(BlockState::Finished),
            passed_hash_check: partial.passed,
            writing: in_state(BlockState::Writing),
            locked: partial.locked,
            requested: in_state(BlockState::Requested),
            hashing: partial.hashing,
        };
        let window_end = self.block_info.len() + blocks_per_piece;
        self.block_info.extend(partial.blocks.iter().map(block_info));
        self.block_info.resize(window_end, BlockInfo::default());
        let queue = self.state(piece).queue();
        self.downloads[queue as usize].push(taken);
    }

    fn take_list(&mut self, list: &[usize]) {
        self.priority_boundaries = vec![0];
        self.pieces = list.iter().map(|piece| PieceIndex(*piece as i32)).collect();
        for (place, piece) in list.iter().enumerate() {
            self.piece_map[*piece].index = place as i32;
            let bucket = self.piece_map[*piece].priority(self.seeds) as usize;
            if self.priority_boundaries.len() <= bucket {
                self.priority_boundaries.resize(bucket + 1, place as i32);
            }
            self.priority_boundaries[bucket] = place as i32 + 1;
        }
    }
}

fn block_info(block: &Block) -> BlockInfo {
    BlockInfo { peer: block.peer, num_peers: block.requesters as u16, state: BLOCK_STATES[usize::from(block.state)] }
}

/// The totals that the picker keeps over pieces.
#[derive(Debug, Clone, Copy, Default, PartialEq, Eq)]
pub struct Totals {
    num_have: i32,
    num_filtered: i32,
    num_have_filtered: i32,
    num_pad_bytes: i64,
    have_pad_bytes: i64,
    filtered_pad_bytes: i64,
    have_filtered_pad_bytes: i64,
}

impl PiecePicker {
    pub fn running_totals(&self) -> Totals {
        Totals {
            num_have: self.num_have,
            num_filtered: self.num_filtered,
            num_have_filtered: self.num_have_filtered,
            num_pad_bytes: self.num_pad_bytes,
            have_pad_bytes: self.have_pad_bytes,
            filtered_pad_bytes: self.filtered_pad_bytes,
            have_filtered_pad_bytes: self.have_filtered_pad_bytes,
        }
    }

    /// The totals counted from the fields. A piece counts as had if it is, or if its partial has passed.
    pub fn counted_totals(&self) -> Totals {
        let mut totals = Totals::default();
        for (piece, pos) in self.piece_map.iter().enumerate() {
            let piece = PieceIndex(piece as i32);
            let pad = i64::from(self.pad_bytes_in_piece(piece));
            let passed = self.partial(piece).is_some_and(|partial| partial.passed_hash_check);
            totals.num_pad_bytes += pad;
            if pos.flushed() || passed {
                totals.num_have += 1;
                totals.have_pad_bytes += pad;
                if pos.piece_priority == 0 {
                    totals.num_have_filtered += 1;
                    totals.have_filtered_pad_bytes += pad;
                }
            } else if pos.piece_priority == 0 {
                totals.num_filtered += 1;
                totals.filtered_pad_bytes += pad;
            }
        }
        totals
    }

    pub fn set_totals(&mut self, totals: Totals) {
        self.num_have = totals.num_have;
        self.num_filtered = totals.num_filtered;
        self.num_have_filtered = totals.num_have_filtered;
        self.num_pad_bytes = totals.num_pad_bytes;
        self.have_pad_bytes = totals.have_pad_bytes;
        self.filtered_pad_bytes = totals.filtered_pad_bytes;
        self.have_filtered_pad_bytes = totals.have_filtered_pad_bytes;
    }
}

/// What has to hold after each change, beyond the image's own rules.
impl PiecePicker {
    /// # Panics
    ///
    /// Where something does not hold.
    pub fn check(&self) {
        let end = self.num_pieces();
        assert!((0..=end).contains(&self.cursor), "cursor {} of {end} pieces", self.cursor);
        assert!((0..=end).contains(&self.reverse_cursor), "reverse cursor {} of {end} pieces", self.reverse_cursor);
        self.check_queues();
        if !self.dirty {
            self.check_list();
            self.check_boundaries();
        }
    }

    /// Each partial stands in the queue of its state, once, by rising piece, and its counts are those of its blocks.
    fn check_queues(&self) {
        for (number, queue) in self.downloads.iter().enumerate() {
            assert!(queue.windows(2).all(|two| two[0].index < two[1].index), "queue {number} is not sorted");
            for partial in queue {
                assert_eq!(self.state(partial.index).queue() as usize, number, "queue of piece {}", partial.index);
                self.check_counts(partial);
            }
        }
        assert_eq!(self.get_download_queue_size(), self.partial_pieces().count(), "partials and pieces not Open");
    }

    fn check_counts(&self, partial: &DownloadingPiece) {
        let mut counts = [0u16; 4];
        for block in self.blocks_for_piece(partial) {
            counts[block.state as usize] += 1;
        }
        let kept = [partial.requested, partial.writing, partial.finished];
        assert_eq!(kept, counts[1..], "requested, writing and finished of piece {}", partial.index);
    }

    /// The list holds each piece that has a bucket once, buckets not falling, and each such piece knows its place.
    fn check_list(&self) {
        let bucket = |piece: &PieceIndex| self.piece_map[piece.0 as usize].priority(self.seeds);
        let with_bucket = self.piece_map.iter().filter(|pos| pos.priority(self.seeds) >= 0).count();
        assert_eq!(self.pieces.len(), with_bucket, "list places and pieces with a bucket");
        let mut least = 0;
        for (place, piece) in self.pieces.iter().enumerate() {
            assert!(bucket(piece) >= least, "bucket {} of piece {piece} at list place {place}", bucket(piece));
            assert_eq!(self.piece_map[piece.0 as usize].index, place as i32, "index of piece {piece}");
            least = bucket(piece);
        }
    }

    /// Each boundary is the number of list places whose bucket is at most its own number.
    fn check_boundaries(&self) {
        let mut place = 0;
        for (bucket, end) in self.priority_boundaries.iter().enumerate() {
            let belongs = |piece: &PieceIndex| self.piece_map[piece.0 as usize].priority(self.seeds) as usize <= bucket;
            place += self.pieces[place..].iter().take_while(|piece| belongs(piece)).count();
            assert_eq!(*end, place as i32, "boundary {bucket}");
        }
        assert_eq!(place, self.pieces.len(), "last boundary");
    }
}
