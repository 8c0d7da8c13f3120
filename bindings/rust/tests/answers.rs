//! What each question answers and each change does, through the wrapper: on a picker read from an image whose fields all differ, so that
//! no call can stand for another.

use piece_picker::{
    Bitfield, BlockInfo, BlockState, DownloadPriority, DownloadQueue, DownloadingPiece, Draws, ListPlace, PickerCounters, PickerFlags,
    PickerOptions, PieceBlock, PieceCount, PieceIndex, PiecePicker, PieceStats, Refusal,
};

/// The records of an image, a row each: kind and body as hexadecimal digits.
fn bytes(records: &str) -> Vec<u8> {
    let digits: Vec<u32> = records.chars().filter_map(|digit| digit.to_digit(16)).collect();
    digits.chunks_exact(2).map(|pair| (pair[0] * 16 + pair[1]) as u8).collect()
}

/// Eight pieces of two blocks, the last of one. 0 and 4 are had; 1 is partly asked for and has passed; 2 is being hashed; 3 is locked; 0, 2
/// and 3 are left out. Five seeds, one recent extent; the list is 7, 1, 5, 6.
fn picker() -> Result<PiecePicker, Refusal> {
    PiecePicker::from_image(&bytes(
        "01 00000000000386a0 00008000 0005 00000001 00000006 00
         02 0005 04 00 01 00000064
         02 0002 05 06 00 00000000
         02 0007 03 00 00 00004000
         02 0001 03 00 00 00000000
         02 0006 04 04 01 0000000a
         02 0003 04 04 00 00000000
         02 0004 04 04 00 00000000
         02 0000 04 07 00 00000001
         03 00000001 01
         04 00 0003 00 0000000000000000
         04 01 0004 01 0000000000000009
         03 00000002 04
         04 02 0000 01 0000000000000008
         04 03 0001 00 0000000000000000
         03 00000003 02
         04 01 0002 00 0000000000000000
         04 00 0000 00 0000000000000000
         05 00000000
         06 00000007
         06 00000001
         06 00000005
         06 00000006",
    ))
}

fn block(piece: i32, block: i32) -> PieceBlock {
    PieceBlock::new(PieceIndex(piece), block)
}

/// The answers for the pieces.
fn pieces<T>(ask: impl Fn(PieceIndex) -> Result<T, Refusal>) -> Result<Vec<T>, Refusal> {
    (0..8).map(|piece| ask(PieceIndex(piece))).collect()
}

/// True for these pieces.
fn only(these: &[usize]) -> Vec<bool> {
    (0..8).map(|piece| these.contains(&piece)).collect()
}

/// True for this one of the partials.
fn only_partial(this: usize) -> Vec<Option<bool>> {
    (0..8).map(|piece| (1..4).contains(&piece).then_some(piece == this)).collect()
}

#[test]
fn of_the_picker() -> Result<(), Refusal> {
    let p = picker()?;
    assert_eq!([p.num_pieces()?, p.block_size()?, p.blocks_per_piece()?, p.full_piece_size()?], [8, 16_384, 2, 32_768]);
    assert_eq!([p.total_size()?, p.num_pad_bytes()?], [231_072, 16_495]);
    assert_eq!([p.cursor()?, p.reverse_cursor()?], [PieceIndex(1), PieceIndex(6)]);
    assert_eq!([p.num_seeds()?, p.num_have()?, p.num_filtered()?, p.num_have_filtered()?, p.num_want_left()?], [5, 3, 2, 1, 4]);
    assert_eq!([p.dirty()?, p.is_finished()?, p.is_seeding()?], [false; 3]);
    assert_eq!((p.get_download_queue_size()?, p.get_download_queue_sizes()?), (3, (1, 0, 0, 2)));
    assert_eq!(p.distributed_copies()?, (5, 875));
    assert_eq!(p.want()?, PieceCount { num_pieces: 5, pad_bytes: 11, last_piece: true });
    assert_eq!(p.have_want()?, PieceCount { num_pieces: 2, pad_bytes: 10, last_piece: false });
    assert_eq!(p.have()?, PieceCount { num_pieces: 3, pad_bytes: 110, last_piece: false });
    assert_eq!(p.all_pieces()?, PieceCount { num_pieces: 8, pad_bytes: 16_495, last_piece: true });
    Ok(())
}

#[test]
fn of_places() -> Result<(), Refusal> {
    let mut p = picker()?;
    assert_eq!([0, 1, 2, 3].map(|place| p.partial_at(place)), [Some(1), Some(2), Some(3), None].map(|piece| Ok(piece.map(PieceIndex))));
    assert_eq!([p.recent_extent(0)?, p.recent_extent(1)?], [Some(0), None]);
    assert_eq!([0, 1, 2, 3].map(|place| p.list_place(place)), [7, 1, 5, 6].map(|piece| Ok(ListPlace::Piece(PieceIndex(piece)))));
    (0..5).try_for_each(|_| p.dec_refcount_all())?;
    assert_eq!((p.list_place(0)?, p.dirty()?), (ListPlace::Stale, true));
    Ok(())
}

#[test]
fn numbers_of_pieces() -> Result<(), Refusal> {
    let p = picker()?;
    assert_eq!(pieces(|i| p.blocks_in_piece(i))?, [2, 2, 2, 2, 2, 2, 2, 1]);
    assert_eq!(pieces(|i| p.payload_blocks_in_piece(i))?, [2, 2, 1, 2, 2, 2, 2, 1]);
    assert_eq!(pieces(|i| p.piece_size(i))?, [32_768, 32_768, 32_768, 32_768, 32_768, 32_768, 32_768, 1_696]);
    assert_eq!(pieces(|i| p.pad_bytes_in_piece(i))?, [100, 0, 16_384, 0, 10, 0, 0, 1]);
    assert_eq!(pieces(|i| p.get_availability(i))?, [10, 7, 12, 6, 11, 8, 9, 5]);
    assert_eq!(pieces(|i| p.peer_count(i))?, [5, 2, 7, 1, 6, 3, 4, 0]);
    assert_eq!(pieces(|i| p.piece_priority(i))?, [0, 6, 0, 0, 4, 4, 4, 7].map(DownloadPriority));
    let stats = pieces(|i| p.piece_stats(i))?;
    assert_eq!(stats[0], PieceStats { peer_count: 10, priority: -1, flushed: true, downloading: false });
    assert_eq!(stats[1], PieceStats { peer_count: 7, priority: 17, flushed: false, downloading: true });
    assert_eq!(stats[7], PieceStats { peer_count: 5, priority: 1, flushed: false, downloading: false });
    let buckets: Vec<i32> = stats.iter().map(|stats| stats.priority).collect();
    assert_eq!(buckets, [-1, 17, -1, -1, -1, 46, 58, 1]);
    Ok(())
}

#[test]
fn states_of_pieces() -> Result<(), Refusal> {
    let p = picker()?;
    let states = pieces(|i| p.download_state(i))?;
    assert_eq!(states[..3], [DownloadQueue::Open, DownloadQueue::DownloadingReverse, DownloadQueue::ZeroPrio]);
    assert_eq!(pieces(|i| p.have_piece(i))?, only(&[0, 1, 4]));
    assert_eq!(pieces(|i| p.is_piece_finished(i))?, only(&[0, 2, 4]));
    assert_eq!(pieces(|i| p.is_downloading(i))?, only(&[1, 2, 3]));
    assert_eq!(pieces(|i| p.is_hashing(i))?, only(&[2]));
    assert_eq!(pieces(|i| p.is_piece_flushed(i))?, only(&[0, 4]));
    assert_eq!(pieces(|i| p.passed_hash_check(i))?, only_partial(1));
    assert_eq!(pieces(|i| p.hashing(i))?, only_partial(2));
    assert_eq!(pieces(|i| p.locked(i))?, only_partial(3));
    Ok(())
}

/// The three partials.
fn partials() -> [DownloadingPiece; 3] {
    let none = DownloadingPiece {
        index: PieceIndex(0),
        finished: 0,
        passed_hash_check: false,
        writing: 0,
        locked: false,
        requested: 0,
        hashing: false,
    };
    [
        DownloadingPiece { index: PieceIndex(1), requested: 1, passed_hash_check: true, ..none },
        DownloadingPiece { index: PieceIndex(2), finished: 1, writing: 1, hashing: true, ..none },
        DownloadingPiece { index: PieceIndex(3), requested: 1, locked: true, ..none },
    ]
}

#[test]
fn of_blocks_and_partials() -> Result<(), Refusal> {
    let p = picker()?;
    let all = [block(0, 1), block(1, 0), block(1, 1), block(2, 0), block(2, 1), block(7, 0)];
    assert_eq!(all.map(|b| p.num_peers_block(b)), [0, 3, 4, 0, 1, 0].map(Ok));
    assert_eq!(all.map(|b| p.is_requested(b)), [false, false, true, false, false, false].map(Ok));
    assert_eq!(all.map(|b| p.is_downloaded(b)), [true, false, false, true, true, false].map(Ok));
    assert_eq!(all.map(|b| p.is_finished_block(b)), [true, false, false, false, true, false].map(Ok));
    assert_eq!(all.map(|b| p.get_downloader(b)), [None, None, Some(9), Some(8), None, None].map(Ok));
    let states = [None, Some(BlockState::None), Some(BlockState::Requested), Some(BlockState::Writing), Some(BlockState::Finished), None];
    assert_eq!(all.map(|b| p.block_state(b)), states.map(Ok));
    assert_eq!(all.map(|b| p.block_num_peers(b)), [None, Some(3), Some(4), Some(0), Some(1), None].map(Ok));
    assert_eq!(all.map(|b| p.block_peer(b)), [None, Some(None), Some(Some(9)), Some(Some(8)), Some(None), None].map(Ok));
    assert_eq!([1, 2, 3].map(|piece| p.piece_info(PieceIndex(piece))), partials().map(Ok));
    assert_eq!([p.piece_info(PieceIndex(0))?.finished, p.piece_info(PieceIndex(5))?.finished], [2, 0]);
    Ok(())
}

#[test]
fn of_lists() -> Result<(), Refusal> {
    let p = picker()?;
    assert_eq!(p.get_availability_vec()?, [10, 7, 12, 6, 11, 8, 9, 5]);
    assert_eq!(p.piece_priorities()?, [0, 6, 0, 0, 4, 4, 4, 7].map(DownloadPriority));
    assert_eq!(p.get_download_queue()?, partials());
    let peers = pieces(|i| p.get_downloaders(i))?;
    assert_eq!(peers[..3], [vec![None; 2], vec![None, Some(9)], vec![Some(8), None]]);
    assert_eq!(peers[7], [None]);
    let info = |state, num_peers, peer| BlockInfo { peer, num_peers, state };
    let second = vec![info(BlockState::None, 3, None), info(BlockState::Requested, 4, Some(9))];
    let third = vec![info(BlockState::Writing, 0, Some(8)), info(BlockState::Finished, 1, None)];
    assert_eq!(pieces(|i| p.blocks_for_piece(i))?[..3], [None, Some(second), Some(third)]);
    Ok(())
}

#[test]
fn changes_of_pieces() -> Result<(), Refusal> {
    let (mut p, mut draws) = (picker()?, Draws::seeded(1));
    p.inc_refcount(PieceIndex(1), &mut draws)?;
    p.dec_refcount(PieceIndex(2), &mut draws)?;
    assert_eq!(p.get_availability_vec()?, [10, 8, 11, 6, 11, 8, 9, 5]);
    p.inc_refcount_all()?;
    assert_eq!((p.get_availability_vec()?, p.num_seeds()?), (vec![11, 9, 12, 7, 12, 9, 10, 6], 6));
    p.dec_refcount_all()?;
    assert_eq!(p.num_seeds()?, 5);
    p.dec_refcount(PieceIndex(7), &mut draws)?; // one of the seeds is broken
    assert_eq!((p.get_availability_vec()?, p.num_seeds()?), (vec![10, 8, 11, 6, 11, 8, 9, 4], 4));
    let zero = DownloadPriority::DONT_DOWNLOAD;
    assert_eq!((p.set_piece_priority(PieceIndex(7), zero, &mut draws)?, p.piece_priority(PieceIndex(7))?), (true, zero));
    assert!(!p.set_piece_priority(PieceIndex(5), DownloadPriority::LOW, &mut draws)?);
    p.lock_piece(PieceIndex(1))?;
    assert_eq!((p.locked(PieceIndex(1))?, p.passed_hash_check(PieceIndex(1))?), (Some(true), Some(false)));
    p.piece_passed(PieceIndex(2))?;
    p.piece_passed(PieceIndex(3))?; // locked: nothing happens
    assert_eq!((p.passed_hash_check(PieceIndex(2))?, p.passed_hash_check(PieceIndex(3))?), (Some(true), Some(false)));
    Ok(())
}

#[test]
fn changes_of_blocks() -> Result<(), Refusal> {
    let (mut p, mut draws) = (picker()?, Draws::seeded(1));
    assert!(p.mark_as_downloading(block(7, 0), Some(5), PickerOptions::REVERSE, &mut draws)?);
    assert_eq!((p.download_state(PieceIndex(7))?, p.get_downloader(block(7, 0))?), (DownloadQueue::FullReverse, Some(5)));
    assert_eq!(p.get_download_queue_sizes()?, (1, 1, 0, 2));
    assert!(!p.mark_as_downloading(block(2, 0), Some(5), PickerOptions::NONE, &mut draws)?);
    p.abort_download(block(1, 1), Some(9), &mut draws)?;
    assert_eq!((p.num_peers_block(block(1, 1))?, p.block_peer(block(1, 1))?), (3, Some(None)));
    assert!(p.mark_as_writing(block(1, 1), Some(6), &mut draws)?);
    assert!(!p.mark_as_writing(block(1, 1), Some(7), &mut draws)?);
    assert_eq!(p.get_downloader(block(1, 1))?, Some(7));
    p.mark_as_canceled(block(2, 0), Some(4), &mut draws)?;
    assert_eq!((p.block_state(block(2, 0))?, p.block_peer(block(2, 0))?), (Some(BlockState::None), Some(Some(4))));
    assert!(p.mark_as_writing(block(7, 0), None, &mut draws)?);
    p.mark_as_finished(block(7, 0), Some(5), &mut draws)?;
    assert_eq!(p.get_download_queue_sizes()?, (1, 0, 1, 2));
    p.piece_passed(PieceIndex(7))?;
    assert!(p.is_piece_flushed(PieceIndex(7))? && !p.is_downloading(PieceIndex(7))?);
    Ok(())
}

#[test]
fn finished_is_not_yet_seeding() -> Result<(), Refusal> {
    let (mut p, mut draws) = (PiecePicker::new(2, 1)?, Draws::seeded(1));
    let mut told = Vec::new();
    for piece in 0..2 {
        p.set_piece_priority(PieceIndex(1), DownloadPriority(piece as u8), &mut draws)?;
        p.mark_as_finished(block(piece, 0), None, &mut draws)?;
        p.piece_passed(PieceIndex(piece))?;
        told.push((p.is_finished()?, p.is_seeding()?));
    }
    assert_eq!(told, [(true, false), (true, true)]);
    Ok(())
}

/// The example of the pick program.
fn example() -> Result<PiecePicker, Refusal> {
    PiecePicker::from_image(&bytes(
        "01 0000000000010000 00008000 0000 00000000 00000002 01
         02 0002 04 04 00 00000000
         02 0001 04 04 00 00000000",
    ))
}

#[test]
fn a_pick_appends() -> Result<(), Refusal> {
    let (mut p, mut draws, has) = (example()?, Draws::from(vec![0; 4352]), Bitfield::with_value(2, true)?);
    let mut blocks = vec![PieceBlock::INVALID];
    let picked = p.pick_pieces(&has, &mut blocks, 3, 0, None, PickerOptions(3), &[], 10, &mut draws)?;
    assert_eq!(blocks, [PieceBlock::INVALID, block(0, 0), block(0, 1), block(1, 0)]);
    assert_eq!((picked.flags, picked.draws), (PickerFlags::REVERSE_RAREST_FIRST, 0));
    assert_eq!(picked.counters, PickerCounters { reverse_rare_loops: 2, ..Default::default() });
    Ok(())
}

/// Fifty picks by chance, with the words that they used and those that all calls used.
fn random_picks(draws: &mut Draws) -> Result<(Vec<PieceBlock>, u64, u64), Refusal> {
    let (mut p, mut blocks, mut used) = (PiecePicker::new(1_000_000, 16_384)?, Vec::new(), 0);
    let has = Bitfield::with_value(p.num_pieces()? as usize, true)?;
    p.inc_refcount_all()?;
    for _ in 0..50 {
        used += p.pick_pieces(&has, &mut blocks, 1, 0, Some(1), PickerOptions::NONE, &[], 10, draws)?.draws;
        p.inc_refcount(PieceIndex(1), draws)?;
    }
    Ok((blocks, used, draws.used()))
}

#[test]
fn draws_are_taken_in_order() -> Result<(), Refusal> {
    let seeded = random_picks(&mut Draws::seeded(7))?;
    let mut word = 7u64;
    let words = (0..20_000).map(|_| {
        word = word.wrapping_add(0x9E37_79B9_7F4A_7C15);
        let z = (word ^ (word >> 30)).wrapping_mul(0xBF58_476D_1CE4_E5B9);
        let z = (z ^ (z >> 27)).wrapping_mul(0x94D0_49BB_1331_11EB);
        ((z ^ (z >> 31)) >> 32) as u32
    });
    let listed = random_picks(&mut Draws::from(words.collect::<Vec<u32>>()))?;
    assert_eq!(seeded, listed);
    assert!(seeded.1 >= 50 && seeded.2 >= seeded.1);
    assert!(random_picks(&mut Draws::seeded(8))? != seeded);
    let (mut whole, mut later) = (Draws::seeded(7), Draws::seeded_after(7, seeded.2));
    random_picks(&mut whole)?;
    assert_eq!(random_picks(&mut whole)?, random_picks(&mut later)?);
    Ok(())
}

#[test]
fn equal_images_are_equal_pickers() -> Result<(), Refusal> {
    let (p, mut draws) = (picker()?, Draws::seeded(1));
    let mut other = p.clone();
    assert!(other == p && PiecePicker::from_image(&p.image()?)? == p);
    other.inc_refcount(PieceIndex(0), &mut draws)?;
    assert!(other != p);
    other.read_image(&p.image()?)?;
    assert!(other == p);
    let (words, cells, partials) = other.into_buffers();
    assert!(PiecePicker::from_buffers(words, cells, partials)? == p);
    Ok(())
}

#[test]
fn bits_are_high_bit_first() -> Result<(), Refusal> {
    let mut bits = Bitfield::with_size(9)?;
    bits.set_bit(0);
    bits.set_bit(7);
    bits.set_bit(8);
    bits.set_bit(9);
    assert_eq!((bits.bytes(), bits.size()), (&[0x81, 0x80][..], 9));
    bits.clear_bit(0);
    assert_eq!([0, 7, 8, 9, usize::MAX].map(|index| bits.get_bit(index)), [false, true, true, false, false]);
    Ok(())
}
