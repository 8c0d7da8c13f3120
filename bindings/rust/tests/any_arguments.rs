//! Any numbers may be given to any call: none panics, each is answered or refused with the table's number, and the picker goes on.

use piece_picker::{Bitfield, DownloadPriority, Draws, PickerOptions, PieceBlock, PieceIndex, PiecePicker, Refusal};

const NUMBERS: [i32; 16] =
    [i32::MIN, i32::MIN + 1, -65_536, -1, 0, 1, 2, 3, 4, 255, 256, 4095, 4096, 65_536, i32::MAX - 1, i32::MAX];
const PEERS: [Option<u64>; 5] = [None, Some(0), Some(1), Some(u64::MAX), Some(1 << 63)];
const PIECES: i32 = 4;

/// Four pieces of two blocks, the last of one, with peers, a partial and a finished piece.
fn picker() -> Result<PiecePicker, Refusal> {
    let (mut p, mut draws) = (PiecePicker::new(100_000, 32_768)?, Draws::seeded(5));
    p.inc_refcount_all()?;
    p.inc_refcount(PieceIndex(1), &mut draws)?;
    p.mark_as_downloading(PieceBlock::new(PieceIndex(1), 0), Some(1), PickerOptions::REVERSE, &mut draws)?;
    p.mark_as_writing(PieceBlock::new(PieceIndex(3), 0), Some(2), &mut draws)?;
    p.mark_as_finished(PieceBlock::new(PieceIndex(3), 0), Some(2), &mut draws)?;
    p.piece_passed(PieceIndex(3))?;
    Ok(p)
}

fn in_range(piece: i32) -> bool {
    (0..PIECES).contains(&piece)
}

fn block_in_range(piece: i32, block: i32) -> bool {
    in_range(piece) && (0..if piece == 3 { 1 } else { 2 }).contains(&block)
}

/// Refused with 5 exactly where the argument is out of range.
fn judged<T>(good: bool, answer: Result<T, Refusal>) {
    assert_eq!(answer.err() == Some(Refusal::OutOfRange), !good);
}

#[test]
fn pieces_of_questions() -> Result<(), Refusal> {
    let p = picker()?;
    for number in NUMBERS {
        let (piece, good) = (PieceIndex(number), in_range(number));
        let numbers = [
            p.blocks_in_piece(piece), p.payload_blocks_in_piece(piece), p.piece_size(piece), p.pad_bytes_in_piece(piece),
            p.get_availability(piece), p.peer_count(piece),
        ];
        numbers.into_iter().for_each(|answer| judged(good, answer));
        let flags = [p.have_piece(piece), p.is_piece_finished(piece), p.is_downloading(piece), p.is_hashing(piece)];
        flags.into_iter().for_each(|answer| judged(good, answer));
        [p.passed_hash_check(piece), p.locked(piece), p.hashing(piece)].into_iter().for_each(|answer| judged(good, answer));
        judged(good, p.is_piece_flushed(piece));
        judged(good, p.piece_priority(piece));
        judged(good, p.download_state(piece));
        judged(good, p.piece_stats(piece));
        judged(good, p.piece_info(piece));
        judged(good, p.get_downloaders(piece));
        judged(good, p.blocks_for_piece(piece));
        judged(true, p.partial_at(number));
        judged(true, p.recent_extent(number));
        judged(true, p.list_place(number)); // the list is stale
    }
    Ok(())
}

#[test]
fn blocks_of_questions() -> Result<(), Refusal> {
    let p = picker()?;
    for piece in NUMBERS {
        for number in NUMBERS {
            let (block, good) = (PieceBlock::new(PieceIndex(piece), number), block_in_range(piece, number));
            judged(good, p.num_peers_block(block));
            [p.is_requested(block), p.is_downloaded(block), p.is_finished_block(block)].into_iter().for_each(|answer| judged(good, answer));
            judged(good, p.get_downloader(block));
            judged(good, p.block_state(block));
            judged(good, p.block_num_peers(block));
            judged(good, p.block_peer(block));
        }
    }
    Ok(())
}

#[test]
fn arguments_of_changes() -> Result<(), Refusal> {
    let (start, mut draws) = (picker()?, Draws::seeded(9));
    for number in NUMBERS {
        let (piece, good, mut p) = (PieceIndex(number), in_range(number), start.clone());
        judged(good, p.inc_refcount(piece, &mut draws));
        judged(good, p.dec_refcount(piece, &mut draws));
        judged(good, p.lock_piece(piece));
        judged(good, p.piece_passed(piece));
        for priority in [0, 1, 7, 8, 255] {
            judged(good && priority < 8, p.set_piece_priority(piece, DownloadPriority(priority), &mut draws));
        }
        assert_eq!(p == start, !good, "piece {number}");
        p.image()?;
    }
    Ok(())
}

#[test]
fn blocks_of_changes() -> Result<(), Refusal> {
    let (start, mut draws) = (picker()?, Draws::seeded(9));
    for (piece, number) in NUMBERS.into_iter().flat_map(|piece| NUMBERS.map(|number| (piece, number))) {
        let (block, good, mut p) = (PieceBlock::new(PieceIndex(piece), number), block_in_range(piece, number), start.clone());
        for peer in PEERS {
            for options in [0, 2, 128, u16::MAX] {
                judged(good, p.mark_as_downloading(block, peer, PickerOptions(options), &mut draws));
            }
            judged(good, p.abort_download(block, peer, &mut draws));
            judged(good, p.mark_as_writing(block, peer, &mut draws));
            judged(good, p.mark_as_canceled(block, peer, &mut draws));
            judged(good, p.mark_as_finished(block, peer, &mut draws));
        }
        assert!(good || p == start, "block {number} of piece {piece}");
        p.image()?;
    }
    Ok(())
}

#[test]
fn arguments_of_picks() -> Result<(), Refusal> {
    let (start, mut draws, has) = (picker()?, Draws::seeded(3), Bitfield::with_value(4, true)?);
    let suggested = NUMBERS.map(PieceIndex);
    for (number, run) in NUMBERS.into_iter().flat_map(|number| NUMBERS.map(|run| (number, run))) {
        for peers in NUMBERS {
            let (mut p, mut blocks) = (start.clone(), vec![PieceBlock::INVALID]);
            let options = PickerOptions((number ^ run ^ peers) as u16 & !16);
            let answer = p.pick_pieces(&has, &mut blocks, number, run, Some(u64::MAX), options, &suggested, peers, &mut draws);
            let good = (1..=2048).contains(&number) && (0..=2048).contains(&run) && (0..=1000).contains(&peers);
            assert_eq!(answer.err(), (!good).then_some(Refusal::PickArguments), "{number} {run} {peers}");
            assert_eq!(blocks[0], PieceBlock::INVALID);
            assert!(blocks[1..].iter().all(|block| block_in_range(block.piece_index.0, block.block_index)));
            assert!(good || (blocks.len() == 1 && p == start));
        }
    }
    Ok(())
}

#[test]
fn bytes_of_images() -> Result<(), Refusal> {
    let (start, image) = (picker()?, picker()?.image()?);
    let (mut p, mut accepted) = (start.clone(), 0);
    for place in 0..image.len() {
        for change in [1, 2, 0x80, 0xff] {
            let mut bytes = image.clone();
            bytes[place] ^= change;
            match PiecePicker::from_image(&bytes) {
                Ok(other) => {
                    accepted += 1;
                    assert!(other.image()? == bytes, "byte {place}: the image read has another image");
                    assert!(other != start);
                }
                Err(refusal) => {
                    assert!(matches!(refusal, Refusal::IllFormedImage { place } if place <= bytes.len() as u64), "{refusal}");
                    assert_eq!(p.read_image(&bytes), Err(refusal));
                    assert!(p == start);
                }
            }
        }
    }
    assert!(accepted > 0 && accepted < 4 * image.len());
    Ok(())
}
