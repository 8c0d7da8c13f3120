//! Each of the thirteen refusals, reached as a maker reaches it; each leaves the picker as it was, and says which it is and why.

use piece_picker::{Bitfield, DownloadPriority, Draws, Pick, PickerOptions, PieceBlock, PieceIndex, PiecePicker, Refusal};

/// Pieces of two blocks, the last of one.
const TOTAL_SIZE: i64 = 100_000;
const PIECE_SIZE: i32 = 32_768;

fn picker() -> PiecePicker {
    PiecePicker::new(TOTAL_SIZE, PIECE_SIZE).expect("a valid geometry")
}

fn block(piece: i32, block: i32) -> PieceBlock {
    PieceBlock::new(PieceIndex(piece), block)
}

/// The call is refused with this number, and the picker's image is as it was.
fn refused<T: std::fmt::Debug>(number: u32, picker: &mut PiecePicker, call: impl FnOnce(&mut PiecePicker) -> Result<T, Refusal>) {
    let before = picker.image().expect("an image");
    assert_eq!(call(picker).expect_err("refused").number(), number);
    assert!(picker.image().expect("an image") == before, "a refused call changed the picker");
}

#[test]
fn geometry_is_1() {
    let largest = i64::from(i32::MAX) * 4096;
    let totals = [(0, 1), (-1, 1), (i64::MIN, 1), (4097, 1), (i64::MAX, 1), (largest, i32::MAX)];
    let sizes = [0, -1, i32::MIN, 4_194_305].map(|piece_size| (1, piece_size));
    for (total_size, piece_size) in totals.into_iter().chain(sizes) {
        assert_eq!(PiecePicker::new(total_size, piece_size).err(), Some(Refusal::Geometry), "{total_size} {piece_size}");
    }
    for (total_size, piece_size) in [(1, 1), (4096, 1), (4096 * 4_194_304, 4_194_304), (1, 4_194_304)] {
        assert!(PiecePicker::new(total_size, piece_size).is_ok(), "{total_size} {piece_size}");
    }
}

#[test]
fn short_memory_is_2() {
    let (words, cells, partials) = picker().into_buffers();
    let short = |words: &[u64], cells: &[u16], without: usize| {
        PiecePicker::from_buffers(words.to_vec(), cells.to_vec(), partials[without..].to_vec())
    };
    assert!(short(&words, &cells, 0).is_ok());
    assert_eq!(short(&words[1..], &cells, 0).err(), Some(Refusal::IllFormedMemory));
    assert_eq!(short(&words[..words.len() - 1], &cells, 0).err(), Some(Refusal::ShortMemory));
    assert_eq!(short(&words, &cells[1..], 0).err(), Some(Refusal::ShortMemory));
    assert_eq!(short(&words, &cells, 1).err(), Some(Refusal::ShortMemory));
    assert_eq!(short(&[], &[], partials.len()).err(), Some(Refusal::ShortMemory));
    let larger = PiecePicker::new(10 * TOTAL_SIZE, PIECE_SIZE).and_then(|larger| larger.image()).expect("an image");
    refused(2, &mut picker(), |p| p.read_image(&larger));
}

#[test]
fn ill_formed_memory_is_3() {
    assert_eq!(PiecePicker::from_buffers(vec![0; 100], vec![0; 100], Vec::new()).err(), Some(Refusal::IllFormedMemory));
    let (mut words, cells, partials) = picker().into_buffers();
    words[2] = 1001; // seeds
    assert_eq!(PiecePicker::from_buffers(words, cells, partials).err(), Some(Refusal::IllFormedMemory));
}

#[test]
fn few_draws_are_4() {
    let mut draws = Draws::from(vec![0; 4351]);
    refused(4, &mut picker(), |p| p.inc_refcount(PieceIndex(0), &mut draws));
    refused(4, &mut picker(), |p| p.mark_as_writing(block(99, 99), None, &mut draws));
    draws.extend(&[0]);
    assert_eq!(picker().inc_refcount(PieceIndex(0), &mut draws), Ok(()));
    assert_eq!(draws.used(), 0);
}

#[test]
fn out_of_range_is_5() {
    let mut draws = Draws::seeded(1);
    for piece in [-1, 4, i32::MIN, i32::MAX] {
        refused(5, &mut picker(), |p| p.inc_refcount(PieceIndex(piece), &mut draws));
        refused(5, &mut picker(), |p| p.lock_piece(PieceIndex(piece)));
        refused(5, &mut picker(), |p| p.piece_size(PieceIndex(piece)));
    }
    for wrong in [block(0, 2), block(3, 1), block(0, -1), PieceBlock::INVALID] {
        refused(5, &mut picker(), |p| p.mark_as_writing(wrong, None, &mut draws));
        refused(5, &mut picker(), |p| p.is_requested(wrong));
    }
    refused(5, &mut picker(), |p| p.set_piece_priority(PieceIndex(0), DownloadPriority(8), &mut draws));
    let mut listed = picker();
    listed.inc_refcount_all().expect("a seed");
    let has = Bitfield::with_value(4, true).expect("bits");
    listed.pick_pieces(&has, &mut Vec::new(), 1, 0, None, PickerOptions::RAREST_FIRST, &[], 1, &mut draws).expect("a pick");
    refused(5, &mut listed, |p| p.list_place(4));
}

#[test]
fn too_many_peers_are_6() {
    let (mut p, mut draws) = (picker(), Draws::seeded(1));
    for _ in 0..999 {
        p.inc_refcount_all().expect("a seed");
    }
    p.inc_refcount(PieceIndex(1), &mut draws).expect("a peer");
    refused(6, &mut p, |p| p.inc_refcount_all());
    refused(6, &mut p, |p| p.inc_refcount(PieceIndex(1), &mut draws));
    for peer in 0..1000 {
        assert_eq!(p.mark_as_downloading(block(0, 0), Some(peer), PickerOptions::NONE, &mut draws), Ok(true));
    }
    refused(6, &mut p, |p| p.mark_as_downloading(block(0, 0), Some(1000), PickerOptions::NONE, &mut draws));
}

#[test]
fn no_peer_to_take_is_7() {
    let mut draws = Draws::seeded(1);
    refused(7, &mut picker(), |p| p.dec_refcount(PieceIndex(2), &mut draws));
    refused(7, &mut picker(), |p| p.dec_refcount_all());
}

#[test]
fn a_had_piece_is_8() {
    let (mut p, mut draws) = (picker(), Draws::seeded(1));
    assert_eq!(p.mark_as_writing(block(3, 0), Some(1), &mut draws), Ok(true));
    p.mark_as_finished(block(3, 0), Some(1), &mut draws).expect("finished");
    p.piece_passed(PieceIndex(3)).expect("passed");
    assert_eq!(p.is_piece_flushed(PieceIndex(3)), Ok(true));
    refused(8, &mut p, |p| p.mark_as_downloading(block(3, 0), Some(1), PickerOptions::NONE, &mut draws));
}

#[test]
fn a_requested_block_that_is_finished_is_9() {
    let (mut p, mut draws) = (picker(), Draws::seeded(1));
    assert_eq!(p.mark_as_downloading(block(0, 1), Some(1), PickerOptions::NONE, &mut draws), Ok(true));
    refused(9, &mut p, |p| p.mark_as_finished(block(0, 1), Some(1), &mut draws));
}

#[test]
fn a_513th_partial_is_10() {
    let (mut p, mut draws) = (PiecePicker::new(600, 1).expect("a picker"), Draws::seeded(1));
    for piece in 0..512 {
        assert_eq!(p.mark_as_writing(block(piece, 0), None, &mut draws), Ok(true));
    }
    refused(10, &mut p, |p| p.mark_as_writing(block(512, 0), None, &mut draws));
    refused(10, &mut p, |p| p.mark_as_downloading(block(599, 0), None, PickerOptions::NONE, &mut draws));
}

#[test]
fn arguments_of_a_pick_are_11() {
    let (has, many) = (Bitfield::with_value(4, true).expect("bits"), vec![PieceIndex(0); 257]);
    let good = Pick {
        pieces: &has,
        num_blocks: 1,
        prefer_contiguous_blocks: 0,
        peer: None,
        options: PickerOptions::NONE,
        suggested_pieces: &many[1..],
        num_peers: 0,
    };
    let both = PickerOptions::RAREST_FIRST | PickerOptions::SEQUENTIAL;
    let fields = [(&[0xff][..], 5), (&[0xff], 3), (&[0xff], usize::MAX), (&[0xff, 0], 4), (&[], 4), (&[], 0)];
    let fields = fields.map(|(bytes, bits)| Bitfield::from_bytes(bytes, bits));
    let mut wrong = vec![Pick { suggested_pieces: &many, ..good }, Pick { options: both, ..good }];
    wrong.extend([0, -1, 2049, i32::MIN, i32::MAX].map(|num_blocks| Pick { num_blocks, ..good }));
    wrong.extend([-1, 2049, i32::MIN, i32::MAX].map(|run| Pick { prefer_contiguous_blocks: run, ..good }));
    wrong.extend([-1, 1001, i32::MIN, i32::MAX].map(|num_peers| Pick { num_peers, ..good }));
    wrong.extend(fields.iter().map(|pieces| Pick { pieces, ..good }));
    let (mut out, mut draws) = ([0; 5000], Draws::seeded(1));
    assert!(picker().pick_into(&good, &mut out, 0, &mut draws).is_ok());
    for pick in wrong {
        refused(11, &mut picker(), |p| p.pick_into(&pick, &mut out, 0, &mut draws));
        refused(11, &mut picker(), |p| {
            let mut blocks = Vec::new();
            p.pick_pieces(pick.pieces, &mut blocks, pick.num_blocks, pick.prefer_contiguous_blocks, None, pick.options,
                pick.suggested_pieces, pick.num_peers, &mut draws)
        });
    }
    assert_eq!(Bitfield::with_size(4097).err(), Some(Refusal::PickArguments));
    assert_eq!(Bitfield::with_size(usize::MAX).err(), Some(Refusal::PickArguments));
}

#[test]
fn short_output_is_12() {
    let (has, mut draws) = (Bitfield::with_value(4, true).expect("bits"), Draws::seeded(1));
    let pick = Pick {
        pieces: &has,
        num_blocks: 3,
        prefer_contiguous_blocks: 2,
        peer: None,
        options: PickerOptions::NONE,
        suggested_pieces: &[],
        num_peers: 0,
    };
    let mut out = [7; 261];
    refused(12, &mut picker(), |p| p.pick_into(&pick, &mut out[..259], 0, &mut draws));
    refused(12, &mut picker(), |p| p.pick_into(&pick, &mut out, 2, &mut draws));
    refused(12, &mut picker(), |p| p.pick_into(&pick, &mut out, usize::MAX, &mut draws));
    refused(12, &mut picker(), |p| p.pick_into(&pick, &mut [], 0, &mut draws));
    assert_eq!(out, [7; 261]);
    assert!(picker().pick_into(&pick, &mut out, 1, &mut draws).is_ok());
}

#[test]
fn bytes_that_are_no_image_are_13_with_their_place() {
    let image = picker().image().expect("an image");
    let at = |bytes: &[u8]| PiecePicker::from_image(bytes).err();
    for length in 0..24 {
        assert_eq!(at(&image[..length]), Some(Refusal::IllFormedImage { place: 0 }), "{length}");
    }
    assert_eq!(at(&image[..40]), Some(Refusal::IllFormedImage { place: 34 }));
    let longer = [&image[..], &[0]].concat();
    assert_eq!(at(&longer), Some(Refusal::IllFormedImage { place: image.len() as u64 }));
    assert_eq!(at(&[0xff; 4000]), Some(Refusal::IllFormedImage { place: 0 }));
    refused(13, &mut picker(), |p| p.read_image(&image[..40]));
}

#[test]
fn each_says_which_and_why() {
    use Refusal::*;
    let all = [
        Geometry, ShortMemory, IllFormedMemory, FewDraws, OutOfRange, TooManyPeers, NoPeerToTake, HavePiece, NotWriting, TooManyPartials,
        PickArguments, ShortOutput, IllFormedImage { place: 34 },
    ];
    let mut reasons = std::collections::HashSet::new();
    for (refusal, number) in all.into_iter().zip(1..) {
        let (text, start) = (refusal.to_string(), format!("refused {number}: "));
        assert_eq!(refusal.number(), number);
        assert!(text.starts_with(&start) && reasons.insert(text[start.len()..].to_string()), "{text}");
    }
    let errors: [Box<dyn std::error::Error>; 2] = [Box::new(NotWriting), Box::new(IllFormedImage { place: 34 })];
    assert_eq!(errors[0].to_string(), "refused 9: a Requested block is finished without Writing");
    assert_eq!(errors[1].to_string(), "refused 13: bytes aren't a well-formed image; the record at fault starts at byte 34");
}
