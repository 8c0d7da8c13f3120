//! One download through the linked picker: peers join, blocks are picked, asked for, written and finished, the image is saved, and the
//! picker is set back to it. `examples/README.md` has the story; the C example prints the same text.

mod show;

use piece_picker::{Bitfield, DownloadPriority, Draws, PickerOptions, PieceBlock, PieceIndex, PiecePicker, Refusal};
use show::{bit, call, draws, numbers, partials, picked};
use std::error::Error;
use std::process::ExitCode;

const TOTAL_SIZE: i64 = 370_000;
const PIECE_SIZE: i32 = 65_536;
const PIECES: usize = 6;
/// Blocks wanted at a time.
const NUM_BLOCKS: i32 = 3;
/// Turns before the power fails, and the one whose middle is saved.
const TURNS: u64 = 6;
const SAVED_TURN: u64 = 4;
/// The download is over before this turn.
const LAST_TURN: u64 = 40;

/// What a peer has, and how it is asked.
struct Peer {
    number: u64,
    bits: u8,
    options: PickerOptions,
}

const PEERS: [Peer; 3] = [
    Peer { number: 1, bits: 0xe0, options: PickerOptions(129) },
    Peer { number: 2, bits: 0x3c, options: PickerOptions(3) },
    Peer { number: 3, bits: 0xfc, options: PickerOptions(0) },
];
const SEED: u64 = 3;

impl Peer {
    fn has(&self) -> Bitfield {
        Bitfield::from_bytes(&[self.bits], PIECES)
    }

    /// The pieces that it has, lowest first.
    fn pieces(&self) -> Vec<PieceIndex> {
        let has = self.has();
        (0..PIECES).filter(|i| has.get_bit(*i)).map(|i| PieceIndex(i as i32)).collect()
    }

    fn of_turn(turn: u64) -> &'static Peer {
        &PEERS[((turn - 1) % 3) as usize]
    }
}

/// The picker, and the seed of the draws that were lent last.
struct Story {
    picker: PiecePicker,
    k: u64,
}

/// What is needed to go on from the middle of a turn.
struct Saved {
    image: Vec<u8>,
    blocks: Vec<PieceBlock>,
    k: u64,
}

impl Story {
    /// The words for the next call that may draw.
    fn draws(&mut self) -> Draws {
        self.k += 1;
        Draws::seeded(self.k)
    }

    fn join(&mut self, peer: &Peer) -> Result<(), Refusal> {
        println!("# peer {} joins", peer.number);
        if peer.number == SEED {
            return call("inc_refcount_all".into(), self.picker.inc_refcount_all(), |()| "done".into());
        }
        for piece in peer.pieces() {
            let mut words = self.draws();
            let answer = self.picker.inc_refcount(piece, &mut words);
            call(draws(format!("inc_refcount {piece}"), self.k), answer, |()| format!("done draws {}", words.used()))?;
        }
        Ok(())
    }

    fn leave(&mut self, peer: &Peer) -> Result<(), Refusal> {
        println!("# peer {} leaves", peer.number);
        if peer.number == SEED {
            return call("dec_refcount_all".into(), self.picker.dec_refcount_all(), |()| "done".into());
        }
        peer.pieces().into_iter().try_for_each(|piece| self.take_away(piece))
    }

    fn take_away(&mut self, piece: PieceIndex) -> Result<(), Refusal> {
        let mut words = self.draws();
        let answer = self.picker.dec_refcount(piece, &mut words);
        call(draws(format!("dec_refcount {piece}"), self.k), answer, |()| format!("done draws {}", words.used()))
    }

    fn set_priority(&mut self, piece: PieceIndex, priority: DownloadPriority) -> Result<bool, Refusal> {
        let mut words = self.draws();
        let answer = self.picker.set_piece_priority(piece, priority, &mut words);
        let line = draws(format!("set_piece_priority {piece} {}", priority.0), self.k);
        call(line, answer, |changed| format!("answer {} draws {}", bit(*changed), words.used()))
    }

    /// The blocks that the turn's peer is asked for.
    fn ask(&mut self, turn: u64) -> Result<Vec<PieceBlock>, Refusal> {
        let peer = Peer::of_turn(turn);
        println!("# turn {turn}: peer {} is asked", peer.number);
        let (mut blocks, mut words) = (Vec::new(), self.draws());
        let answer = self.picker.pick_pieces(&peer.has(), &mut blocks, NUM_BLOCKS, 0, Some(peer.number), peer.options, &[],
            PEERS.len() as i32, &mut words);
        let line = format!("pick_pieces {} {NUM_BLOCKS} 0 {} {} {PIECES} {:02x} -", peer.options.0, PEERS.len(), peer.number, peer.bits);
        call(draws(line, self.k), answer, |found| picked(found, &blocks))?;
        for block in &blocks {
            self.request(*block, peer)?;
        }
        Ok(blocks)
    }

    fn request(&mut self, block: PieceBlock, peer: &Peer) -> Result<bool, Refusal> {
        let mut words = self.draws();
        let answer = self.picker.mark_as_downloading(block, Some(peer.number), peer.options, &mut words);
        let (piece, j) = (block.piece_index, block.block_index);
        let line = draws(format!("mark_as_downloading {piece} {j} {} {}", peer.number, peer.options.0), self.k);
        call(line, answer, |marked| format!("answer {} draws {}", bit(*marked), words.used()))
    }

    /// The blocks come; the first one of peer 2 does not. Answers whether the download is over.
    fn arrive(&mut self, turn: u64, blocks: &[PieceBlock]) -> Result<bool, Refusal> {
        let peer = Peer::of_turn(turn);
        println!("# turn {turn}: blocks arrive");
        for (place, block) in blocks.iter().enumerate() {
            if peer.number == 2 && place == 0 {
                self.give_back(*block, peer)?;
            } else {
                self.write(*block, peer)?;
                self.finish(*block, peer)?;
            }
        }
        call("is_finished".into(), self.picker.is_finished(), |over| format!("answer {}", bit(*over)))
    }

    fn give_back(&mut self, block: PieceBlock, peer: &Peer) -> Result<(), Refusal> {
        let mut words = self.draws();
        let answer = self.picker.abort_download(block, Some(peer.number), &mut words);
        let line = format!("abort_download {} {} {}", block.piece_index, block.block_index, peer.number);
        call(draws(line, self.k), answer, |()| format!("done draws {}", words.used()))
    }

    fn write(&mut self, block: PieceBlock, peer: &Peer) -> Result<bool, Refusal> {
        let mut words = self.draws();
        let answer = self.picker.mark_as_writing(block, Some(peer.number), &mut words);
        let line = format!("mark_as_writing {} {} {}", block.piece_index, block.block_index, peer.number);
        call(draws(line, self.k), answer, |marked| format!("answer {} draws {}", bit(*marked), words.used()))
    }

    /// The block is on disk; where it was its piece's last one, the hash is right.
    fn finish(&mut self, block: PieceBlock, peer: &Peer) -> Result<(), Refusal> {
        let (piece, mut words) = (block.piece_index, self.draws());
        let answer = self.picker.mark_as_finished(block, Some(peer.number), &mut words);
        let line = format!("mark_as_finished {piece} {} {}", block.block_index, peer.number);
        call(draws(line, self.k), answer, |()| format!("done draws {}", words.used()))?;
        let finished = self.picker.is_piece_finished(piece);
        if call(format!("is_piece_finished {piece}"), finished, |finished| format!("answer {}", bit(*finished)))? {
            call(format!("piece_passed {piece}"), self.picker.piece_passed(piece), |()| "done".into())?;
        }
        Ok(())
    }

    fn show_partials(&self) -> Result<(), Refusal> {
        call("get_download_queue".into(), self.picker.get_download_queue(), |queue| partials(queue)).map(drop)
    }

    fn show_image(&self) -> Result<Vec<u8>, Refusal> {
        call("image".into(), self.picker.image(), |bytes| format!("bytes {}", show::hex(bytes)))
    }

    fn show_availability(&self) -> Result<(), Refusal> {
        call("get_availability_vec".into(), self.picker.get_availability_vec(), |counts| numbers(counts)).map(drop)
    }

    fn save(&self, blocks: &[PieceBlock]) -> Result<Saved, Refusal> {
        println!("# the image is saved");
        self.show_partials()?;
        Ok(Saved { image: self.show_image()?, blocks: blocks.to_vec(), k: self.k })
    }

    /// The first turns; answers what was saved in the middle of one of them.
    fn before_the_failure(&mut self) -> Result<Option<Saved>, Refusal> {
        let mut saved = None;
        for turn in 1..=TURNS {
            let blocks = self.ask(turn)?;
            if turn == SAVED_TURN {
                saved = Some(self.save(&blocks)?);
            }
            self.arrive(turn, &blocks)?;
        }
        Ok(saved)
    }

    fn set_back(saved: &Saved) -> Result<Story, Refusal> {
        println!("# the power fails; the image is read into other memory");
        println!("zero -> done");
        let line = format!("read {}", show::hex(&saved.image));
        let picker = call(line, PiecePicker::from_image(&saved.image), |_| "done".into())?;
        let story = Story { picker, k: saved.k };
        story.show_partials()?;
        Ok(story)
    }

    /// The rest of the saved turn, and those behind it until the download is over.
    fn after_the_failure(&mut self, saved: &Saved) -> Result<(), Box<dyn Error>> {
        let mut over = self.arrive(SAVED_TURN, &saved.blocks)?;
        let mut turn = SAVED_TURN;
        while !over {
            turn += 1;
            if turn == LAST_TURN {
                return Err("the download is not over".into());
            }
            let blocks = self.ask(turn)?;
            over = self.arrive(turn, &blocks)?;
        }
        Ok(())
    }

    fn close(&mut self) -> Result<(), Refusal> {
        call("num_have".into(), self.picker.num_have(), |many| format!("answer {many}"))?;
        call("is_seeding".into(), self.picker.is_seeding(), |seeding| format!("answer {}", bit(*seeding)))?;
        call("get_download_queue_size".into(), self.picker.get_download_queue_size(), |many| format!("answer {many}"))?;
        self.leave(&PEERS[1])?;
        self.leave(&PEERS[2])?;
        self.show_availability()?;
        // nobody is left who has the last piece: this is refused, and the picker stays as it is
        if self.take_away(PieceIndex(PIECES as i32 - 1)) == Err(Refusal::NoPeerToTake) {
            self.show_image()?;
        }
        Ok(())
    }
}

fn tell() -> Result<(), Box<dyn Error>> {
    let picker = call(format!("new {TOTAL_SIZE} {PIECE_SIZE}"), PiecePicker::new(TOTAL_SIZE, PIECE_SIZE), |_| "done".into())?;
    let mut story = Story { picker, k: 0 };
    for peer in &PEERS {
        story.join(peer)?;
    }
    story.show_availability()?;
    call("distributed_copies".into(), story.picker.distributed_copies(), |(whole, part)| format!("answer {whole} {part}"))?;
    story.set_priority(PieceIndex(4), DownloadPriority::TOP)?;
    let saved = story.before_the_failure()?.ok_or("nothing was saved")?;
    let mut story = Story::set_back(&saved)?;
    story.after_the_failure(&saved)?;
    Ok(story.close()?)
}

fn main() -> ExitCode {
    match tell() {
        Ok(()) => ExitCode::SUCCESS,
        Err(why) => {
            eprintln!("download: {why}");
            ExitCode::FAILURE
        }
    }
}
