//! Random changes of a picker, with arguments that tell something: often the same few pieces, pieces with a partial, blocks of each state,
//! the last piece. To add calls of another kind, take pieces and blocks from here.

use crate::lent::Lent;
use crate::rng::Rng;
use crate::states::PEERS;
use oracle::script::Change;

/// The pieces that a list of calls comes back to.
pub struct Calls {
    favourites: [usize; 3],
}

impl Calls {
    pub fn new(rng: &mut Rng, lent: &Lent) -> Calls {
        let n = lent.shape().n;
        Calls { favourites: [(); 3].map(|()| rng.place(n)) }
    }

    pub fn piece(&self, rng: &mut Rng, lent: &Lent) -> usize {
        let (n, live) = (lent.shape().n, lent.live());
        match rng.below(16) {
            0..=8 if live > 0 => lent.partials[rng.place(live)].index as usize,
            9..=12 => rng.of(&self.favourites),
            13 => n - 1,
            _ => rng.place(n),
        }
    }

    /// A block of the piece, of a random state if one is there.
    pub fn block(&self, rng: &mut Rng, lent: &Lent, piece: usize) -> usize {
        let s = lent.shape();
        let many = s.blocks_in_piece(&lent.words, piece);
        let start = rng.place(many);
        let live = &lent.partials[..lent.live()];
        let Ok(k) = live.binary_search_by_key(&(piece as u32), |d| d.index) else {
            return start;
        };
        let states = &lent.cells[s.blocks(0, live[k].info_idx as usize)..][..many];
        let state = rng.below(4) as u16;
        (start..many).chain(0..start).find(|j| states[*j] == state).unwrap_or(start)
    }

    pub fn change(&self, rng: &mut Rng, lent: &Lent) -> Change {
        let kind = rng.below(90);
        // a count or a priority moves an Open piece along the list
        let at = if kind < 31 && rng.percent(60) { rng.place(lent.shape().n) } else { self.piece(rng, lent) };
        let (piece, block, peer) = (at as i64, self.block(rng, lent, at) as i64, rng.of(&PEERS));
        match kind {
            0..=9 => Change::IncRefcount { piece },
            10..=17 => Change::DecRefcount { piece },
            18..=19 => Change::IncRefcountAll,
            20..=21 => Change::DecRefcountAll,
            22..=30 => Change::SetPiecePriority { piece, wish: rng.of(&[0, 0, 1, 4, 4, 6, 7, 7]) },
            31..=38 => Change::MarkAsCanceled { piece, block, peer },
            39..=48 => Change::AbortDownload { piece, block, peer },
            49..=51 => Change::LockPiece { piece },
            52..=58 => Change::PiecePassed { piece },
            59..=70 => Change::MarkAsDownloading { piece, block, peer, options: an_option(rng) },
            71..=78 => Change::MarkAsWriting { piece, block, peer },
            _ => Change::MarkAsFinished { piece, block, peer },
        }
    }
}

fn an_option(rng: &mut Rng) -> u16 {
    let any = rng.next() as u16;
    rng.of(&[0, 2, 128, 130, any & 255, any])
}
