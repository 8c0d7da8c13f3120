//! A simulated station: peers join and leave, some slow, some failing, some with bad data, and a whole torrent is downloaded through the
//! linked picker, once straight on and once set back to a saved image in the middle. What happens in a tick depends on seed and tick
//! alone, so both have to come to the same end. Every block is followed from request to disk (`station/ledger.rs`).
//!
//!     station SEED PIECES PIECE_SIZE PEERS [--spoil KIND]
//!
//! With a KIND one thing is done wrong once, and has to be found. Exit status: 0 good, 1 a fault was found, 2 wrong arguments.

#[path = "station/arguments.rs"]
mod arguments;
#[path = "station/asking.rs"]
mod asking;
#[path = "station/audit.rs"]
mod audit;
#[path = "station/delivery.rs"]
mod delivery;
#[path = "station/ledger.rs"]
mod ledger;
#[path = "station/part.rs"]
mod part;
#[path = "station/peer.rs"]
mod peer;
#[path = "station/pieces.rs"]
mod pieces;
#[path = "station/restart.rs"]
mod restart;
#[path = "../../harness/rng.rs"]
#[allow(dead_code)]
mod rng;
#[path = "station/state.rs"]
mod state;
#[path = "station/swarm.rs"]
mod swarm;

use arguments::{Arguments, Spoil};
use part::Fault;
use restart::{download, End};
use std::process::ExitCode;
use std::time::Instant;

fn compare(straight: &End, set_back: &End) -> Result<(), Fault> {
    if let Some(place) = straight.log.iter().zip(&set_back.log).position(|(one, other)| one != other) {
        return Err(Fault(format!("set back, request {place} of {} is another", straight.log.len())));
    }
    if straight.log.len() != set_back.log.len() || straight.ticks != set_back.ticks {
        return Err(Fault("set back, the download takes another time".into()));
    }
    if straight.image != set_back.image {
        return Err(Fault("set back, the download ends with another image".into()));
    }
    Ok(())
}

fn both(arguments: &Arguments) -> Result<(), Fault> {
    let began = Instant::now();
    let straight = download(&Arguments { spoil: Spoil::Nothing, ..*arguments }, false)?;
    let set_back = download(arguments, true)?;
    compare(&straight, &set_back)?;
    let (totals, calls) = (&straight.totals, straight.calls + set_back.calls);
    println!("station {}: {} pieces had after {} ticks", arguments.seed, arguments.pieces, straight.ticks);
    println!("  requests {}: came {}, given back {}, canceled {}", totals.asked, totals.came, totals.given_back, totals.canceled);
    println!("  pieces with a bad hash {}, with a failed write {}", totals.bad_pieces, totals.failed_writes);
    println!("  joins {}, leaves {}", totals.joins, totals.leaves);
    println!("  set back from tick {} to {}: same requests, same end", set_back.set_back.1, set_back.set_back.0);
    println!("  {calls} calls in both downloads, {} ms", began.elapsed().as_millis());
    Ok(())
}

fn main() -> ExitCode {
    let arguments = match Arguments::read(std::env::args().skip(1)) {
        Ok(arguments) => arguments,
        Err(message) => {
            eprintln!("station: {message}");
            return ExitCode::from(2);
        }
    };
    match both(&arguments) {
        Ok(()) => ExitCode::SUCCESS,
        Err(fault) => {
            eprintln!("station: found: {fault}");
            ExitCode::FAILURE
        }
    }
}
