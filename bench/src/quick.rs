//! Quick asks: the proved one, the rival's and the peers'.

use stayharrow::entry;

use crate::cases::{Case, Kind, STRETCHES};
use crate::measure::{Contestant, Timed, interleaved};
use crate::peers::{PEERS, Peer};
use crate::rival;

/// The proved code's name.
pub const PROVED: &str = "proved";
/// The rival's name.
pub const RIVAL: &str = "Rust";

/// The times of one column and stretch, in nanoseconds an ask.
#[derive(Clone, Debug)]
pub struct Row {
    /// The column.
    pub kind: Kind,
    /// The stretch.
    pub stretch: usize,
    /// The proved code first, then the rival, then the peers.
    pub times: Vec<Timed>,
}

/// The sum of the proved code's answers.
pub fn proved(case: &Case, asks: &[(usize, usize)]) -> u64 {
    let record = case.record.as_bytes();
    let answer = |&(i, j): &(usize, usize)| entry::quick_ask(record, &case.summary, i, j).bits();
    asks.iter().map(answer).fold(0, u64::wrapping_add)
}

/// The sum of the rival's answers.
pub fn rival(case: &Case, asks: &[(usize, usize)]) -> u64 {
    let record = case.record.as_bytes();
    let answer = |&(i, j): &(usize, usize)| rival::quick_ask(record, &case.summary, i, j);
    asks.iter().map(answer).fold(0, u64::wrapping_add)
}

/// Times every stretch of a column, after all have given equal answers.
pub fn rows(case: &Case) -> Vec<Row> {
    let peers: Vec<_> = PEERS.iter().map(|(_, make)| make(&case.counts)).collect();
    let row = |&stretch: &usize| {
        let asks = case.asks(stretch);
        agree(case, &peers, &asks);
        let mut contestants = vec![
            Contestant::new(PROVED, || proved(case, &asks)),
            Contestant::new(RIVAL, || rival(case, &asks)),
        ];
        for (peer, (name, _)) in peers.iter().zip(PEERS) {
            contestants.push(Contestant::new(name, || peer.sum(&asks)));
        }
        Row {
            kind: case.kind,
            stretch,
            times: interleaved(contestants, asks.len()),
        }
    };
    STRETCHES.iter().map(row).collect()
}

/// Every answer is the column's own leftmost smallest entry; a peer may break ties as it likes.
fn agree(case: &Case, peers: &[Box<dyn Peer>], asks: &[(usize, usize)]) {
    for &(i, j) in asks {
        let place = trials::rules::leftmost_smallest(&case.counts, i, j);
        let record = case.record.as_bytes();
        let said = entry::quick_ask(record, &case.summary, i, j).bits();
        let rival = rival::quick_ask(record, &case.summary, i, j);
        assert_eq!((said, rival), (place as u64, place as u64), "{i}..={j}");
        for peer in peers {
            assert_eq!(case.counts[peer.ask(i, j)], case.counts[place], "{i}..={j}");
        }
    }
}
