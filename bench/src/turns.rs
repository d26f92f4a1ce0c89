//! Two sides that work in turns.
use std::hint::black_box;
use std::time::Instant;

/// Does the work so many times, and returns a checksum. With 0 it only makes the values.
pub type Work<'a> = Box<dyn Fn(u32) -> usize + 'a>;

/// How long a turn takes, in nanoseconds, and how many each side has.
const TURN: f64 = 5e6;
const TURNS: usize = 25;

fn nanoseconds(work: &Work, rounds: u32) -> f64 {
    let start = Instant::now();
    black_box(work(black_box(rounds)));
    start.elapsed().as_nanos() as f64
}

fn least(times: impl Iterator<Item = f64>) -> f64 {
    times.fold(f64::MAX, f64::min)
}

/// One side of a row: its work, how many rounds a turn has, and what making the values takes.
struct Side<'a> {
    work: Work<'a>,
    rounds: u32,
    making: f64,
}

impl<'a> Side<'a> {
    fn new(work: Work<'a>) -> Side<'a> {
        let making = least((0..5).map(|_| nanoseconds(&work, 0)));
        let mut rounds = 1u32;
        while nanoseconds(&work, rounds) - making < TURN / 4.0 && rounds < 1 << 28 {
            rounds *= 2;
        }
        Side { work, rounds: rounds * 4, making }
    }

    /// What a round took in one turn.
    fn turn(&mut self) -> f64 {
        self.making = self.making.min(nanoseconds(&self.work, 0));
        (nanoseconds(&self.work, self.rounds) - self.making) / f64::from(self.rounds)
    }
}

/// The least time of each work for one of so many values. They take turns, and who begins goes round.
pub fn least_of(works: Vec<Work>, values: usize) -> Vec<f64> {
    let mut sides: Vec<Side> = works.into_iter().map(Side::new).collect();
    let mut found = vec![f64::MAX; sides.len()];
    for turn in 0..TURNS * sides.len() {
        let at = (turn + turn / sides.len()) % sides.len();
        found[at] = found[at].min(sides[at].turn());
    }
    found.into_iter().map(|time| time / values as f64).collect()
}

/// The rows that are asked for, and whether two checksums differed.
pub struct Bench {
    words: Vec<String>,
    differing: bool,
}

impl Bench {
    pub fn new(words: Vec<String>) -> Bench {
        Bench { words, differing: false }
    }

    pub fn differing(&self) -> bool {
        self.differing
    }

    /// Times a row of so many values a round, and prints it.
    pub fn row(&mut self, name: &str, values: usize, ours: Work, peer: Work) {
        if !self.words.is_empty() && !self.words.iter().any(|word| name.contains(word)) {
            return;
        }
        if ours(3) != peer(3) {
            self.differing = true;
            println!("| {name} | checksums differ: {} and {} |", ours(3), peer(3));
            return;
        }
        let (mut ours, mut peer) = (Side::new(ours), Side::new(peer));
        let times: Vec<(f64, f64)> = (0..TURNS).map(|turn| in_turns(turn, &mut ours, &mut peer)).collect();
        let mut ratios: Vec<f64> = times.iter().map(|(ours, peer)| ours / peer).collect();
        ratios.sort_by(f64::total_cmp);
        let each = values as f64;
        let ours = least(times.iter().map(|(ours, _)| ours / each));
        let peer = least(times.iter().map(|(_, peer)| peer / each));
        println!("| {name} | {ours:.1} | {peer:.1} | {:.2} | {:.2} |", ours / peer, ratios[TURNS / 2]);
    }
}

/// A turn of each; who begins goes round.
fn in_turns(turn: usize, ours: &mut Side, peer: &mut Side) -> (f64, f64) {
    if turn % 2 == 0 {
        let first = ours.turn();
        (first, peer.turn())
    } else {
        let first = peer.turn();
        (ours.turn(), first)
    }
}
