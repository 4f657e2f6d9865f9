//! The play, in strict alternation: turns alternate always, and a turn is a go where no card of its player fits.

use crate::cards::value;

pub const LAST_HOLE: u8 = 121;

#[derive(Clone, Copy, PartialEq, Eq, Hash)]
pub enum Side {
    Owner,
    Opponent,
}

impl Side {
    pub fn other(self) -> Side {
        match self {
            Side::Owner => Side::Opponent,
            Side::Opponent => Side::Owner,
        }
    }
}

/// The ranks that were laid since the count began.
#[derive(Clone, Copy, PartialEq, Eq, Hash, Default)]
struct Pile {
    ranks: [u8; 8],
    length: u8,
}

impl Pile {
    fn ranks(&self) -> &[u8] {
        &self.ranks[..self.length as usize]
    }

    fn push(&mut self, rank: u8) {
        self.ranks[self.length as usize] = rank;
        self.length += 1;
    }

    fn count(&self) -> u8 {
        self.ranks().iter().map(|&rank| value(rank)).sum()
    }

    /// Returns the points of the last card, but for the one of the eighth card.
    fn points(&self) -> u8 {
        let of_count = if matches!(self.count(), 15 | 31) { 2 } else { 0 };
        of_count + self.alike_points() + self.run_points()
    }

    fn alike_points(&self) -> u8 {
        let Some(last) = self.ranks().last() else { return 0 };
        match self.ranks().iter().rev().take_while(|rank| *rank == last).count() {
            1 => 0,
            2 => 2,
            3 => 6,
            _ => 12,
        }
    }

    fn run_points(&self) -> u8 {
        (3..=self.ranks().len()).rev().find(|&length| self.has_run(length)).unwrap_or(0) as u8
    }

    /// Returns whether the last so many ranks are ranks in a row, each once.
    fn has_run(&self, length: usize) -> bool {
        let last = &self.ranks()[self.ranks().len() - length..];
        let (mut lowest, mut highest, mut seen) = (u8::MAX, 0, 0u16);
        for &rank in last {
            lowest = lowest.min(rank);
            highest = highest.max(rank);
            seen |= 1 << rank;
        }
        seen.count_ones() as usize == length && (highest - lowest) as usize == length - 1
    }
}

/// What everybody sees between two turns.
#[derive(Clone, Copy, PartialEq, Eq, Hash)]
pub struct Table {
    pub turn: Side,
    pub scores: [u8; 2],
    pile: Pile,
    is_after_go: bool,
    last: Side,
    left: [u8; 2],
    said: [bool; 2],
}

impl Table {
    /// Returns the table before the first lead.
    pub fn new(dealer: Side, scores: [u8; 2]) -> Table {
        let pone = dealer.other();
        Table {
            turn: pone,
            scores,
            pile: Pile::default(),
            is_after_go: false,
            last: pone,
            left: [4, 4],
            said: [false, false],
        }
    }

    pub fn count(&self) -> u8 {
        self.pile.count()
    }

    pub fn fits(&self, rank: u8) -> bool {
        self.count() + value(rank) <= 31
    }

    /// Returns whether the deal is over for a target: a score decides it, or all eight cards are played.
    pub fn is_done(&self, target: u8) -> bool {
        self.left == [0, 0] || decided(self.scores, target).is_some()
    }

    /// Returns the table after a card, or after a go that is said, and after all silent gos that follow.
    pub fn after(mut self, rank: Option<u8>, target: u8) -> Table {
        match rank {
            Some(rank) => self.play(rank),
            None => self.go(),
        }
        while !self.is_done(target) && self.is_silent() {
            self.go();
        }
        self
    }

    fn play(&mut self, rank: u8) {
        self.pile.push(rank);
        self.left[self.turn as usize] -= 1;
        let is_31 = self.count() == 31;
        let of_last = u8::from(self.left == [0, 0] && !is_31);
        self.scores = scored(self.scores, self.turn, self.pile.points() + of_last);
        self.last = self.turn;
        self.turn = self.turn.other();
        self.is_after_go = false;
        if is_31 {
            self.close();
        }
    }

    fn go(&mut self) {
        if !self.is_after_go || self.pile.length == 0 {
            if !self.is_silent() {
                self.said[self.turn as usize] = true;
            }
            self.is_after_go = true;
        } else {
            self.scores = scored(self.scores, self.last, 1);
            self.is_after_go = false;
            self.close();
        }
        self.turn = self.turn.other();
    }

    fn close(&mut self) {
        self.pile = Pile::default();
        self.said = [false, false];
    }

    /// Returns whether a go now is not said: the player holds no card, or has said go in this count.
    fn is_silent(&self) -> bool {
        let turn = self.turn as usize;
        self.left[turn] == 0 || self.said[turn]
    }
}

/// How a deal ends for the owner.
#[derive(Clone, Copy, PartialEq, Eq)]
pub enum Ending {
    Reached,
    Stuck,
    Lost,
    Short,
}

/// Returns the scores with some points more for a side, cut at the last hole.
pub fn scored(mut scores: [u8; 2], side: Side, points: u8) -> [u8; 2] {
    let score = &mut scores[side as usize];
    *score = (*score + points).min(LAST_HOLE);
    scores
}

/// Returns how the scores decide the deal, if they do.
pub fn decided(scores: [u8; 2], target: u8) -> Option<Ending> {
    if scores[Side::Owner as usize] >= target {
        Some(Ending::Reached)
    } else if scores[Side::Opponent as usize] >= LAST_HOLE {
        Some(Ending::Lost)
    } else {
        None
    }
}
