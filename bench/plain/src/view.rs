//! What the owner can see in the middle of a deal.

use crate::cards::value;
use crate::play::{Side, Table};
use crate::problem::{Problem, GO};

/// What the owner knows. The opponent's hidden cards enter by what they may show next: that depends on the ranks shown so
/// far and on the least value that a card may have after the gos, since at a count of 22 or more enough tens are unseen.
#[derive(Clone, Copy, PartialEq, Eq, Hash)]
pub struct View {
    pub table: Table,
    /// A bit for each card of the hold that the owner has left.
    pub hand: u8,
    /// How many cards of each rank the opponent has shown.
    pub shown: [u8; 13],
    pub least: u8,
}

/// How many cards of each rank the owner hasn't seen when the play begins.
pub fn unseen_of_each_rank(problem: &Problem) -> [u8; 13] {
    let mut unseen = [0; 13];
    for card in problem.unseen() {
        unseen[card.rank as usize] += 1;
    }
    unseen
}

impl View {
    /// Returns the view after the turns that the problem says were played.
    pub fn new(problem: &Problem) -> View {
        let table = Table::new(problem.dealer, problem.scores);
        let mut view = View { table, hand: 0b1111, shown: [0; 13], least: 1 };
        for act in &problem.played {
            view = match (act.side, act.card) {
                (Side::Owner, None) => view.after_own(problem, None),
                (Side::Owner, card) => {
                    view.after_own(problem, problem.hold.iter().position(|held| Some(*held) == card))
                }
                (Side::Opponent, None) => view.after_shown(problem, GO),
                (Side::Opponent, Some(card)) => view.after_shown(problem, card.rank as usize),
            }
        }
        view
    }

    /// Returns the places in the hold of the cards that the owner may play.
    pub fn fitting<'a>(&'a self, problem: &'a Problem) -> impl Iterator<Item = usize> + 'a {
        (0..4).filter(|&at| self.hand & 1 << at != 0 && self.table.fits(problem.hold[at].rank))
    }

    /// Returns the view after a card of the owner, by its place in the hold, or after a go.
    pub fn after_own(mut self, problem: &Problem, card: Option<usize>) -> View {
        if let Some(at) = card {
            self.hand &= !(1 << at);
        }
        self.table = self.table.after(card.map(|at| problem.hold[at].rank), problem.target);
        self
    }

    /// Returns whether the opponent may show a letter: a rank or a go.
    pub fn may_show(&self, unseen: &[u8; 13], letter: usize) -> bool {
        if letter == GO {
            return self.table.count() >= 22;
        }
        let rank = letter as u8;
        value(rank) >= self.least && self.shown[letter] < unseen[letter] && self.table.fits(rank)
    }

    /// Returns the view after the opponent has shown a letter.
    pub fn after_shown(mut self, problem: &Problem, letter: usize) -> View {
        if letter == GO {
            self.least = self.least.max(32 - self.table.count());
            self.table = self.table.after(None, problem.target);
        } else {
            self.shown[letter] += 1;
            self.table = self.table.after(Some(letter as u8), problem.target);
        }
        self
    }
}
