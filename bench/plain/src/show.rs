//! The show: points of hands and cribs, and the deals that are tried at the end of the play.

use std::collections::HashMap;

use crate::cards::{value, Card, JACK};
use crate::hash::Build;
use crate::play::{decided, scored, Ending, Side, Table};
use crate::problem::Problem;
use crate::view::View;

/// Returns the points of fifteens, pairs and runs among five ranks.
fn rank_points(ranks: [u8; 5]) -> u8 {
    let mut points = 0;
    for choice in 0u8..32 {
        let sum: u8 = (0..5).filter(|at| choice & 1 << at != 0).map(|at| value(ranks[at])).sum();
        points += if sum == 15 { 2 } else { 0 };
    }
    let mut counts = [0u8; 14];
    for rank in ranks {
        counts[rank as usize] += 1;
    }
    points += counts.iter().map(|count| count * count.saturating_sub(1)).sum::<u8>();
    let (mut length, mut ways) = (0, 1);
    for count in counts {
        if count > 0 {
            length += 1;
            ways *= count;
        } else {
            points += if length >= 3 { length * ways } else { 0 };
            (length, ways) = (0, 1);
        }
    }
    points
}

/// Returns the points of suits: a flush, and the jack of the starter's suit.
fn suit_points(four: [Card; 4], starter: Card, is_crib: bool) -> u8 {
    let is_flush = four.iter().all(|card| card.suit == four[0].suit);
    let flush = match (is_flush, starter.suit == four[0].suit) {
        (false, _) => 0,
        (true, true) => 5,
        (true, false) => {
            if is_crib {
                0
            } else {
                4
            }
        }
    };
    flush + u8::from(four.contains(&Card { rank: JACK, suit: starter.suit }))
}

fn points(four: [Card; 4], starter: Card, is_crib: bool) -> u8 {
    let ranks = [four[0].rank, four[1].rank, four[2].rank, four[3].rank, starter.rank];
    rank_points(ranks) + suit_points(four, starter, is_crib)
}

/// The points of the opponent's hand and of the crib in some deal.
#[derive(Clone, Copy)]
struct Counted {
    hand: u8,
    crib: u8,
}

/// Three deals of those whose hold has the same four ranks: with the most in the opponent's hand, with the least in the
/// crib, and with the most in both. If the owner misses the goal in any deal, he misses it in one of these.
#[derive(Clone, Copy)]
struct Extremes([Counted; 3]);

/// A deal: what the opponent holds, and what he threw.
pub struct Deal {
    pub hold: [Card; 4],
    pub throw: [Card; 2],
}

pub struct Deals<'a> {
    problem: &'a Problem,
    unseen: Vec<Card>,
    /// The same by rank and suit.
    is_unseen: [[bool; 4]; 13],
    /// The opponent's cards that were played when the plan begins.
    fixed: Vec<Card>,
    own_points: u8,
    /// Each throw with the points of its crib, in the order of cards.
    throws: Vec<([Card; 2], u8)>,
    /// The same by points.
    by_points: Vec<([Card; 2], u8)>,
    extremes: HashMap<[u8; 13], Extremes, Build>,
}

impl<'a> Deals<'a> {
    pub fn new(problem: &'a Problem) -> Deals<'a> {
        let unseen = problem.unseen();
        let mut is_unseen = [[false; 4]; 13];
        for card in &unseen {
            is_unseen[card.rank as usize][card.suit as usize] = true;
        }
        let hold = [problem.hold[0], problem.hold[1], problem.hold[2], problem.hold[3]];
        let opponents = problem.played.iter().filter(|act| act.side == Side::Opponent);
        Deals {
            problem,
            fixed: opponents.filter_map(|act| act.card).collect(),
            unseen,
            is_unseen,
            own_points: points(hold, problem.starter, false),
            throws: Vec::new(),
            by_points: Vec::new(),
            extremes: HashMap::default(),
        }
    }

    /// Counts each crib, the first time that one is needed.
    fn count_cribs(&mut self) {
        if !self.throws.is_empty() {
            return;
        }
        for (at, &first) in self.unseen.iter().enumerate() {
            for &second in &self.unseen[at + 1..] {
                let crib = [self.problem.throw[0], self.problem.throw[1], first, second];
                self.throws.push(([first, second], points(crib, self.problem.starter, true)));
            }
        }
        self.by_points = self.throws.clone();
        self.by_points.sort_by_key(|throw| throw.1);
    }

    /// Returns the holds of four ranks, the first one first: each choice of suits that is unseen and has the fixed cards.
    fn holds<'b>(&'b self, ranks: &[u8; 13]) -> impl Iterator<Item = [Card; 4]> + 'b {
        let mut four = [0; 4];
        let of_each = ranks.iter().enumerate().flat_map(|(rank, &count)| (0..count).map(move |_| rank as u8));
        for (place, rank) in four.iter_mut().zip(of_each) {
            *place = rank;
        }
        let suits = (0u16..256).map(|suits| [suits >> 6, suits >> 4 & 3, suits >> 2 & 3, suits & 3]);
        let holds = suits.map(move |suits| [0, 1, 2, 3].map(|at| Card { rank: four[at], suit: suits[at] as u8 }));
        holds.filter(|hold| {
            hold.windows(2).all(|two| two[0] < two[1])
                && hold.iter().all(|card| self.is_unseen[card.rank as usize][card.suit as usize])
                && self.fixed.iter().all(|card| hold.contains(card))
        })
    }

    fn extremes_of(&mut self, ranks: &[u8; 13]) -> Extremes {
        if let Some(known) = self.extremes.get(ranks) {
            return *known;
        }
        self.count_cribs();
        let starter = self.problem.starter;
        let mut of_ranks = None;
        let mut found: Option<Extremes> = None;
        for hold in self.holds(ranks) {
            let [one, two, three, four] = hold.map(|card| card.rank);
            let of_ranks = *of_ranks.get_or_insert_with(|| rank_points([one, two, three, four, starter.rank]));
            let hand = of_ranks + suit_points(hold, starter, false);
            let is_beside = |throw: &&([Card; 2], u8)| !hold.contains(&throw.0[0]) && !hold.contains(&throw.0[1]);
            let least = Counted { hand, crib: self.by_points.iter().find(is_beside).unwrap().1 };
            let most = Counted { hand, crib: self.by_points.iter().rev().find(is_beside).unwrap().1 };
            let Extremes([most_hand, least_crib, most_both]) = found.unwrap_or(Extremes([least, least, most]));
            found = Some(Extremes([
                if hand > most_hand.hand { least } else { most_hand },
                if least.crib < least_crib.crib { least } else { least_crib },
                if hand + most.crib > most_both.hand + most_both.crib { most } else { most_both },
            ]));
        }
        let found = found.unwrap();
        self.extremes.insert(*ranks, found);
        found
    }

    /// Returns how a deal ends in the show.
    fn ending(&self, table: &Table, counted: Counted) -> Ending {
        let hand_of = |side| if side == Side::Owner { self.own_points } else { counted.hand };
        let dealer = self.problem.dealer;
        let pone = dealer.other();
        let mut scores = table.scores;
        for (side, points) in [(pone, hand_of(pone)), (dealer, hand_of(dealer)), (dealer, counted.crib)] {
            scores = scored(scores, side, points);
            if let Some(ending) = decided(scores, self.problem.target) {
                return ending;
            }
        }
        if self.problem.is_stop {
            Ending::Reached
        } else {
            Ending::Short
        }
    }

    /// Returns whether the owner reaches the goal in every deal, where all eight cards are played.
    ///
    /// A pone who wants to get holes or to win needs no deal for that: his hand is counted first, and he gets nothing after.
    pub fn is_sure(&mut self, view: &View) -> bool {
        if self.problem.dealer == Side::Opponent && !self.problem.is_stop {
            let scores = scored(view.table.scores, Side::Owner, self.own_points);
            return decided(scores, self.problem.target) == Some(Ending::Reached);
        }
        let Extremes(three) = self.extremes_of(&view.shown);
        three.iter().all(|counted| self.ending(&view.table, *counted) == Ending::Reached)
    }

    /// Returns the first deal in which the owner misses the goal in the show, and how it ends.
    pub fn first_unsure(&mut self, view: &View) -> (Deal, Ending) {
        self.count_cribs();
        for hold in self.holds(&view.shown) {
            let hand = points(hold, self.problem.starter, false);
            for &(throw, crib) in &self.throws {
                let ending = self.ending(&view.table, Counted { hand, crib });
                if ending != Ending::Reached && !throw.iter().any(|card| hold.contains(card)) {
                    return (Deal { hold, throw }, ending);
                }
            }
        }
        unreachable!("each deal is sure")
    }

    /// Returns the first deal that agrees with what was shown.
    pub fn first(&self, view: &View) -> Deal {
        let cards = &self.unseen;
        for one in 0..cards.len() {
            for two in one + 1..cards.len() {
                for three in two + 1..cards.len() {
                    for four in three + 1..cards.len() {
                        let hold = [cards[one], cards[two], cards[three], cards[four]];
                        if self.agrees(view, &hold) {
                            let mut others = cards.iter().filter(|card| !hold.contains(card));
                            let throw = [*others.next().unwrap(), *others.next().unwrap()];
                            return Deal { hold, throw };
                        }
                    }
                }
            }
        }
        unreachable!("no deal agrees")
    }

    fn agrees(&self, view: &View, hold: &[Card; 4]) -> bool {
        let mut left = view.shown;
        let mut others = 0;
        for card in hold {
            if left[card.rank as usize] > 0 {
                left[card.rank as usize] -= 1;
                others += 1;
            } else if value(card.rank) < view.least {
                return false;
            }
        }
        others == view.shown.iter().sum::<u8>() && self.fixed.iter().all(|card| hold.contains(card))
    }
}
