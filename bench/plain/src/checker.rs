//! `check`: a walk through every position that a plan may meet, the first failing game first.

use std::collections::HashSet;

use crate::cards::{words, Card};
use crate::hash::Build;
use crate::play::{decided, Ending, Side};
use crate::problem::{Act, Node, Place, Problem, GO};
use crate::show::{Deal, Deals};
use crate::view::{unseen_of_each_rank, View};

/// What was done since the plan began: a card of the owner, or a letter of the opponent.
#[derive(Clone, Copy)]
enum Done {
    Own(Option<Card>),
    Shown(usize),
}

pub struct Checker<'a> {
    problem: &'a Problem,
    plan: &'a [Node],
    deals: Deals<'a>,
    unseen: [u8; 13],
    settled: HashSet<(View, Place), Build>,
    acts: Vec<Done>,
}

/// A game in which a plan fails, and how.
pub struct Failure {
    ending: Ending,
    deal: Deal,
    acts: Vec<Act>,
}

impl<'a> Checker<'a> {
    pub fn new(problem: &'a Problem, plan: &'a [Node]) -> Checker<'a> {
        Checker {
            problem,
            plan,
            deals: Deals::new(problem),
            unseen: unseen_of_each_rank(problem),
            settled: HashSet::default(),
            acts: Vec::new(),
        }
    }

    /// Returns the first game in which the plan fails.
    pub fn first_failure(&mut self) -> Option<Failure> {
        let place = if self.plan.is_empty() { None } else { Some(0) };
        self.failure_from(View::new(self.problem), place)
    }

    fn failure_from(&mut self, view: View, place: Place) -> Option<Failure> {
        if view.table.is_done(self.problem.target) {
            return self.failure_at_end(&view);
        }
        if self.settled.contains(&(view, place)) {
            return None;
        }
        let failure = match view.table.turn {
            Side::Owner => self.failure_of_owner(view, place),
            Side::Opponent => self.failure_of_opponent(view, place),
        };
        if failure.is_none() {
            self.settled.insert((view, place));
        }
        failure
    }

    fn failure_of_owner(&mut self, view: View, place: Place) -> Option<Failure> {
        let problem = self.problem;
        if view.fitting(problem).next().is_none() {
            return self.failure_after(Done::Own(None), view.after_own(problem, None), place);
        }
        if let Some(Node::Play(stated, next)) = place.map(|at| &self.plan[at]) {
            if let Some(at) = view.fitting(problem).find(|&at| problem.hold[at] == *stated) {
                return self.failure_after(Done::Own(Some(*stated)), view.after_own(problem, Some(at)), *next);
            }
        }
        let deal = self.deals.first(&view);
        Some(self.failure(Ending::Stuck, deal))
    }

    fn failure_of_opponent(&mut self, view: View, place: Place) -> Option<Failure> {
        for letter in 0..=GO {
            if view.may_show(&self.unseen, letter) {
                let next = match place.map(|at| &self.plan[at]) {
                    Some(Node::See(next)) => next[letter],
                    _ => place,
                };
                let after = view.after_shown(self.problem, letter);
                if let Some(failure) = self.failure_after(Done::Shown(letter), after, next) {
                    return Some(failure);
                }
            }
        }
        None
    }

    fn failure_after(&mut self, act: Done, view: View, place: Place) -> Option<Failure> {
        self.acts.push(act);
        let failure = self.failure_from(view, place);
        self.acts.pop();
        failure
    }

    fn failure_at_end(&mut self, view: &View) -> Option<Failure> {
        match decided(view.table.scores, self.problem.target) {
            Some(Ending::Reached) => None,
            Some(ending) => {
                let deal = self.deals.first(view);
                Some(self.failure(ending, deal))
            }
            None if self.deals.is_sure(view) => None,
            None => {
                let (deal, ending) = self.deals.first_unsure(view);
                Some(self.failure(ending, deal))
            }
        }
    }

    /// Returns the failure in a deal. Of equal ranks the opponent plays the first suit that is left.
    fn failure(&self, ending: Ending, deal: Deal) -> Failure {
        let mut acts = self.problem.played.clone();
        for done in &self.acts {
            let act = match *done {
                Done::Own(card) => Act { side: Side::Owner, card },
                Done::Shown(GO) => Act { side: Side::Opponent, card: None },
                Done::Shown(letter) => {
                    let is_left = |card: &&Card| !acts.iter().any(|act| act.card == Some(**card));
                    let of_rank = deal.hold.iter().filter(|card| card.rank as usize == letter);
                    Act { side: Side::Opponent, card: of_rank.copied().find(|card| is_left(&card)) }
                }
            };
            acts.push(act);
        }
        Failure { ending, deal, acts }
    }
}

impl Failure {
    /// Returns the answer for a plan that fails.
    pub fn text(&self) -> String {
        let ending = match self.ending {
            Ending::Reached => "reached",
            Ending::Stuck => "stuck",
            Ending::Lost => "lost",
            Ending::Short => "short",
        };
        let mut text = format!("fails {ending}\ngame 1\nhold {}\n", words(&self.deal.hold));
        text += &format!("throw {}\nacts {}\n", words(&self.deal.throw), self.acts.len());
        for act in &self.acts {
            let side = if act.side == Side::Owner { "own" } else { "opp" };
            let what = act.card.map_or("go".to_string(), |card| card.to_string());
            text += &format!("{side} {what}\n");
        }
        text
    }
}
