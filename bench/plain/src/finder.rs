//! `solve`: a search for a sure plan. Equal positions are decided once, and equal nodes are kept once.

use std::collections::HashMap;

use crate::hash::Build;
use crate::play::{decided, Ending, Side};
use crate::problem::{Node, Place, Problem, GO};
use crate::show::Deals;
use crate::view::{unseen_of_each_rank, View};

pub struct Finder<'a> {
    problem: &'a Problem,
    deals: Deals<'a>,
    unseen: [u8; 13],
    /// Of each view that was decided the place from which a plan is sure, if there is one.
    places: HashMap<View, Option<Place>, Build>,
    nodes: Vec<Node>,
    numbers: HashMap<Node, usize, Build>,
}

impl<'a> Finder<'a> {
    pub fn new(problem: &'a Problem) -> Finder<'a> {
        Finder {
            problem,
            deals: Deals::new(problem),
            unseen: unseen_of_each_rank(problem),
            places: HashMap::default(),
            nodes: Vec::new(),
            numbers: HashMap::default(),
        }
    }

    /// Returns a sure plan, if there is one.
    pub fn plan(&mut self) -> Option<Vec<Node>> {
        let first = self.place(View::new(self.problem))?;
        Some(numbered(&self.nodes, first))
    }

    fn place(&mut self, view: View) -> Option<Place> {
        if view.table.is_done(self.problem.target) {
            return self.is_sure_at_end(&view).then_some(None);
        }
        if let Some(known) = self.places.get(&view) {
            return *known;
        }
        let found = match view.table.turn {
            Side::Owner => self.place_of_owner(view),
            Side::Opponent => self.place_of_opponent(view),
        };
        self.places.insert(view, found);
        found
    }

    fn is_sure_at_end(&mut self, view: &View) -> bool {
        match decided(view.table.scores, self.problem.target) {
            Some(ending) => ending == Ending::Reached,
            None => self.deals.is_sure(view),
        }
    }

    /// The owner plays the first card after which a plan is sure. Equal ranks are tried once.
    fn place_of_owner(&mut self, view: View) -> Option<Place> {
        let problem = self.problem;
        if view.fitting(problem).next().is_none() {
            return self.place(view.after_own(problem, None));
        }
        let mut tried = [false; 13];
        for at in view.fitting(problem) {
            let card = problem.hold[at];
            if std::mem::replace(&mut tried[card.rank as usize], true) {
                continue;
            }
            if let Some(next) = self.place(view.after_own(problem, Some(at))) {
                return Some(Some(self.kept(Node::Play(card, next))));
            }
        }
        None
    }

    /// A plan has to be sure after each letter, and looks only if it must.
    fn place_of_opponent(&mut self, view: View) -> Option<Place> {
        let mut next = [None; 14];
        for letter in 0..=GO {
            if view.may_show(&self.unseen, letter) {
                next[letter] = self.place(view.after_shown(self.problem, letter))?;
            }
        }
        let mut led_to = next.iter().flatten();
        let Some(&first) = led_to.next() else { return Some(None) };
        if led_to.all(|&other| other == first) && matches!(self.nodes[first], Node::Play(..)) {
            return Some(Some(first));
        }
        Some(Some(self.kept(Node::See(next))))
    }

    /// Returns the number of a node. Equal nodes have one number.
    fn kept(&mut self, node: Node) -> usize {
        *self.numbers.entry(node).or_insert_with_key(|node| {
            self.nodes.push(node.clone());
            self.nodes.len() - 1
        })
    }
}

/// Returns the plan from a place on. Nodes are numbered backwards as a walk leaves them, branches in their order.
fn numbered(nodes: &[Node], first: Place) -> Vec<Node> {
    fn walk(nodes: &[Node], place: Place, has_left: &mut [bool], left: &mut Vec<usize>) {
        let Some(at) = place else { return };
        if has_left[at] {
            return;
        }
        match &nodes[at] {
            Node::Play(_, next) => walk(nodes, *next, has_left, left),
            Node::See(next) => next.iter().for_each(|next| walk(nodes, *next, has_left, left)),
        }
        has_left[at] = true;
        left.push(at);
    }

    let mut left = Vec::new();
    walk(nodes, first, &mut vec![false; nodes.len()], &mut left);
    let mut number = vec![0; nodes.len()];
    for (order, &at) in left.iter().rev().enumerate() {
        number[at] = order;
    }
    let renumbered = |place: Place| place.map(|at| number[at]);
    left.iter()
        .rev()
        .map(|&at| match &nodes[at] {
            Node::Play(card, next) => Node::Play(*card, renumbered(*next)),
            Node::See(next) => Node::See(next.map(renumbered)),
        })
        .collect()
}
