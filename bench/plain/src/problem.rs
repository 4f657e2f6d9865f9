//! Problems and plans: reading, and writing a plan. An input that isn't as it should be is refused with few words.

use crate::cards::{deck, Card, RANKS};
use crate::play::{Side, LAST_HOLE};

pub type Refused = String;
pub const GO: usize = 13;

/// What is known when the plan begins, and what is wanted.
pub struct Problem {
    pub dealer: Side,
    pub scores: [u8; 2],
    pub starter: Card,
    pub hold: Vec<Card>,
    pub throw: Vec<Card>,
    pub target: u8,
    pub is_stop: bool,
    pub played: Vec<Act>,
}

/// A card that a side plays, or a go.
#[derive(Clone, Copy)]
pub struct Act {
    pub side: Side,
    pub card: Option<Card>,
}

/// The place of a plan: a node, or the end.
pub type Place = Option<usize>;

#[derive(Clone, PartialEq, Eq, Hash)]
pub enum Node {
    Play(Card, Place),
    See([Place; 14]),
}

impl Problem {
    /// Returns the cards that the owner hasn't seen when the play begins, in their order.
    pub fn unseen(&self) -> Vec<Card> {
        let is_known = |card: &Card| *card == self.starter || self.hold.contains(card) || self.throw.contains(card);
        deck().filter(|card| !is_known(card)).collect()
    }
}

/// The lines of an input, read one after another.
pub struct Lines<'a>(std::str::Lines<'a>);

impl<'a> Lines<'a> {
    pub fn new(text: &'a str) -> Lines<'a> {
        Lines(text.lines())
    }

    fn words(&mut self) -> Result<Vec<&'a str>, Refused> {
        Ok(self.0.next().ok_or("cut short")?.split(' ').collect())
    }

    fn after(&mut self, keyword: &str) -> Result<Vec<&'a str>, Refused> {
        let words = self.words()?;
        if words[0] != keyword {
            return Err(format!("{} in place of {keyword}", words[0]));
        }
        Ok(words[1..].to_vec())
    }

    fn number(&mut self, keyword: &str) -> Result<usize, Refused> {
        number(self.after(keyword)?.first().copied().unwrap_or(""))
    }

    fn cards(&mut self, keyword: &str, count: usize) -> Result<Vec<Card>, Refused> {
        let cards: Result<Vec<Card>, Refused> = self.after(keyword)?.into_iter().map(card).collect();
        cards.and_then(|cards| if cards.len() == count { Ok(cards) } else { Err("cards are missing".to_string()) })
    }
}

fn number(word: &str) -> Result<usize, Refused> {
    word.parse().map_err(|_| format!("{word} is no number"))
}

fn card(word: &str) -> Result<Card, Refused> {
    Card::read(word).ok_or(format!("{word} is no card"))
}

pub fn read_problem(lines: &mut Lines) -> Result<Problem, Refused> {
    let version = lines.number("problem")?;
    let dealer = if lines.after("dealer")? == ["owner"] { Side::Owner } else { Side::Opponent };
    let scores: Vec<usize> = lines.after("score")?.into_iter().map(number).collect::<Result<_, _>>()?;
    let [own, opponent] = scores[..] else { return Err("two scores are wanted".to_string()) };
    if own.max(opponent) >= LAST_HOLE as usize {
        return Err("a score is above 120".to_string());
    }
    let starter = lines.cards("starter", 1)?[0];
    let hold = lines.cards("hold", 4)?;
    let throw = lines.cards("throw", 2)?;
    let goal = lines.after("goal")?;
    let target = match goal[..] {
        ["holes", holes] => own + number(holes)?,
        _ => LAST_HOLE as usize,
    };
    let mut problem = Problem {
        dealer,
        scores: [own as u8, opponent as u8],
        starter,
        hold,
        throw,
        target: target.min(LAST_HOLE as usize) as u8,
        is_stop: goal == ["stop"],
        played: Vec::new(),
    };
    if version == 2 {
        for _ in 0..lines.number("played")? {
            problem.played.push(read_act(lines)?);
        }
    }
    Ok(problem)
}

fn read_act(lines: &mut Lines) -> Result<Act, Refused> {
    let words = lines.words()?;
    let [side, what] = words[..] else { return Err("an act has two words".to_string()) };
    let side = if side == "own" { Side::Owner } else { Side::Opponent };
    Ok(Act { side, card: if what == "go" { None } else { Some(card(what)?) } })
}

pub fn read_plan(lines: &mut Lines) -> Result<Vec<Node>, Refused> {
    lines.number("plan")?;
    let nodes = lines.number("nodes")?;
    (0..nodes).map(|_| read_node(lines)).collect()
}

fn read_node(lines: &mut Lines) -> Result<Node, Refused> {
    let words = lines.words()?;
    match words[1..] {
        ["play", stated, "end"] => Ok(Node::Play(card(stated)?, None)),
        ["play", stated, next] => Ok(Node::Play(card(stated)?, Some(number(next)?))),
        ["see", ref branches @ ..] => {
            let mut next = [None; 14];
            for branch in branches {
                let (letters, target) = branch.split_once(':').ok_or("a branch has no colon")?;
                for letter in letters.chars() {
                    let shown = if letter == 'g' { Some(GO) } else { RANKS.find(letter) };
                    next[shown.ok_or("no letter")?] = Some(number(target)?);
                }
            }
            Ok(Node::See(next))
        }
        _ => Err("no node".to_string()),
    }
}

/// Returns the text of a plan.
pub fn plan_text(plan: &[Node]) -> String {
    let mut text = format!("plan 1\nnodes {}\n", plan.len());
    for (at, node) in plan.iter().enumerate() {
        text += &match node {
            Node::Play(card, None) => format!("{at} play {card} end\n"),
            Node::Play(card, Some(next)) => format!("{at} play {card} {next}\n"),
            Node::See(next) => format!("{at} see{}\n", branches(next)),
        };
    }
    text
}

/// Returns the branches of a look, those with one target as one.
fn branches(next: &[Place; 14]) -> String {
    let mut branches: Vec<(usize, String)> = Vec::new();
    for (letter, target) in RANKS.chars().chain(['g']).zip(next) {
        let Some(target) = *target else { continue };
        match branches.iter_mut().find(|(other, _)| *other == target) {
            Some((_, letters)) => letters.push(letter),
            None => branches.push((target, letter.to_string())),
        }
    }
    branches.iter().map(|(target, letters)| format!(" {letters}:{target}")).collect()
}
