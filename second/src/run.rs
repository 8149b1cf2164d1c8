//! Unending runs that come to repeat themselves: what they show or break by 01's rules, and
//! whether the rows and edges of a listing trace a beginning of them.

use crate::formula::{Formula, Node};
use crate::listing::Listing;
use crate::table::Step;

/// The steps once, then those from `again` on without end.
pub struct Run {
    steps: Vec<Step>,
    again: usize,
}

impl Run {
    /// Steps that join each other and, from the last to the one at `again`, close.
    pub fn new(steps: Vec<Step>, again: usize) -> Run {
        let joined = |pair: &[Step]| pair[0].to == pair[1].from;
        assert!(steps.windows(2).all(joined));
        assert_eq!(steps[steps.len() - 1].to, steps[again].from);
        Run { steps, again }
    }

    fn next(&self, number: usize) -> usize {
        match number + 1 == self.steps.len() {
            true => self.again,
            false => number + 1,
        }
    }

    /// The numbers from one on, as places in `steps`, until all that lie ahead have come.
    fn onward(&self, number: usize) -> impl Iterator<Item = usize> {
        let onward = std::iter::successors(Some(number), |&number| Some(self.next(number)));
        onward.take(self.steps.len())
    }

    /// A class 1 node is shown, a class 2 node broken: one question, since the class says which.
    pub fn explains(&self, formula: &Formula, node: usize, number: usize) -> bool {
        let label = |number: usize| self.steps[number].label;
        match formula.nodes[node] {
            Node::True => true,
            Node::Not(arm) => self.explains(formula, arm, number),
            Node::Or(left, right) => {
                self.explains(formula, left, number) || self.explains(formula, right, number)
            }
            Node::Next(condition, arm) => {
                condition.meets(label(number)) && self.explains(formula, arm, self.next(number))
            }
            Node::Until(set, arm) => {
                let mut passed = true;
                self.onward(number).any(|number| {
                    let met = passed && self.explains(formula, arm, number);
                    passed &= set.passes(label(number));
                    met
                })
            }
            Node::UntilThen(set, then, arm) => {
                let mut passed = true;
                self.onward(number).any(|number| {
                    let met = passed
                        && then.has(label(number))
                        && self.explains(formula, arm, self.next(number));
                    passed &= set.passes(label(number));
                    met
                })
            }
            Node::AllNext(condition, arm) => {
                // `T` is broken at none.
                let arm_is_broken = || {
                    formula.nodes[arm] != Node::True
                        && self.explains(formula, arm, self.next(number))
                };
                !condition.meets(label(number)) || arm_is_broken()
            }
        }
    }

    /// 01: "The rows and edges ... trace the first n steps of a run", for some n.
    pub fn is_traced(&self, listing: &Listing) -> bool {
        let mut seen = vec![vec![false; self.steps.len()]; listing.rows.len()];
        let mut unvisited = vec![(0, 0)];
        while let Some((row, number)) = unvisited.pop() {
            let step = self.steps[number];
            let listed = listing.rows[row];
            let known = std::mem::replace(&mut seen[row][number], true);
            if known || listed.state != step.from {
                continue;
            }
            if listed.is_final {
                return true;
            }
            let edges = listing.edges_from(row as u16).iter();
            let along = edges.filter(|edge| edge.label == step.label);
            unvisited.extend(along.map(|edge| (edge.target as usize, self.next(number))));
        }
        false
    }
}
