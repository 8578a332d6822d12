//! Formulas as trees, with their texts and nodes by plain words: another way than that of the two calls.

use crate::make::{label, not, rule, NodeFields, Numbers, A, AT_LEAST, AT_MOST, E, EXACTLY, TRUE};
use std::rc::Rc;

#[derive(Clone)]
pub enum Formula {
    True,
    Label(u16),
    Not(Rc<Formula>),
    And(Rc<Formula>, Rc<Formula>),
    Or(Rc<Formula>, Rc<Formula>),
    /// Operation, bound kind and c.
    Until(u8, u8, u16, Rc<Formula>, Rc<Formula>),
}

use Formula::{And, Label, Not, Or, True, Until};

const BOUNDS: [u16; 12] = [0, 1, 9, 10, 14, 99, 100, 999, 1_000, 9_999, 10_000, 65_535];
const EXACT_BOUNDS: [u16; 12] = [0, 1, 9, 10, 14, 99, 100, 199, 200, 249, 250, 255];

impl Formula {
    pub fn text(&self) -> String {
        match self {
            True => "true".to_string(),
            Label(j) => format!("L{j}"),
            Not(f) => format!("!{}", f.text()),
            And(f, g) => format!("({} & {})", f.text(), g.text()),
            Or(f, g) => format!("({} | {})", f.text(), g.text()),
            Until(operation, kind, c, f, g) => {
                let quantifier = if *operation == E { 'E' } else { 'A' };
                let sign = match *kind {
                    AT_MOST => "<=",
                    AT_LEAST => ">=",
                    _ => "==",
                };
                format!("{quantifier}({} U{sign}{c} {})", f.text(), g.text())
            }
        }
    }

    pub fn count(&self) -> usize {
        match self {
            True | Label(_) => 1,
            Not(f) => 1 + f.count(),
            And(f, g) | Or(f, g) | Until(_, _, _, f, g) => 1 + f.count() + g.count(),
        }
    }

    /// Operands before their node; `right_first` is asked at each node that has two.
    pub fn rule(&self, right_first: &mut dyn FnMut() -> bool) -> Vec<u8> {
        let mut nodes = Vec::new();
        self.put(&mut nodes, right_first);
        rule(&nodes)
    }

    /// Puts the nodes behind those that are there, its top last, and answers the number of the top.
    fn put(&self, nodes: &mut Vec<NodeFields>, right_first: &mut dyn FnMut() -> bool) -> u16 {
        let node = match self {
            True => TRUE,
            Label(j) => label(*j),
            Not(f) => not(f.put(nodes, right_first)),
            And(f, g) => Formula::node_of_two((3, 0, 0), [f, g], nodes, right_first),
            Or(f, g) => Formula::node_of_two((4, 0, 0), [f, g], nodes, right_first),
            Until(operation, kind, c, f, g) => {
                Formula::node_of_two((*operation, *kind, *c), [f, g], nodes, right_first)
            }
        };
        nodes.push(node);
        nodes.len() as u16 - 1
    }

    fn node_of_two(
        (operation, kind, c): (u8, u8, u16),
        [f, g]: [&Formula; 2],
        nodes: &mut Vec<NodeFields>,
        right_first: &mut dyn FnMut() -> bool,
    ) -> NodeFields {
        match right_first() {
            false => (operation, kind, f.put(nodes, right_first), g.put(nodes, right_first), c),
            true => {
                let b = g.put(nodes, right_first);
                (operation, kind, f.put(nodes, right_first), b, c)
            }
        }
    }
}

/// A formula of so many nodes.
pub fn some_formula(numbers: &mut Numbers, count: usize) -> Formula {
    if count == 1 {
        return if numbers.below(3) == 0 { True } else { Label(numbers.below(16) as u16) };
    }
    if count == 2 || numbers.below(4) == 0 {
        return Not(Rc::new(some_formula(numbers, count - 1)));
    }
    let left = 1 + numbers.below(count as u64 - 2) as usize;
    let (f, g) = (Rc::new(some_formula(numbers, left)), Rc::new(some_formula(numbers, count - 1 - left)));
    match numbers.below(6) {
        0 => And(f, g),
        1 => Or(f, g),
        either => {
            let operation = if either % 2 == 0 { E } else { A };
            let kind = [AT_MOST, AT_LEAST, EXACTLY][numbers.below(3) as usize];
            let bounds = if kind == EXACTLY { EXACT_BOUNDS } else { BOUNDS };
            Until(operation, kind, bounds[numbers.below(12) as usize], f, g)
        }
    }
}

/// So many nots before a text.
pub fn nots(count: usize, text: &str) -> String {
    "!".repeat(count) + text
}
