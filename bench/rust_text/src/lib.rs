//! STAND-IN. This file and `_impl_bdd/mod.rs` are not text of biodivine-lib-bdd: they are the least that its two files
//! `_impl_bdd/_impl_util.rs` and `_impl_bdd/_impl_approximation.rs` (MIT, LICENSE.txt; unchanged here) need in order to
//! compile, written from document 01. So `and`, `not` and the constructors of nodes are not the crate's, and a time that
//! goes through them (reduction, the cuts) says nothing of the crate's own `and`. Neither are `write_as_bytes` and `read_as_bytes`,
//! which have the form that the crate documents for its own.
#![allow(dead_code)]

use std::collections::{HashMap, HashSet};
use std::fmt::{Display, Formatter};

mod _impl_bdd;

pub use _impl_bdd::ands;

#[derive(Clone, Debug, Eq, Hash, PartialEq)]
pub struct Bdd(Vec<BddNode>);

#[derive(Clone, Copy, Debug, Eq, Hash, Ord, PartialEq, PartialOrd)]
pub struct BddVariable(u16);

#[derive(Clone, Copy, Debug, Eq, Hash, Ord, PartialEq, PartialOrd)]
pub struct BddPointer(u32);

#[derive(Clone, Copy, Debug, Eq, Hash, PartialEq)]
pub struct BddNode {
    pub var: BddVariable,
    pub low_link: BddPointer,
    pub high_link: BddPointer,
}

pub struct BddValuation(Vec<bool>);

pub struct BddPartialValuation(Vec<Option<bool>>);

pub struct BddVariableSet {
    var_names: Vec<String>,
}

pub mod boolean_expression {
    #[derive(Clone, Debug, Eq, PartialEq)]
    pub enum BooleanExpression {
        Const(bool),
        Variable(String),
        Not(Box<BooleanExpression>),
        And(Box<BooleanExpression>, Box<BooleanExpression>),
        Or(Box<BooleanExpression>, Box<BooleanExpression>),
    }
}

/// Named by `substitute`, which is never called here.
pub mod op_function {
    pub fn and(l: Option<bool>, r: Option<bool>) -> Option<bool> {
        match (l, r) {
            (Some(true), Some(true)) => Some(true),
            (Some(false), _) | (_, Some(false)) => Some(false),
            _ => None,
        }
    }
}

impl BddPointer {
    pub fn zero() -> BddPointer {
        BddPointer(0)
    }
    pub fn one() -> BddPointer {
        BddPointer(1)
    }
    pub fn is_zero(&self) -> bool {
        self.0 == 0
    }
    pub fn is_one(&self) -> bool {
        self.0 == 1
    }
    pub fn is_terminal(&self) -> bool {
        self.0 < 2
    }
    pub fn to_index(self) -> usize {
        self.0 as usize
    }
    pub fn from_index(index: usize) -> BddPointer {
        BddPointer(index as u32)
    }
}

impl BddVariable {
    pub fn to_index(self) -> usize {
        self.0 as usize
    }
    pub fn from_index(index: usize) -> BddVariable {
        BddVariable(index as u16)
    }
}

impl Display for BddVariable {
    fn fmt(&self, f: &mut Formatter<'_>) -> std::fmt::Result {
        write!(f, "{}", self.0)
    }
}

impl BddNode {
    pub fn mk_node(var: BddVariable, low_link: BddPointer, high_link: BddPointer) -> BddNode {
        BddNode { var, low_link, high_link }
    }
    pub fn mk_zero(num_vars: u16) -> BddNode {
        BddNode::mk_node(BddVariable(num_vars), BddPointer(0), BddPointer(0))
    }
    pub fn mk_one(num_vars: u16) -> BddNode {
        BddNode::mk_node(BddVariable(num_vars), BddPointer(1), BddPointer(1))
    }
    pub fn is_zero(&self) -> bool {
        *self == BddNode::mk_zero(self.var.0)
    }
    pub fn is_one(&self) -> bool {
        *self == BddNode::mk_one(self.var.0)
    }
}

impl BddValuation {
    fn new(values: Vec<bool>) -> BddValuation {
        BddValuation(values)
    }
}

impl BddPartialValuation {
    fn to_values(&self) -> Vec<(BddVariable, bool)> {
        let fixed = |(i, x): (usize, &Option<bool>)| x.map(|x| (BddVariable::from_index(i), x));
        self.0.iter().enumerate().filter_map(fixed).collect()
    }
}
