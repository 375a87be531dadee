//! Texts to judge: the limits, faults that meet on one line, random gadgets and worst texts.

pub mod damage;
pub mod draft;
pub mod faults;
pub mod folding;
pub mod formulas;
pub mod gadgets;
mod let_faults;
mod let_forms;
pub mod lets;
pub mod limits;
pub mod mix;
pub mod names;
pub mod pairing;
pub mod roots;
pub mod standing;
pub mod unknown;
pub mod worst;
