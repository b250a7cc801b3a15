//! Asks the original and ours the same questions, and compares every number and every byte of their answers.
//!
//! The cases and the original's answers are those of `oracle::cases`: in the domain of document 01 the original's own, outside
//! it 01's refusals. The recorded cases come first, then short inputs one and all, then random ones around every boundary.

mod asked;
mod ours;
mod panics;
mod tally;

use oracle::cases::lines::{Line, listen};
use oracle::cases::{codes, field_failures, order_cases, store_cases, stream_cases, view_cases};
use ours::Ours;
use std::{cell::RefCell, process::ExitCode, rc::Rc};
use tally::{Tally, With};

fn main() -> ExitCode {
    let tally = Rc::new(RefCell::new(Tally::default()));
    let (mut ours, counted) = (Ours::default(), Rc::clone(&tally));
    listen(move |line| match line {
        Line::Case(numbers, answer) => counted.borrow_mut().case(&mut ours, numbers, answer),
        Line::Compared(numbers, answers) => {
            counted.borrow_mut().compared(&mut ours, numbers, answers)
        }
        Line::Stepped(numbers, entries) => {
            counted
                .borrow_mut()
                .stepped(&ours, numbers, entries, With::Original)
        }
        _ => ours.fill(line),
    });
    field_failures::print();
    codes::print();
    view_cases::print();
    order_cases::print();
    store_cases::print();
    stream_cases::print();
    asked::short();
    asked::random();
    panics::compare(&mut tally.borrow_mut());
    tally.borrow().report()
}
