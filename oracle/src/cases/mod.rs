//! The recorded cases, a module for each family: lines `case numbers = answer numbers`.
//!
//! The first number of a case is the call. Calls 1, 2 and 3 fill a buffer and answer nothing; buffers keep their content
//! from case to case. A word of 64 bits is given as its high and its low 32 bits, and answered as one number; one of 128
//! bits is given and answered low half first. A call that writes answers all bytes of its buffer.
//!
//! Inside the domain of document 01 the answer is the original's; where that differs from 01, the head of the family says
//! by which way it is asked. Outside it the original is not asked: the line is 01's refusal. What 01 adds is answered by
//! the plain reading of 01, held to the original as far as that goes.

pub mod lines;
mod original;
pub mod plain;
pub mod refusals;
pub mod samples;

pub mod codes;
pub mod field_failures;
pub mod order;
pub mod order_cases;
pub mod store_cases;
pub mod stores;
pub mod stream_cases;
pub mod streams;
pub mod view_cases;
pub mod views;
