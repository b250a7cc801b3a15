//! Prints the recorded cases; `oracle/record` writes them to where they are replayed from.

use oracle::cases::{codes, field_failures, order_cases, store_cases, stream_cases, view_cases};

fn main() {
    field_failures::print();
    codes::print();
    view_cases::print();
    order_cases::print();
    store_cases::print();
    stream_cases::print();
}
