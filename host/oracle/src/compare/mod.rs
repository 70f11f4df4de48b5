//! The comparisons: each group makes its inputs, asks the model, calls the library, and compares all that was lent.

mod degree;
mod execute;
mod execute_inputs;
mod group;
mod hash;
mod inputs;
mod limit;
mod links;
mod parked;
mod past_32_bits;
mod policies;
mod product;
mod record;
mod replay;
mod running;
mod step_back;
mod texts;
mod trace_inputs;
mod word_inputs;
mod words;
mod written;

use crate::report::{watch_for_crashes, Run};

pub use written::write;

pub fn run(run: &Run) {
    watch_for_crashes();
    execute::run(run);
    policies::run(run);
    group::run(run);
    product::run(run);
    hash::run(run);
    running::run(run);
    limit::run(run);
    parked::run(run);
    links::run(run);
    step_back::run(run);
    degree::run(run);
    words::run(run);
    texts::run(run);
    record::run(run);
    replay::run(run);
    past_32_bits::run(run);
}
