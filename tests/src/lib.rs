//! What the tests share. They call the library through the safe Rust of `bindings/rust`, and through its `raw` calls where they lend what no
//! call has made, or look at what a call turned away has left.
pub mod areas;
pub mod built;
pub mod nine_seven_back;
pub mod nine_seven_level;
pub mod filter;
pub mod grid;
pub mod ground;
pub mod test_exports;
pub mod listing;
pub mod maps;
pub mod nine_seven;
pub mod order;
pub mod play;
pub mod programs;
pub mod random;
pub mod reader;
pub mod reference;
pub mod tolerant;
pub mod writer;

use terrain::{Call, Question};

/// What an out-parameter holds before a call.
pub const UNSET: usize = 0x1234_5678;

/// The refusal of a call by that question.
pub fn refusal<T>(call: Call, number: u32) -> Result<T, Question> {
    Err(Question { call, number })
}

/// The number of the question alone, which names the call that was made.
fn numbered<T>(answer: Result<T, Question>, call: Call) -> Result<T, u32> {
    answer.map_err(|question| {
        assert_eq!(question.call, call);
        question.number
    })
}
