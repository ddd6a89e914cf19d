//! What the calculator is tested with: the calculator a second time, from the documents' words alone (`naive` and what begins with it), cases
//! worked out by hand, inputs to try, sheets as people keep them, and comparisons that look at every cell of a lent buffer.

pub mod comparing;
pub mod known;
pub mod making;
pub mod naive;
pub mod naive_blocks;
pub mod naive_bytes;
pub mod naive_cuts;
pub mod naive_drawing;
pub mod naive_editions;
pub mod naive_figures;
pub mod naive_idle;
pub mod naive_joint;
pub mod naive_patterns;
pub mod naive_records;
pub mod naive_report;
pub mod naive_shares;
pub mod naive_vectors;
pub mod seeded;
pub mod stored;
