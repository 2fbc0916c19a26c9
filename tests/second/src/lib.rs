//! A second implementation of document 01, and of document 02's jobs 1, 2 and 4 to 8, which shares no code with the product: it was written from the papers'
//! text and, for document 02, the settled readings of it, and follows the text word for word, without regard to time. A sentence in quotation marks in a
//! comment is the papers'. Where they say consignment, numbering, grounds list, judge, packed sheet, struck condition, hold, cap, crowd, move and kept count,
//! the code says class, assignment, refutation, evaluator, canonical bytes, withdrawn condition, zero lot, limit, clique, reassignment and running count.
pub mod answer;
pub mod cases;
pub mod class_limit;
pub mod count;
pub mod evaluator;
pub mod limits;
pub mod merge;
pub mod node;
pub mod reader;
pub mod reassign;
pub mod refutation;
pub mod repack;
pub mod search;
pub mod sheet;
pub mod store;
pub mod writer;

pub use answer::{Answer, Refusal};
pub use count::count_unmet;
pub use evaluator::evaluate;
pub use merge::merge;
pub use reader::read;
pub use reassign::reassign;
pub use refutation::{check, check_limited};
pub use repack::repack;
pub use search::{search, search_limited};
