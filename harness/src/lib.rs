//! Tests of the exported library: an independent model of documents 01 and 02, the test vectors,
//! generated input and measurements of speed.

pub mod baseline;
pub mod board;
pub mod compare;
pub mod coverage;
pub mod generate;
pub mod json;
pub mod model;
pub mod random;
pub mod scenario;
pub mod sha256;
pub mod side;
