//! The second program's reader, walks and file maker, taken as they stand.
#![allow(dead_code)]

#[path = "../../second/src/answers.rs"]
pub mod answers;
#[path = "../../second/src/files.rs"]
pub mod files;
#[path = "../../second/src/forest.rs"]
pub mod forest;
#[path = "../../second/src/house.rs"]
pub mod house;
#[path = "../../second/src/index.rs"]
pub mod index;
#[path = "../../second/src/questions.rs"]
pub mod questions;
#[path = "../../second/src/rng.rs"]
pub mod rng;
#[path = "../../second/src/shapes.rs"]
pub mod shapes;
#[path = "../../second/src/walks.rs"]
pub mod walks;
#[path = "../../second/src/word.rs"]
pub mod word;
