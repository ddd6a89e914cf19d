//! The desk program, end to end on real files: each test has a folder of its own and runs the built program there.

mod blocks;
mod changing;
mod comparing;
mod counting;
mod cutting;
mod editions;
mod entering;
mod explaining;
mod faults;
mod folder;
mod idle;
mod joint;
mod keeping;
mod manual;
mod markup;
mod pages;
mod patterns;
mod refusing;
mod retired;
mod script;
#[path = "../../desk/share.rs"]
mod share;
mod sheets;
mod showing;
mod streams;
mod supplied;
mod typed;
mod users;
mod words;
#[path = "../../desk/writing.rs"]
mod writing;
