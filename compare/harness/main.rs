//! Stand-in for the crate root, and the program around the drivers.
#![allow(dead_code, unused_imports, unreachable_pub, unpredictable_function_pointer_comparisons)]

mod compute;
mod geometry;
mod sheet;
mod style;
mod style_helpers;
mod util;

pub(crate) use geometry::*;
pub(crate) use style::*;
pub(crate) use util::sys;

/// Stand-in for the crate's prelude.
pub(crate) mod prelude {
    pub(crate) use crate::style_helpers::*;
}

mod batch;

fn main() {
    std::panic::set_hook(Box::new(|_| {}));
    let words: Vec<String> = std::env::args().skip(1).collect();
    match words.first().map(String::as_str) {
        Some("--engine") => compute::grid::engine::run(std::io::stdin().lock()),
        _ => batch::run(words),
    }
}
