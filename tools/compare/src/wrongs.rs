//! Rules that can be broken, for tests of what a comparison sees.

use std::fmt::Debug;

/// Declares the rules, each once: `Wrong` with a case for each and one for none,
/// and `ALL` of them.
macro_rules! wrongs {
    ($($wrong:ident)*) => {
        /// A rule that is broken.
        #[derive(Clone, Copy, Debug, PartialEq, Eq)]
        pub enum Wrong {
            Nothing,
            $($wrong,)*
        }

        /// All that is broken.
        pub const ALL: &[Wrong] = &[$(Wrong::$wrong,)*];
    };
}

pub(crate) use wrongs;

/// The rules that are found nowhere; where each other one is found is printed.
pub fn lost<W: Copy + Debug>(all: &[W], mut found: impl FnMut(W) -> Option<String>) -> Vec<W> {
    let mut lost = Vec::new();
    for wrong in all.iter().copied() {
        match found(wrong) {
            Some(place) => println!("{wrong:?}: {place}"),
            None => lost.push(wrong),
        }
    }
    lost
}
