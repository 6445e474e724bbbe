//! The worked cases of the papers, and the steps of the changes worked out by hand on small disks. Each case runs on
//! the model and, with the feature `proved`, on the proved library.

/// Makes two tests of each case: on the model, and on the proved library.
macro_rules! both {
    ($($case:ident),* $(,)?) => {
        mod on_the_model {
            $(#[test]
            fn $case() {
                super::$case::<ovenknit_host::model::Model>();
            })*
        }

        #[cfg(feature = "proved")]
        mod on_the_proved_library {
            $(#[test]
            fn $case() {
                super::$case::<ovenknit_host::ffi::Proved>();
            })*
        }
    };
}

mod alike;
mod bytes;
mod differences;
mod disk;
mod growth;
mod half_cleared;
mod limits;
mod looks;
mod paper;
mod report;
mod runs;
mod safe;
mod settings;
mod small;
mod space;
mod stored;
