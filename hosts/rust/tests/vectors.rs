// vectors.rs: the test files, whose answers were found from the papers by people and programs apart from this project:
// those of the base, which the program `test_vectors` runs too, and those of the change requests. The proved reading
// and the plain one are each asked all of them.
#[path = "vectors/base.rs"]
mod base;
#[path = "vectors/reading.rs"]
mod reading;
#[path = "vectors/requests.rs"]
mod requests;

use std::fs;
use std::path::{Path, PathBuf};

/// A path from the repository's root.
fn path(name: &str) -> PathBuf {
    Path::new(env!("CARGO_MANIFEST_DIR")).join("../..").join(name)
}

fn bytes_of(name: &str) -> Vec<u8> {
    fs::read(path(name)).unwrap_or_else(|error| panic!("{name}: {error}"))
}

fn text_of(name: &str) -> String {
    fs::read_to_string(path(name)).unwrap_or_else(|error| panic!("{name}: {error}"))
}

/// FNV-1a, 64 bits, over the little-endian bytes of the words.
fn hash(words: &[u64]) -> String {
    let bytes = words.iter().flat_map(|word| word.to_le_bytes());
    let sum =
        bytes.fold(0xcbf2_9ce4_8422_2325u64, |hash, byte| (hash ^ u64::from(byte)).wrapping_mul(0x0100_0000_01b3));
    format!("{sum:016x}")
}

/// A test for each question that is asked of a reading.
macro_rules! tests {
    ($($module:ident::$test:ident)*) => {
        $(
            #[test]
            fn $test() {
                crate::$module::$test::<Reader>();
            }
        )*
    };
}

macro_rules! ask {
    ($reading:ident) => {
        mod $reading {
            use crate::reading::$reading::Reader;

            tests! {
                base::answers_rooms_hashes_and_listings
                base::numbers
                requests::answers
                requests::hashes
                requests::rooms_and_listings
                requests::changes_of_the_base
                requests::questions
                requests::doubles
            }
        }
    };
}

ask!(proved);
ask!(plain);
