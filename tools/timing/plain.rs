//! A plain listing over the crate, from standard input to standard output, to be timed beside ours.

#[path = "../oracle/src/listing.rs"]
mod listing;
// The listing needs a few of the crate's names and values, and the oracle needs the rest.
#[allow(dead_code)]
#[path = "../oracle/src/names.rs"]
mod names;
#[allow(dead_code)]
#[path = "../oracle/src/values.rs"]
mod values;

use std::io::{stdin, stdout};

fn main() {
    listing::list(stdin().lock(), stdout().lock()).expect("both can be read and written");
}
