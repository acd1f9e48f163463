//! `families` prints the constructed sheets, as they stand in sheets.txt.

use measure::family;

fn main() {
    for line in family::lines() {
        println!("{line}");
    }
}
