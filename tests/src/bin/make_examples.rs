//! Writes the example run files into examples/, each with the reference's listing beside it, and the CSV texts.

use std::fs;
use windshear_tests::examples::{examples, texts, FOLDER};
use windshear_tests::reference::listing;

fn main() -> std::io::Result<()> {
    fs::create_dir_all(FOLDER)?;
    for (name, file) in examples() {
        fs::write(format!("{FOLDER}/{name}.txt"), listing(&file))?;
        fs::write(format!("{FOLDER}/{name}.wsr"), file)?;
    }
    for (name, text) in texts() {
        fs::write(format!("{FOLDER}/{name}.csv"), text)?;
    }
    Ok(())
}
