//! `to_fact HEX FOLDER` writes the sheet as sheet.kb and sheet.conf into the folder; `FaCT++ sheet.conf`, run there,
//! then tells whether it is consistent.

use measure::{fact, hex};
use second::sheet::read;
use std::path::Path;
use std::process::ExitCode;

fn main() -> ExitCode {
    let words: Vec<String> = std::env::args().skip(1).collect();
    let [text, folder] = &words[..] else {
        eprintln!("usage: to_fact HEX FOLDER");
        return ExitCode::from(2);
    };
    let Some(sheet) = hex::bytes(text).and_then(|bytes| read(&bytes).ok()) else {
        eprintln!("to_fact: not a sheet");
        return ExitCode::from(1);
    };
    let folder = Path::new(folder);
    let written = std::fs::write(folder.join("sheet.kb"), fact::knowledge(&sheet))
        .and_then(|_| std::fs::write(folder.join("sheet.conf"), fact::settings("sheet.kb")));
    match written {
        Ok(()) => ExitCode::SUCCESS,
        Err(error) => {
            eprintln!("to_fact: {error}");
            ExitCode::from(1)
        }
    }
}
