//! Scripts from files.

use std::fs;
use std::io::{self, Write};

use crate::compare::{MEMORY, Sides};
use crate::error::Error;
use crate::oracle;

pub fn play(file: &str) -> Result<(), Error> {
    let answers = oracle::play(&read(file)?, Vec::new())?;
    io::stdout()
        .write_all(&answers)
        .map_err(|e| Error::File("standard output".to_owned(), e))
}

pub fn check(files: &[&str]) -> Result<(), Error> {
    let mut sides = Sides::open(MEMORY)?;
    for file in files {
        sides.check(&read(file)?)?;
    }
    println!("scripts: {}, all answers equal", files.len());
    Ok(())
}

fn read(file: &str) -> Result<Vec<u8>, Error> {
    fs::read(file).map_err(|e| Error::File(file.to_owned(), e))
}
