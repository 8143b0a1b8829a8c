//! `survey-case`: the image of `x: if x == null then let y = x; in y else x`.

use super::comparison::hex;
use super::{DONE, FAILED};
use crate::notation::survey_case;

pub fn print() -> u8 {
    println!("{}", hex(&survey_case().encode()));
    DONE
}

pub fn write(file: &str) -> u8 {
    match std::fs::write(file, survey_case().encode()) {
        Ok(()) => DONE,
        Err(error) => {
            eprintln!("{file}: {error}");
            FAILED
        }
    }
}
