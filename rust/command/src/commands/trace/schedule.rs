//! A schedule as words.

use std::ffi::{OsStr, OsString};
use trace::{Turn, MAX_STEPS};

/// The highest thread number that a step can name.
const HIGHEST: u8 = 15;

/// Reads the steps; an error says which word is none.
pub fn read(words: &[OsString]) -> Result<Vec<Turn>, String> {
    if words.len() > MAX_STEPS {
        return Err(format!("more than {MAX_STEPS} steps"));
    }
    words
        .iter()
        .map(|word| turn(word).ok_or_else(|| format!("{} is no step", word.to_string_lossy())))
        .collect()
}

/// `3`, or `3!` where an allocation fails.
fn turn(word: &OsStr) -> Option<Turn> {
    let word = word.to_str()?;
    let (number, fails) = match word.strip_suffix('!') {
        Some(number) => (number, true),
        None => (word, false),
    };
    let digits = number.bytes().all(|byte| byte.is_ascii_digit());
    let thread: u8 = number.parse().ok().filter(|_| digits)?;
    (thread <= HIGHEST).then(|| Turn::new(thread, fails))
}

#[cfg(test)]
mod tests {
    use super::*;

    #[test]
    fn words_are_steps() {
        let words = ["0", "7!", "15"].map(OsString::from);
        let turns = [
            Turn::new(0, false),
            Turn::new(7, true),
            Turn::new(15, false),
        ];
        assert_eq!(read(&words), Ok(turns.to_vec()));
    }

    #[test]
    fn other_words_are_none() {
        for word in ["", "!", "x", "-1", "+1", "1!!", "!1", "16", "256", "1 2"] {
            assert_eq!(read(&[word.into()]), Err(format!("{word} is no step")));
        }
        let many = vec![OsString::from("0"); MAX_STEPS + 1];
        assert_eq!(read(&many), Err("more than 4096 steps".to_string()));
    }
}
