//! A file and a list of levels as words.

use super::Command;
use std::ffi::{OsStr, OsString};

/// The file, and the list if there is one.
pub fn read<'a>(
    command: &Command,
    words: &'a [OsString],
) -> Result<(&'a OsStr, Option<Vec<u8>>), String> {
    match words {
        [file] => Ok((file, None)),
        [file, list] => match numbers(list) {
            Some(levels) => Ok((file, Some(levels))),
            None => {
                let list = list.to_string_lossy();
                Err(command.complaint(&format!("{list} is no list of levels")))
            }
        },
        [] => Err(command.complaint("no file")),
        _ => Err(command.complaint("more than a file and a list of levels")),
    }
}

/// Numbers 0 to 255 joined by commas, however many; an empty word has none.
fn numbers(word: &OsStr) -> Option<Vec<u8>> {
    match word.to_str()? {
        "" => Some(vec![]),
        list => list.split(',').map(number).collect(),
    }
}

fn number(word: &str) -> Option<u8> {
    let digits = word.bytes().all(|byte| byte.is_ascii_digit());
    word.parse().ok().filter(|_| digits)
}

#[cfg(test)]
mod tests {
    use super::*;

    #[test]
    fn words_are_lists() {
        let told: [(&str, &[u8]); 5] = [
            ("", &[]),
            ("0", &[0]),
            ("255,0", &[255, 0]),
            ("1,02,003", &[1, 2, 3]),
            ("7,6,5,4,3,2,1,0", &[7, 6, 5, 4, 3, 2, 1, 0]),
        ];
        for (word, list) in told {
            assert_eq!(numbers(OsStr::new(word)).as_deref(), Some(list));
        }
        let long = ["1"; 70_000].join(",");
        assert_eq!(numbers(OsStr::new(&long)), Some(vec![1; 70_000]));
    }

    #[test]
    fn other_words_are_none() {
        for word in [
            ",", "1,", ",1", "1,,2", "256", "+1", "1,-1", "1 ,2", " ", "x", "1.2", "1;2",
        ] {
            assert_eq!(numbers(OsStr::new(word)), None, "{word}");
        }
    }
}
