//! Files as the commands read them.

use std::ffi::OsStr;
use std::fs::File;
use std::io::{Error, Read};

/// One byte more than any bundle has: whatever is longer draws verdict 1.
const ENOUGH: u64 = 65_536;

/// A schedule or a class file may be as long as it likes, but what never ends
/// is none.
const LONGEST: u64 = 1 << 26;

/// A bundle, and the name that it was asked for by.
#[derive(Clone, Debug)]
pub struct Input {
    pub name: String,
    pub bytes: Vec<u8>,
}

impl Input {
    /// Reads a file, or standard input for `-`; an error is one line.
    pub fn read(file: &OsStr) -> Result<Input, String> {
        Input::read_up_to(ENOUGH, file)
    }

    /// Reads a schedule, all of it.
    pub fn read_schedule(file: &OsStr) -> Result<Vec<u8>, String> {
        Ok(Input::read_all(file, "steps")?.bytes)
    }

    /// Reads a class file or a part of one, all of it.
    pub fn read_class(file: &OsStr) -> Result<Input, String> {
        Input::read_all(file, "bytes")
    }

    fn read_all(file: &OsStr, of: &str) -> Result<Input, String> {
        let input = Input::read_up_to(LONGEST + 1, file)?;
        match input.bytes.len() as u64 > LONGEST {
            true => Err(format!("{}: more than {LONGEST} {of}", input.name)),
            false => Ok(input),
        }
    }

    fn read_up_to(most: u64, file: &OsStr) -> Result<Input, String> {
        let name = file.to_string_lossy().into_owned();
        match bytes(file, most) {
            Ok(bytes) => Ok(Input { name, bytes }),
            Err(error) => Err(format!("{name}: cannot be read: {error}")),
        }
    }
}

fn bytes(file: &OsStr, most: u64) -> Result<Vec<u8>, Error> {
    let mut bytes = vec![];
    if file == "-" {
        std::io::stdin().take(most).read_to_end(&mut bytes)?;
    } else {
        File::open(file)?.take(most).read_to_end(&mut bytes)?;
    }
    Ok(bytes)
}
