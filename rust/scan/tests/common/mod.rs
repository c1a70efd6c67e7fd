//! What the tests share: the proved gate as the judge.

use skeleton::layout::Parts;
use weaver::GateRefusal;

/// A class file of the repository.
pub fn class(name: &str) -> Vec<u8> {
    let file = format!("{}/../../cases/{name}", env!("CARGO_MANIFEST_DIR"));
    std::fs::read(file).expect("a class file")
}

/// The gate's word on a skeleton.
pub fn gate(parts: &Parts) -> Result<bool, String> {
    let given = weaver::Parts {
        classes: 2,
        exception: 0,
        directory: &parts.directory,
        descriptors: &parts.descriptors,
        instructions: &parts.instructions,
        kinds: &parts.kinds,
        depths: &parts.depths,
    };
    match weaver::gate(&given, &mut [0; 65_535]) {
        Ok(_) => Ok(true),
        Err(GateRefusal::Pairs) => Ok(false),
        Err(other) => Err(other.to_string()),
    }
}
