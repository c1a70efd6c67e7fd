//! What the tests of the reader share.

use std::path::Path;

/// A compiled class of the repository.
pub fn case(name: &str) -> Vec<u8> {
    let folder = Path::new(env!("CARGO_MANIFEST_DIR")).join("../../cases/java");
    std::fs::read(folder.join(name).with_extension("class")).expect("a case")
}

/// A small file with every kind of constant: class A extends B implements C,
/// with a field f and an abstract method m.
#[allow(dead_code, reason = "not every test makes one")]
pub fn every_constant(version: u16) -> Vec<u8> {
    let utf8 = |text: &str| [&[1, 0, text.len() as u8], text.as_bytes()].concat();
    let constants: [Vec<u8>; 22] = [
        utf8("A"),                                       // 1
        vec![7, 0, 1],                                   // 2
        utf8("B"),                                       // 3
        vec![7, 0, 3],                                   // 4
        utf8("C"),                                       // 5
        vec![7, 0, 5],                                   // 6
        utf8("f"),                                       // 7
        utf8("[[J"),                                     // 8
        utf8("m"),                                       // 9
        utf8("(ILC;)V"),                                 // 10
        vec![3, 0xFF, 0xFF, 0xFF, 0xFE],                 // 11
        vec![4, 0x3F, 0x80, 0, 0],                       // 12
        vec![5, 0, 0, 0, 1, 0, 0, 0, 0],                 // 13, 14
        vec![6, 0x40, 0, 0, 0, 0, 0, 0, 0],              // 15, 16
        vec![8, 0, 7],                                   // 17
        vec![12, 0, 9, 0, 10],                           // 18
        [[9, 0, 2, 0, 18], [10, 0, 2, 0, 18]].concat(),  // 19, 20
        vec![11, 0, 6, 0, 18],                           // 21
        [vec![15, 6, 0, 20], vec![16, 0, 10]].concat(),  // 22, 23
        [[17, 0, 0, 0, 18], [18, 0, 0, 0, 18]].concat(), // 24, 25
        vec![19, 0, 1],                                  // 26
        vec![20, 0, 1],                                  // 27
    ];
    let mut bytes = vec![0xCA, 0xFE, 0xBA, 0xBE, 0, 3];
    bytes.extend(version.to_be_bytes());
    bytes.extend([0, 28]);
    bytes.extend(constants.concat());
    // Flags, this, super, one interface.
    bytes.extend([0x04, 0x00, 0, 2, 0, 4, 0, 1, 0, 6]);
    // One field, one method, no attributes.
    bytes.extend([0, 1, 0, 2, 0, 7, 0, 8, 0, 0]);
    bytes.extend([0, 1, 4, 1, 0, 9, 0, 10, 0, 0]);
    bytes.extend([0, 0]);
    bytes
}
