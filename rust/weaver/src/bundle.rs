//! Classes put together, and handed to the gate.

use crate::{gate, Class, GateRefusal, Parts};

/// The classes of a bundle, in the order of their numbers; class 0 is main.
///
/// ```
/// use weaver::{Bundle, Class, GateRefusal, Instruction::*, Kind::*};
///
/// // The lock that it takes is never given back.
/// let keeping = Class::new()
///     .line(New(0, None), &[Top], &[])
///     .line(Store(0), &[Top], &[Reference(0)])
///     .line(MonitorEnter(0, None), &[Reference(0)], &[])
///     .line(Return, &[Reference(0)], &[]);
/// let refused = Bundle::new().class(keeping).finish();
/// assert_eq!(refused, Err(GateRefusal::Pairs));
/// ```
#[derive(Clone, Debug, Default, PartialEq, Eq)]
pub struct Bundle {
    classes: Vec<Class>,
    exception: u8,
}

/// No bundle is longer.
const LONGEST: usize = 65_535;

impl Bundle {
    /// Without classes; class 0 is what is thrown.
    pub fn new() -> Bundle {
        Bundle::default()
    }

    /// With this class of what is thrown.
    pub fn exception(mut self, class: u8) -> Bundle {
        self.exception = class;
        self
    }

    /// With one class more, which has the next number.
    pub fn class(mut self, class: Class) -> Bundle {
        self.classes.push(class);
        self
    }

    /// The finished bundle, which the verifier accepts, with the least pairs that it
    /// does; or why there is none.
    pub fn finish(&self) -> Result<Vec<u8>, GateRefusal> {
        let classes = || self.classes.iter();
        let rows = || classes().flat_map(Class::rows);
        let directory: Vec<u8> = classes().flat_map(Class::numbers).collect();
        let descriptors: Vec<u8> = classes().flat_map(Class::descriptors).collect();
        let instructions: Vec<u8> = classes().flat_map(Class::instructions).collect();
        let kinds = rows().map(|(variables, _, stack)| [variables, stack].concat().concat());
        let kinds: Vec<u8> = kinds.flatten().collect();
        let depths: Vec<u8> = rows().map(|(_, depth, _)| depth).collect();
        let parts = Parts {
            classes: self.classes.len().try_into().unwrap_or(u32::MAX),
            exception: self.exception.into(),
            directory: &directory,
            descriptors: &descriptors,
            instructions: &instructions,
            kinds: &kinds,
            depths: &depths,
        };
        let mut out = vec![0; LONGEST];
        let written = gate(&parts, &mut out)?;
        out.truncate(written.length);
        Ok(out)
    }

    /// The same bundle before its pairs are worked out, whether there are any or not:
    /// for `hveitmar explain FILE fill`, which tells what is wrong with one that is
    /// refused. It is not checked, and its pair bytes are 0.
    pub fn draft(&self) -> Vec<u8> {
        let (mut draft, mut directory) = (vec![], vec![]);
        for class in &self.classes {
            directory.extend((draft.len() as u16).to_be_bytes());
            directory.extend(class.numbers());
            draft.extend(class.descriptors());
            draft.extend(class.instructions());
            let entry = |[kind, class]: [u8; 2]| [kind, class, 0, 0];
            for (variables, depth, stack) in class.rows() {
                draft.extend(variables.into_iter().flat_map(entry));
                draft.push(depth);
                draft.extend(stack.into_iter().flat_map(entry));
            }
        }
        let at = draft.len() as u16;
        draft.extend(directory);
        draft.extend(at.to_be_bytes());
        draft.extend([self.classes.len().min(255) as u8, self.exception]);
        draft.extend(((draft.len() + 4) as u16).to_be_bytes());
        draft.extend([0x4C, 0x4B]);
        draft
    }
}
