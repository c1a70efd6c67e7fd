//! The constant pool (4.4).

use crate::damage::Damage;
use crate::reader::Reader;
use crate::text::text;

/// One constant, with the indices that it has.
#[derive(Clone, Copy, Debug, PartialEq)]
#[allow(missing_docs, reason = "the names are those of the specification")]
pub enum Constant<'a> {
    Utf8(&'a [u8]),
    Integer(i32),
    Float(f32),
    Long(i64),
    Double(f64),
    Class(u16),
    String(u16),
    Field(Reference),
    Method(Reference),
    InterfaceMethod(Reference),
    NameAndType(Reference),
    MethodHandle(u8, u16),
    MethodType(u16),
    Dynamic(Reference),
    InvokeDynamic(Reference),
    Module(u16),
    Package(u16),
    /// Index 0, and the one behind a long or a double.
    None,
}

/// Two indices: of a class or a bootstrap method, and of a name and type; or of
/// a name, and of a descriptor.
#[derive(Clone, Copy, Debug, PartialEq, Eq)]
#[allow(missing_docs, reason = "said above")]
pub struct Reference {
    pub first: u16,
    pub second: u16,
}

/// All constants by their index.
#[derive(Clone, Debug)]
pub struct Constants<'a> {
    /// Each with its offset.
    all: Vec<(Constant<'a>, usize)>,
}

impl<'a> Constants<'a> {
    pub(crate) fn read(from: &mut Reader<'a>) -> Result<Constants<'a>, Damage> {
        let at = from.at();
        let count = usize::from(from.u2()?);
        let mut all = vec![(Constant::None, at)];
        while all.len() < count {
            let at = from.at();
            let constant = constant(from)?;
            all.push((constant, at));
            if matches!(constant, Constant::Long(_) | Constant::Double(_)) {
                all.push((Constant::None, at));
            }
        }
        match all.len() > count && count > 0 {
            true => Err(Damage::new(at, "the last constant has no second place")),
            false => Ok(Constants { all }),
        }
    }

    /// The constant of this index.
    pub fn get(&self, index: u16) -> Option<Constant<'a>> {
        let (constant, _) = self.all.get(usize::from(index))?;
        Some(*constant)
    }

    /// The bytes of a Utf8 constant.
    pub fn bytes(&self, index: u16) -> Option<&'a [u8]> {
        match self.get(index)? {
            Constant::Utf8(bytes) => Some(bytes),
            _ => None,
        }
    }

    /// The text of a Utf8 constant.
    pub fn text(&self, index: u16) -> Option<String> {
        text(self.bytes(index)?)
    }

    /// The name of a class.
    pub fn class(&self, index: u16) -> Option<String> {
        match self.get(index)? {
            Constant::Class(name) => self.text(name),
            _ => None,
        }
    }

    /// Name and descriptor of a NameAndType constant.
    pub fn name_and_type(&self, index: u16) -> Option<(String, String)> {
        match self.get(index)? {
            Constant::NameAndType(Reference { first, second }) => {
                Some((self.text(first)?, self.text(second)?))
            }
            _ => None,
        }
    }

    /// Class, name and descriptor of a field or a method.
    pub fn member(&self, index: u16) -> Option<(String, String, String)> {
        match self.get(index)? {
            Constant::Field(r) | Constant::Method(r) | Constant::InterfaceMethod(r) => {
                let (name, descriptor) = self.name_and_type(r.second)?;
                Some((self.class(r.first)?, name, descriptor))
            }
            _ => None,
        }
    }

    /// The text that the index at this offset names.
    pub(crate) fn named(&self, index: u16, at: usize, what: &str) -> Result<String, Damage> {
        let wrong = || Damage::new(at, format!("constant {index} is no {what}"));
        self.text(index).ok_or_else(wrong)
    }

    /// The class that the index at this offset names.
    pub(crate) fn named_class(&self, index: u16, at: usize) -> Result<String, Damage> {
        let wrong = || Damage::new(at, format!("constant {index} is no class"));
        self.class(index).ok_or_else(wrong)
    }
}

fn constant<'a>(from: &mut Reader<'a>) -> Result<Constant<'a>, Damage> {
    let at = from.at();
    Ok(match from.u1()? {
        1 => {
            let length = usize::from(from.u2()?);
            Constant::Utf8(from.bytes(length)?)
        }
        3 => Constant::Integer(from.u4()? as i32),
        4 => Constant::Float(f32::from_bits(from.u4()?)),
        5 => Constant::Long(from.u8()? as i64),
        6 => Constant::Double(f64::from_bits(from.u8()?)),
        7 => Constant::Class(from.u2()?),
        8 => Constant::String(from.u2()?),
        9 => Constant::Field(reference(from)?),
        10 => Constant::Method(reference(from)?),
        11 => Constant::InterfaceMethod(reference(from)?),
        12 => Constant::NameAndType(reference(from)?),
        15 => Constant::MethodHandle(from.u1()?, from.u2()?),
        16 => Constant::MethodType(from.u2()?),
        17 => Constant::Dynamic(reference(from)?),
        18 => Constant::InvokeDynamic(reference(from)?),
        19 => Constant::Module(from.u2()?),
        20 => Constant::Package(from.u2()?),
        tag => return Err(Damage::new(at, format!("{tag} is no constant's tag"))),
    })
}

fn reference(from: &mut Reader) -> Result<Reference, Damage> {
    let (first, second) = (from.u2()?, from.u2()?);
    Ok(Reference { first, second })
}
