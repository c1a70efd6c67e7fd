//! A class file (4.1), its fields and its methods.

use crate::code::Code;
use crate::constants::Constants;
use crate::damage::Damage;
use crate::descriptors::MethodDescriptor;
use crate::reader::Reader;

const MAGIC: u32 = 0xCAFE_BABE;
/// Java 1.0; there is none before it.
const FIRST_VERSION: u16 = 45;

/// What a class file says.
#[derive(Clone, Debug)]
pub struct ClassFile<'a> {
    /// The major and the minor version.
    pub version: (u16, u16),
    /// All constants.
    pub constants: Constants<'a>,
    /// Its flags.
    pub access: u16,
    /// Its name, with slashes.
    pub name: String,
    /// The name of what it extends; java/lang/Object and modules have none.
    pub extends: Option<String>,
    /// The interfaces' names.
    pub interfaces: Vec<String>,
    /// Its fields.
    pub fields: Vec<Member<'a>>,
    /// Its methods.
    pub methods: Vec<Member<'a>>,
    /// The source file's name, if it is told.
    pub source: Option<String>,
}

/// A field or a method.
#[derive(Clone, Debug)]
pub struct Member<'a> {
    /// Its flags.
    pub access: u16,
    /// Its name.
    pub name: String,
    /// Its descriptor.
    pub descriptor: String,
    /// The Code attribute; abstract and native methods have none.
    pub code: Option<Code<'a>>,
}

impl<'a> ClassFile<'a> {
    /// Reads a whole file.
    pub fn read(bytes: &'a [u8]) -> Result<ClassFile<'a>, Damage> {
        let mut from = Reader::new(bytes);
        let version = version(&mut from)?;
        let constants = Constants::read(&mut from)?;
        let access = from.u2()?;
        let at = from.at();
        let name = constants.named_class(from.u2()?, at)?;
        let extends = extended(&mut from, &constants)?;
        let interfaces = interfaces(&mut from, &constants)?;
        let fields = members(&mut from, &constants, Kind::Field)?;
        let methods = members(&mut from, &constants, Kind::Method)?;
        let source = source(&mut from, &constants)?;
        from.end()?;
        Ok(ClassFile {
            version,
            constants,
            access,
            name,
            extends,
            interfaces,
            fields,
            methods,
            source,
        })
    }
}

impl Member<'_> {
    /// What a method's descriptor says.
    pub fn method_descriptor(&self) -> Option<MethodDescriptor> {
        MethodDescriptor::read(&self.descriptor)
    }
}

fn version(from: &mut Reader) -> Result<(u16, u16), Damage> {
    if from.u4()? != MAGIC {
        return Err(Damage::new(0, "it does not begin as a class file"));
    }
    let (minor, at) = (from.u2()?, from.at());
    match from.u2()? {
        major if major < FIRST_VERSION => {
            Err(Damage::new(at, format!("there is no version {major}")))
        }
        major => Ok((major, minor)),
    }
}

fn extended(from: &mut Reader, constants: &Constants) -> Result<Option<String>, Damage> {
    let at = from.at();
    match from.u2()? {
        0 => Ok(None),
        index => constants.named_class(index, at).map(Some),
    }
}

fn interfaces(from: &mut Reader, constants: &Constants) -> Result<Vec<String>, Damage> {
    let count = from.u2()?;
    let interface = |_| {
        let at = from.at();
        constants.named_class(from.u2()?, at)
    };
    (0..count).map(interface).collect()
}

#[derive(Clone, Copy, PartialEq)]
enum Kind {
    Field,
    Method,
}

fn members<'a>(
    from: &mut Reader<'a>,
    constants: &Constants<'a>,
    kind: Kind,
) -> Result<Vec<Member<'a>>, Damage> {
    let count = from.u2()?;
    (0..count).map(|_| member(from, constants, kind)).collect()
}

fn member<'a>(
    from: &mut Reader<'a>,
    constants: &Constants<'a>,
    kind: Kind,
) -> Result<Member<'a>, Damage> {
    let access = from.u2()?;
    let at = from.at();
    let name = constants.named(from.u2()?, at, "name")?;
    let at = from.at();
    let descriptor = constants.named(from.u2()?, at, "descriptor")?;
    let mut code = None;
    for attribute in Attribute::all(from, constants)? {
        if kind == Kind::Method && attribute.name == b"Code" {
            let read = Code::read(attribute.whole, attribute.at, attribute.inside, constants)?;
            if code.replace(read).is_some() {
                return Err(Damage::new(attribute.at, "a second Code attribute"));
            }
        }
    }
    Ok(Member {
        access,
        name,
        descriptor,
        code,
    })
}

fn source<'a>(from: &mut Reader<'a>, constants: &Constants<'a>) -> Result<Option<String>, Damage> {
    let attributes = Attribute::all(from, constants)?;
    let named = attributes.into_iter().find(|a| a.name == b"SourceFile");
    let Some(Attribute { mut inside, .. }) = named else {
        return Ok(None);
    };
    let at = inside.at();
    constants.named(inside.u2()?, at, "name").map(Some)
}

/// An attribute as it stands in the file.
pub(crate) struct Attribute<'a> {
    pub name: &'a [u8],
    /// Its offset, and all bytes from there on.
    pub at: usize,
    pub whole: &'a [u8],
    /// What is behind its length.
    pub inside: Reader<'a>,
}

impl<'a> Attribute<'a> {
    /// A table of attributes.
    pub fn all(
        from: &mut Reader<'a>,
        constants: &Constants<'a>,
    ) -> Result<Vec<Attribute<'a>>, Damage> {
        let count = from.u2()?;
        (0..count)
            .map(|_| Attribute::read(from, constants))
            .collect()
    }

    fn read(from: &mut Reader<'a>, constants: &Constants<'a>) -> Result<Attribute<'a>, Damage> {
        let (at, begin) = (from.at(), from.rest());
        let index = from.u2()?;
        let unnamed = || Damage::new(at, format!("constant {index} is no attribute's name"));
        let name = constants.bytes(index).ok_or_else(unnamed)?;
        let length = from.length()?;
        let inside = from.part(length, "attribute")?;
        let whole = begin.get(..from.at() - at).unwrap_or(begin);
        Ok(Attribute {
            name,
            at,
            whole,
            inside,
        })
    }
}
