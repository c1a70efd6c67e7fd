//! Descriptors of types and methods (4.3).

/// A type.
#[derive(Clone, Debug, PartialEq, Eq)]
#[allow(missing_docs, reason = "the names are those of the language")]
pub enum Type {
    Byte,
    Char,
    Double,
    Float,
    Int,
    Long,
    Short,
    Boolean,
    /// A class by its name, with slashes.
    Class(String),
    Array(Box<Type>),
}

/// What a method takes and gives.
#[derive(Clone, Debug, PartialEq, Eq)]
pub struct MethodDescriptor {
    /// The arguments' types.
    pub arguments: Vec<Type>,
    /// The type of what is given back; none is void.
    pub result: Option<Type>,
}

/// An array has so many dimensions at most.
const DIMENSIONS: usize = 255;

impl Type {
    /// Reads a field's descriptor.
    pub fn read(text: &str) -> Option<Type> {
        match Type::first(text)? {
            (read, "") => Some(read),
            _ => None,
        }
    }

    /// How many variables or stack places it takes.
    pub fn size(&self) -> u16 {
        match self {
            Type::Long | Type::Double => 2,
            _ => 1,
        }
    }

    /// The type that the text begins with, and the rest.
    fn first(text: &str) -> Option<(Type, &str)> {
        let inner = text.trim_start_matches('[');
        let dimensions = text.len() - inner.len();
        let (element, rest) = Type::element(inner)?;
        let array = (0..dimensions).fold(element, |of, _| Type::Array(Box::new(of)));
        (dimensions <= DIMENSIONS).then_some((array, rest))
    }

    fn element(text: &str) -> Option<(Type, &str)> {
        let mut letters = text.chars();
        let read = match letters.next()? {
            'B' => Type::Byte,
            'C' => Type::Char,
            'D' => Type::Double,
            'F' => Type::Float,
            'I' => Type::Int,
            'J' => Type::Long,
            'S' => Type::Short,
            'Z' => Type::Boolean,
            'L' => {
                let (name, rest) = letters.as_str().split_once(';')?;
                return (!name.is_empty()).then(|| (Type::Class(name.to_string()), rest));
            }
            _ => return None,
        };
        Some((read, letters.as_str()))
    }
}

impl MethodDescriptor {
    /// Reads a method's descriptor.
    ///
    /// ```
    /// use classfile::{MethodDescriptor, Type};
    ///
    /// let read = MethodDescriptor::read("(I[J)V").expect("a descriptor");
    /// let array = Type::Array(Box::new(Type::Long));
    /// assert_eq!((read.arguments, read.result), (vec![Type::Int, array], None));
    /// assert_eq!(MethodDescriptor::read("(V)V"), None);
    /// ```
    pub fn read(text: &str) -> Option<MethodDescriptor> {
        let mut rest = text.strip_prefix('(')?;
        let mut arguments = vec![];
        while !rest.starts_with(')') {
            let (argument, behind) = Type::first(rest)?;
            arguments.push(argument);
            rest = behind;
        }
        let result = match rest.strip_prefix(')')? {
            "V" => None,
            text => Some(Type::read(text)?),
        };
        Some(MethodDescriptor { arguments, result })
    }
}
