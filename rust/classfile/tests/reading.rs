//! Class files read: those that javac wrote, and one by hand.

mod common;

use classfile::{text, ClassFile, Constant, Handler, Line, MethodDescriptor, Reference, Type};
use common::{case, every_constant};

#[test]
fn what_javac_wrote() {
    let bytes = case("Counts");
    let class = ClassFile::read(&bytes).expect("a class");
    assert_eq!((class.version, class.name.as_str()), ((61, 0), "Counts"));
    assert_eq!(class.extends.as_deref(), Some("java/lang/Object"));
    assert_eq!(class.source.as_deref(), Some("Counts.java"));
    assert!(class.interfaces.is_empty() && class.fields.is_empty());
    let names: Vec<&str> = class.methods.iter().map(|m| m.name.as_str()).collect();
    let first = [
        "<init>",
        "nothing",
        "twice",
        "untilZero",
        "either",
        "copies",
    ];
    assert_eq!(names[..6], first);
    assert_eq!(names.len(), 14);
}

#[test]
fn code_with_its_handlers_and_lines() {
    let bytes = case("Counts");
    let class = ClassFile::read(&bytes).expect("a class");
    let caught = class.methods.iter().find(|m| m.name == "caught");
    let caught = caught.expect("a method");
    assert_eq!(caught.descriptor, "(Ljava/lang/RuntimeException;I)V");
    let code = caught.code.as_ref().expect("its code");
    assert_eq!(code.bytes, [0x2A, 0xBF, 0x4D, 0x84, 1, 1, 0xB1]);
    assert_eq!((code.max_stack, code.max_locals), (1, 3));
    let [Handler {
        start: 0,
        end: 2,
        handler: 2,
        catch,
    }] = code.handlers[..]
    else {
        panic!("{:?}", code.handlers);
    };
    let caught = class.constants.class(catch);
    assert_eq!(caught.as_deref(), Some("java/lang/RuntimeException"));
    // `throw e;` is line 56 of the source, `catch` 57, `n++` 58.
    let line = |offset, line| Line { offset, line };
    assert_eq!(
        code.lines,
        [line(0, 56), line(2, 57), line(3, 58), line(6, 60)]
    );
    let told = [0, 1, 2, 3, 5, 6, 99].map(|offset| code.line(offset));
    assert_eq!(told, [56, 56, 57, 58, 58, 60, 60].map(Some));
    // The attribute stands where it says, and is all of it.
    assert_eq!(
        bytes[code.at..code.at + code.attribute.len()],
        *code.attribute
    );
    assert_eq!(code.attribute[14..21], *code.bytes);
}

#[test]
fn methods_without_code_and_fields() {
    let bytes = case("Locks");
    let class = ClassFile::read(&bytes).expect("a class");
    let native = class.methods.iter().find(|m| m.name == "elsewhere");
    assert!(native.expect("a method").code.is_none());
    let fields: Vec<(&str, &str)> = class
        .fields
        .iter()
        .map(|field| (field.name.as_str(), field.descriptor.as_str()))
        .collect();
    assert_eq!(fields, [("inner", "Ljava/lang/Object;"), ("count", "I")]);
    let nested = class.methods.iter().find(|m| m.name == "nested");
    let code = nested.expect("a method").code.as_ref().expect("its code");
    let ranges: Vec<[u16; 4]> = code
        .handlers
        .iter()
        .map(|h| [h.start, h.end, h.handler, h.catch])
        .collect();
    let wanted = [
        [8, 10, 13, 0],
        [13, 17, 13, 0],
        [4, 22, 25, 0],
        [25, 29, 25, 0],
    ];
    assert_eq!(ranges, wanted);
}

#[test]
fn every_kind_of_constant() {
    let bytes = every_constant(65);
    let class = ClassFile::read(&bytes).expect("a class");
    assert_eq!((class.version, class.access), ((65, 3), 0x0400));
    assert_eq!(class.extends.as_deref(), Some("B"));
    assert_eq!(class.interfaces, ["C"]);
    let get = |index| class.constants.get(index);
    let reference = |first, second| Reference { first, second };
    let wanted = [
        (0, Constant::None),
        (1, Constant::Utf8(b"A")),
        (11, Constant::Integer(-2)),
        (12, Constant::Float(1.0)),
        (13, Constant::Long(1 << 32)),
        (14, Constant::None),
        (15, Constant::Double(2.0)),
        (16, Constant::None),
        (17, Constant::String(7)),
        (18, Constant::NameAndType(reference(9, 10))),
        (19, Constant::Field(reference(2, 18))),
        (20, Constant::Method(reference(2, 18))),
        (21, Constant::InterfaceMethod(reference(6, 18))),
        (22, Constant::MethodHandle(6, 20)),
        (23, Constant::MethodType(10)),
        (24, Constant::Dynamic(reference(0, 18))),
        (25, Constant::InvokeDynamic(reference(0, 18))),
        (26, Constant::Module(1)),
        (27, Constant::Package(1)),
    ];
    for (index, constant) in wanted {
        assert_eq!(get(index), Some(constant), "{index}");
    }
    assert_eq!(get(28), None);
    let member = class.constants.member(21).expect("a method");
    assert_eq!(member, ("C".into(), "m".into(), "(ILC;)V".into()));
    assert_eq!(class.constants.member(18), None);
    let described = class.methods[0].method_descriptor().expect("a descriptor");
    let arguments = vec![Type::Int, Type::Class("C".to_string())];
    let result = None;
    assert_eq!(described, MethodDescriptor { arguments, result });
    let long = Type::Array(Box::new(Type::Array(Box::new(Type::Long))));
    assert_eq!(Type::read(&class.fields[0].descriptor), Some(long));
}

#[test]
fn versions() {
    for version in [45, 46, 49, 50, 51, 52, 61, 65, 69, 70, u16::MAX] {
        assert!(ClassFile::read(&every_constant(version)).is_ok());
    }
    for version in [0, 3, 44] {
        let damage = ClassFile::read(&every_constant(version)).expect_err("no version");
        let wanted = format!("damaged at 6: there is no version {version}");
        assert_eq!(damage.to_string(), wanted);
    }
}

#[test]
fn descriptors() {
    let read = |text| MethodDescriptor::read(text);
    let all = read("(BCDFIJSZ)Ljava/lang/Object;").expect("a descriptor");
    assert_eq!(all.arguments.len(), 8);
    let sizes: Vec<u16> = all.arguments.iter().map(Type::size).collect();
    assert_eq!(sizes, [1, 1, 2, 1, 1, 2, 1, 1]);
    assert_eq!(
        all.result,
        Some(Type::Class("java/lang/Object".to_string()))
    );
    let deep = |n: usize| "[".repeat(n) + "I";
    assert!(Type::read(&deep(255)).is_some() && Type::read(&deep(256)).is_none());
    for wrong in [
        "", "(", "()", "()VV", "(V)V", "I", "(L;)V", "(LA)V", "([)V", "(I)", "()X", "é",
    ] {
        assert_eq!(read(wrong), None, "{wrong}");
    }
    for wrong in ["", "V", "II", "L;", "LA", "[", "X"] {
        assert_eq!(Type::read(wrong), None, "{wrong}");
    }
}

#[test]
fn modified_utf_8() {
    let told = |bytes: &[u8]| text(bytes);
    assert_eq!(told(b"").as_deref(), Some(""));
    assert_eq!(told(b"\xC3\xA9").as_deref(), Some("é"));
    assert_eq!(told(b"\xE2\x8A\x97").as_deref(), Some("\u{2297}"));
    assert_eq!(told(b"\xC0\x80").as_deref(), Some("\0"));
    // A pair of surrogates is one character; half of one is none.
    assert_eq!(
        told(b"\xED\xA0\xBD\xED\xB8\x80").as_deref(),
        Some("\u{1F600}")
    );
    assert_eq!(told(b"\xED\xA0\xBDx").as_deref(), Some("\u{FFFD}x"));
    for wrong in [
        &b"\0"[..],
        b"\x80",
        b"\xC3",
        b"\xC3x",
        b"\xE2\x8A",
        b"\xF0\x9F\x98\x80",
        b"\xFF",
    ] {
        assert_eq!(told(wrong), None, "{wrong:x?}");
    }
}
