//! The report for programs: one object, whose fields docs/SCAN.md lists.

use crate::method::{Finding, Judgement, Onward, Place, Step};
use crate::report::Summary;
use crate::{words, FileReport};
use skeleton::witness::Fault;
use std::fmt::Write;

/// A text as JSON has it.
pub fn quoted(text: &str) -> String {
    let mut out = String::with_capacity(text.len() + 2);
    out.push('"');
    for c in text.chars() {
        match c {
            '"' => out.push_str("\\\""),
            '\\' => out.push_str("\\\\"),
            '\n' => out.push_str("\\n"),
            c if (c as u32) < 0x20 || c == '<' || c == '\u{2028}' || c == '\u{2029}' => {
                let _ = write!(out, "\\u{:04x}", c as u32);
            }
            c => out.push(c),
        }
    }
    out.push('"');
    out
}

fn place(p: Place) -> String {
    format!("{{\"offset\":{},\"line\":{}}}", p.offset, p.line)
}

fn maybe(p: Option<Place>) -> String {
    p.map_or_else(|| "null".to_owned(), place)
}

fn onward(o: Onward) -> &'static str {
    match o {
        Onward::Next => "next",
        Onward::Jump => "jump",
        Onward::Throw => "throw",
        Onward::Return => "return",
        Onward::Uncaught => "uncaught",
    }
}

fn step(s: &Step) -> String {
    let name = classfile::opcode_name(s.opcode).unwrap_or("?");
    format!(
        "{{\"offset\":{},\"line\":{},\"instruction\":{},\"held\":{},\"onward\":\"{}\"}}",
        s.place.offset,
        s.place.line,
        quoted(name),
        s.held,
        onward(s.onward)
    )
}

fn fault(f: Fault) -> &'static str {
    match f {
        Fault::Kept => "kept",
        Fault::NotHeld => "not held",
        Fault::Growing => "growing",
    }
}

/// A finding's fields, without the braces.
pub fn finding(found: &Finding) -> String {
    let way: Vec<String> = found.way.iter().map(step).collect();
    let turn = found.turn.as_ref().map_or_else(|| "null".to_owned(), step);
    let words = words::turn(found).map_or_else(|| "null".to_owned(), |w| quoted(&w));
    format!(
        "\"fault\":\"{}\",\"message\":{},\"lock\":{},\"taken\":{},\"released\":{},\"turn\":{turn},\"turn_message\":{words},\"way\":[{}]",
        fault(found.fault),
        quoted(&words::sentence(found)),
        quoted(&found.lock),
        maybe(found.taken),
        maybe(found.released),
        way.join(",")
    )
}

/// One file, with its methods that have monitors.
pub fn file(file: &FileReport) -> String {
    let name = quoted(&file.name);
    let class = match &file.class {
        Err(why) => return format!("{{\"file\":{name},\"error\":{}}}", quoted(why)),
        Ok(class) => class,
    };
    let methods: Vec<String> = class
        .judged
        .iter()
        .map(|m| {
            let said = match &m.judgement {
                Judgement::Accepted => "\"verdict\":\"accepted\"".to_owned(),
                Judgement::Refused(found) => format!("\"verdict\":\"refused\",{}", finding(found)),
                Judgement::NotJudged(o) => {
                    format!(
                        "\"verdict\":\"not judged\",\"offset\":{},\"why\":{}",
                        o.offset,
                        quoted(&o.why)
                    )
                }
            };
            format!(
                "{{\"name\":{},\"descriptor\":{},{said}}}",
                quoted(&m.name),
                quoted(&m.descriptor)
            )
        })
        .collect();
    let source = class
        .source
        .as_deref()
        .map_or_else(|| "null".to_owned(), quoted);
    format!(
        "{{\"file\":{name},\"class\":{},\"source\":{source},\"methods\":{},\"synchronized\":{},\"judged\":[{}]}}",
        quoted(&class.class),
        class.methods,
        class.synchronized,
        methods.join(",")
    )
}

/// The summary.
pub fn summary(s: &Summary) -> String {
    let why: Vec<String> = s
        .not_judged
        .iter()
        .map(|(why, n)| format!("{}:{n}", quoted(why)))
        .collect();
    format!(
        "{{\"files\":{},\"unreadable\":{},\"methods\":{},\"synchronized\":{},\"with_monitors\":{},\"accepted\":{},\"refused\":{},\"not_judged\":{{{}}}}}",
        s.files,
        s.unreadable,
        s.methods,
        s.synchronized,
        s.with_monitors,
        s.accepted,
        s.refused,
        why.join(",")
    )
}
