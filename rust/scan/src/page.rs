//! The report as one page that needs no network: each refused method with its flow as a picture, along which the faulty way can be stepped.

use crate::json::{finding, quoted, summary};
use crate::method::{Finding, Judgement};
use crate::report::Summary;
use crate::FileReport;

const TEMPLATE: &str = include_str!("page.html");

fn flow(found: &Finding) -> String {
    let blocks: Vec<String> = found
        .flow
        .blocks
        .iter()
        .map(|b| {
            let held: Vec<String> = b.held.iter().map(u8::to_string).collect();
            format!(
                "{{\"line\":{},\"from\":{},\"to\":{},\"held\":[{}],\"takes\":{},\"releases\":{},\"ends\":{}}}",
                b.line,
                b.offsets.0,
                b.offsets.1,
                held.join(","),
                b.takes,
                b.releases,
                b.ends
            )
        })
        .collect();
    let ways: Vec<String> = found
        .flow
        .ways
        .iter()
        .map(|w| {
            let to = w.to.map_or_else(|| "null".to_owned(), |t| t.to_string());
            format!("{{\"from\":{},\"to\":{to},\"throw\":{}}}", w.from, w.throw)
        })
        .collect();
    let steps: Vec<String> = found
        .way
        .iter()
        .map(|s| {
            found
                .flow
                .block(s.place.offset)
                .map_or_else(|| "null".to_owned(), |b| b.to_string())
        })
        .collect();
    format!(
        "\"blocks\":[{}],\"ways\":[{}],\"steps\":[{}]",
        blocks.join(","),
        ways.join(","),
        steps.join(",")
    )
}

/// The refused methods of a file, each as an object of the page's list.
pub fn methods(file: &FileReport) -> Vec<String> {
    let Ok(class) = &file.class else {
        return Vec::new();
    };
    let refused = class.judged.iter().filter_map(|m| match &m.judgement {
        Judgement::Refused(found) => Some((m, found)),
        _ => None,
    });
    refused
        .map(|(m, found)| {
            format!(
                "{{\"file\":{},\"class\":{},\"source\":{},\"name\":{},\"descriptor\":{},{},{}}}",
                quoted(&file.name),
                quoted(&class.class),
                class
                    .source
                    .as_deref()
                    .map_or_else(|| "null".to_owned(), quoted),
                quoted(&m.name),
                quoted(&m.descriptor),
                finding(found),
                flow(found)
            )
        })
        .collect()
}

/// The page of some refused methods.
pub fn page(methods: &[String], totals: &Summary, seconds: f64) -> String {
    let data = format!(
        "{{\"summary\":{},\"seconds\":{seconds:.2},\"methods\":[\n{}\n]}}",
        summary(totals),
        methods.join(",\n")
    );
    TEMPLATE.replacen("/*DATA*/null", &data, 1)
}
