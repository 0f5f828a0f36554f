//! Runs a decoder on the conformance suite: a test for each class.
mod decode;
mod json;
mod pictures;

use json::Value;
use pictures::Picture;
use std::collections::BTreeMap;
use std::path::PathBuf;

/// How far samples of the same colours may be apart: what a difference of 2 in each component makes
/// of blue.
const NEAR: i32 = 6;

/// The suite's folder: SUITE, or the one above this crate's.
fn folder() -> PathBuf {
    let above = || PathBuf::from(env!("CARGO_MANIFEST_DIR")).join("..");
    std::env::var("SUITE")
        .map(PathBuf::from)
        .unwrap_or_else(|_| above())
}

fn picture_of(path: &str) -> Picture {
    let data = std::fs::read(folder().join(path)).expect(path);
    pictures::read(&data).expect(path)
}

/// How far two pictures are apart, where they can be compared.
fn distance(shown: &Picture, wanted: &Picture) -> Option<i32> {
    let shown = shown
        .with_depth(wanted.depth)
        .filter(|it| it.has_size_of(wanted))?;
    let pairs = shown.samples.iter().zip(&wanted.samples);
    pairs.map(|(a, b)| (a - b).abs()).max()
}

/// Whether the first rows of a picture, or all, lie between the least and the greatest samples of
/// one that is right.
fn is_right(shown: &Picture, right: &Value, rows: Option<i64>) -> bool {
    let mut low = picture_of(right.get("low").text());
    let mut high = picture_of(right.get("high").text());
    if low.depth == 4 && shown.depth != 4 && std::env::var("SUITE_CMYK_AS_RGB").is_ok() {
        (low, high) = (high.as_inks(-1), low.as_inks(1));
    }
    let tolerance = right.get("tolerance").number().unwrap_or(0) as i32;
    let Some(shown) = shown
        .with_depth(low.depth)
        .filter(|it| it.has_size_of(&low))
    else {
        return false;
    };
    let rows = rows.map_or(low.height, |it| it as usize);
    let ends = low.samples.iter().zip(&high.samples);
    let mut samples = shown
        .samples
        .iter()
        .zip(ends)
        .take(rows * low.width * low.depth);
    samples.all(|(it, (a, b))| (a - tolerance..=b + tolerance).contains(it))
}

/// Whether an answer is right, how, and how far it is from the suite's.
fn outcome(case: &Value, shown: Option<Picture>) -> (bool, &'static str, i32) {
    let Some(shown) = shown else {
        return (case.get("refusal").is_true(), "refused", 0);
    };
    let expected = case.get("expected").text();
    let apart = expected
        .ends_with(".pam")
        .then(|| distance(&shown, &picture_of(expected)));
    let apart = apart.flatten();
    if apart == Some(0) {
        return (true, "exact", 0);
    }
    let rows = case.get("complete_rows").number();
    let mut pictures = case.get("pictures").list().iter();
    let good = case.get("any").is_true() || pictures.any(|it| is_right(&shown, it, rows));
    match apart {
        Some(far) if good && far <= NEAR => (true, "near", far),
        _ => (good, "other", 0),
    }
}

/// The words for the settings of a case: those of SUITE_AT for a scale, and None for any other
/// setting, or where SUITE_AT isn't given.
fn words_of(case: &Value) -> Option<String> {
    let settings = case.get("settings").list();
    if case.get("class").text() != "own" || settings.is_empty() {
        return Some(String::new());
    }
    let template = std::env::var("SUITE_AT").ok()?;
    let is_scale = |it: &Value| matches!(it.list()[0].text(), "scale" | "at");
    let words = match case.get("scale") {
        Value::Text(part) => template.replace("{}", part),
        _ => String::new(),
    };
    settings.iter().all(is_scale).then_some(words)
}

/// Runs the decoder on each case of a class.
fn run(class: &str) {
    let text = std::fs::read(folder().join("cases.jsonl")).expect("cases.jsonl");
    let without = std::env::var("SUITE_WITHOUT").unwrap_or_default();
    let (mut counts, mut furthest, mut wrong) = (BTreeMap::new(), 0, Vec::new());
    for line in text.split(|it| *it == b'\n').filter(|it| !it.is_empty()) {
        let case = json::value(line, &mut 0);
        let process = case.get("process").text();
        let is_lacking = !process.is_empty() && without.split(',').any(|it| it == process);
        if case.get("class").text() != class || is_lacking {
            continue;
        }
        let Some(words) = words_of(&case) else {
            continue;
        };
        let stream = folder().join(case.get("stream").text());
        let (good, how, far) = outcome(&case, decode::decode(&stream, &words));
        furthest = furthest.max(far);
        let said = if good {
            how.to_string()
        } else {
            format!("wrongly {how}")
        };
        if !good {
            let clause = (case.get("section").text(), case.get("why").text());
            wrong.push(format!(
                "{}: {said} ({}: {})",
                case.get("name").text(),
                clause.0,
                clause.1
            ));
        }
        *counts.entry(said).or_insert(0) += 1;
    }
    println!("{class}: {counts:?}; near is within {furthest}");
    assert!(class == "own" || wrong.is_empty(), "{}", wrong.join("\n"));
}

#[test]
fn must() {
    run("must");
}

#[test]
fn may() {
    run("may");
}

#[test]
fn own() {
    run("own");
}
