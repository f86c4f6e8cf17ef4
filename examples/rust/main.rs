//! Renders the texts of a folder by the crate `provedown`, and compares the results with what is stored beside them.

use provedown::{Error, Extensions, to_html, to_json, to_outline, to_safe_html};
use std::{env, fs};

type Call = fn(&str, Extensions) -> Result<String, Error>;

fn read(folder: &str, name: &str, kind: &str) -> String {
    let path = format!("{folder}/{name}.{kind}");
    fs::read_to_string(&path).unwrap_or_else(|error| panic!("{path}: {error}"))
}

fn try_text(folder: &str, name: &str) {
    let text = read(folder, name, "md");
    let calls: [(&str, Call); 4] =
        [("html", to_html), ("safe", to_safe_html), ("jsonl", to_json), ("outline", to_outline)];
    for (kind, call) in calls {
        let stored = read(folder, name, kind);
        assert_eq!(call(&text, Extensions::STRIKETHROUGH), Ok(stored), "{name}.{kind}");
    }
}

fn main() {
    let words: Vec<String> = env::args().skip(1).collect();
    let (folder, names) = words.split_first().expect("usage: callers FOLDER NAME ..");
    for name in names {
        try_text(folder, name);
    }
    println!("Rust: {} texts, as stored", names.len());
}
