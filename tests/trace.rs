// trace: every name in the tables of docs/TRACE.md exists: a file, a crate, a function or type of the code or the tests, a definition or theorem, or a
// must-fail edit. A name that is followed by a file in brackets, alone or as the last of several, stands in that file. Every public function of the
// library stands in the page's table "One answer", and every request with a section on the page has its note in docs/LANDINGS.md.
use std::fs;
use std::path::{Path, PathBuf};

// The files below a folder, but what the toolchain made of a crate, in `out`.
fn files_under(folder: &Path, all: &mut Vec<PathBuf>) {
    for entry in fs::read_dir(folder).expect("the folder can be read") {
        let path = entry.expect("an entry").path();
        match path.is_dir() {
            true if path.ends_with("out") => {}
            true => files_under(&path, all),
            false => all.push(path),
        }
    }
}

// Whether a source declares the name: `fn name`, `struct name`, `enum name` in code, `name :` or `name` and its arguments at a line's start in antt.
fn declares(path: &Path, name: &str) -> bool {
    let Ok(text) = fs::read_to_string(path) else { return false };
    let name = name.rsplit("::").next().unwrap();
    let code = matches!(path.extension().and_then(|e| e.to_str()), Some("rt" | "rs"));
    let ends = |rest: &str| !rest.starts_with(|c: char| c.is_alphanumeric() || c == '_' || c == '-');
    text.lines().any(|line| {
        let mut words = line.trim_start();
        let prefixes: &[&str] = if code { &["pub ", "pub(crate) ", "extern \"C\" "] } else { &["abbrev ", "unfoldable ", "pub ", "data ", "record "] };
        while let Some(rest) = prefixes.iter().find_map(|prefix| words.strip_prefix(prefix)) {
            words = rest;
        }
        if !code {
            return words.strip_prefix(name).is_some_and(ends);
        }
        ["fn ", "struct ", "enum "].iter().any(|kind| words.strip_prefix(kind).and_then(|rest| rest.strip_prefix(name)).is_some_and(ends))
    })
}

// A file of the product by the name that the page gives it.
fn file(name: &str) -> Option<PathBuf> {
    [format!("crates/{name}"), name.to_string()].into_iter().map(PathBuf::from).find(|path| name.contains('/') && path.exists())
}

fn exists(name: &str, sources: &[PathBuf]) -> bool {
    let edit = format!("{name}.edit");
    file(name).is_some()
        || Path::new("crates").join(name).is_dir()
        || sources.iter().any(|path| path.file_name().is_some_and(|f| f.to_str() == Some(&edit)) || declares(path, name))
}

// The names of the public functions of a source of Rattle.
fn public_functions(path: &Path) -> Vec<String> {
    let text = fs::read_to_string(path).expect("the source can be read");
    let name = |line: &str| {
        let rest = ["pub fn ", "pub extern \"C\" fn "].iter().find_map(|kind| line.trim_start().strip_prefix(kind))?;
        Some(rest.split(['(', '<']).next()?.to_string())
    };
    text.lines().filter_map(name).collect()
}

fn main() {
    let mut sources = Vec::new();
    for folder in ["crates", "tests"] {
        files_under(Path::new(folder), &mut sources);
    }
    // Other files name things too, as the test vectors do, and declare none.
    sources.retain(|path| matches!(path.extension().and_then(|e| e.to_str()), Some("rt" | "rs" | "antt" | "edit")));
    let page = fs::read_to_string("docs/TRACE.md").expect("the page can be read");
    let (mut count, mut missing) = (0, 0);
    let mut miss = |what: String| {
        println!("docs/TRACE.md: {what}");
        missing += 1;
    };
    for row in page.lines().filter(|line| line.starts_with('|')) {
        let met_by = row.splitn(3, '|').nth(2).unwrap_or("");
        // Odd pieces stand between backticks. Names wait for the file that may follow them.
        let pieces: Vec<&str> = met_by.split('`').collect();
        let mut waiting: Vec<&str> = Vec::new();
        for i in (1..pieces.len()).step_by(2) {
            let name = pieces[i];
            count += 1;
            if !exists(name, &sources) {
                miss(format!("there is no {name}"));
            }
            match (pieces[i - 1].ends_with('('), file(name)) {
                (true, Some(path)) if path.is_file() => {
                    for waits in waiting.drain(..).filter(|waits| !declares(&path, waits)) {
                        miss(format!("{waits} is not in {name}"));
                    }
                }
                _ => {
                    if !matches!(pieces[i - 1].trim(), "," | "and" | "(") {
                        waiting.clear();
                    }
                    waiting.push(name);
                }
            }
        }
    }
    let one_answer = page.split("\n## One answer\n").nth(1).unwrap_or("");
    let functions: Vec<String> = sources.iter().filter(|path| path.extension().is_some_and(|e| e == "rt")).flat_map(|path| public_functions(path)).collect();
    for function in functions.iter().filter(|function| !one_answer.contains(&format!("`{function}`"))) {
        miss(format!("{function} is not under \"One answer\""));
    }
    let notes = fs::read_to_string("docs/LANDINGS.md").expect("the notes can be read");
    let requests: Vec<&str> = page.lines().filter_map(|line| line.strip_prefix("### Order ")).collect();
    for request in requests.iter().filter(|request| !notes.lines().any(|line| line.strip_prefix("## Order ") == Some(**request))) {
        miss(format!("docs/LANDINGS.md has no note on order {request}"));
    }
    assert!(count > 0 && !functions.is_empty() && !requests.is_empty(), "docs/TRACE.md names nothing");
    assert!(missing == 0, "{missing} names are wrong or missing, of {count}");
    println!(
        "trace: {count} names, and all of them exist where the page says; {} public functions with one answer each; requests with a note: {}",
        functions.len(),
        requests.len()
    );
}
