// refusals: the refusals have the same names and numbers everywhere. The list is the definition's, `refusal_number` in crates/terms/specs/Terms.antt; the
// C header, the bindings for Rust, Python and SQL and the page of rules are held to it, none more and none less.

type Refusals = Vec<(String, String)>;

fn lines(path: &str) -> Vec<String> {
    std::fs::read_to_string(path).expect(path).lines().map(|line| line.trim().to_string()).collect()
}

// AreaLimit as C has it: AREA_LIMIT.
fn in_c(name: &str) -> String {
    let mut all = String::new();
    for (i, letter) in name.char_indices() {
        if i > 0 && letter.is_uppercase() {
            all.push('_');
        }
        all.extend(letter.to_uppercase());
    }
    all
}

// The names and numbers that `read` finds in a file's lines.
fn found(path: &str, read: impl Fn(&str) -> Option<(String, String)>) -> Refusals {
    lines(path).iter().filter_map(|line| read(line)).collect()
}

fn owned(name: &str, number: &str) -> Option<(String, String)> {
    number.parse::<u32>().ok().map(|_| (name.to_string(), number.to_string()))
}

// A line of the bindings: `1 Name: ..`, or `11 Name { value: u64, ".." }: ..` where the refusal tells a value.
fn listed(line: &str) -> Option<(String, String)> {
    let (number, name) = line.split_once(':')?.0.split_once(' ')?;
    owned(name.split(" {").next()?, number)
}

// A line of Python's list: `(1, "Name", ..`.
fn listed_in_python(line: &str) -> Option<(String, String)> {
    let (number, rest) = line.strip_prefix('(')?.split_once(", \"")?;
    owned(rest.split('"').next()?, number)
}

// A line of the SQL extension's list: `{UVALINDA_NAME, "Name", ..`, with the number that the header gives the constant.
fn listed_in_sql(line: &str, header: &Refusals) -> Option<(String, String)> {
    let (constant, rest) = line.strip_prefix("{UVALINDA_")?.split_once(", \"")?;
    let (_, number) = header.iter().find(|(name, _)| name == constant)?;
    owned(rest.split('"').next()?, number)
}

fn main() {
    let defined = found("crates/terms/specs/Terms.antt", |line| {
        let (name, number) = line.strip_prefix("refusal_number ")?.split_once(" = ")?;
        owned(name, number)
    });
    assert!(defined.len() > 1, "no refusal is defined");
    let header = found("include/uvalinda.h", |line| {
        let mut words = line.strip_prefix("#define UVALINDA_")?.split_whitespace();
        let (name, number) = (words.next()?, words.next()?.strip_suffix('u')?);
        let kind = name.starts_with("REPLY_") || name.starts_with("BY_");
        let refusal = !name.ends_with("_PLACES") && !kind && name != "ANSWERED" && name != "SHORT_RESULT";
        owned(name, number).filter(|_| refusal)
    });
    let rust = found("bindings/rust/src/refusal.rs", listed);
    let python = found("bindings/python/uvalinda/refusal.py", listed_in_python);
    let sql = found("bindings/sqlite/uvalinda.c", |line| listed_in_sql(line, &header));
    let rules = found("docs/RULES.md", |line| {
        let mut cells = line.strip_prefix("| ")?.split(" | ");
        let (number, name) = (cells.next()?, cells.next()?);
        owned(name.strip_prefix('`')?.strip_suffix('`')?, number)
    });
    let c: Refusals = defined.iter().map(|(name, number)| (in_c(name), number.clone())).collect();
    assert_eq!(c, header, "the C header has other refusals than the definition");
    assert_eq!(defined, rust, "the Rust bindings have other refusals than the definition");
    assert_eq!(defined, python, "the Python bindings have other refusals than the definition");
    assert_eq!(defined, sql, "the SQL extension has other refusals than the definition");
    assert_eq!(defined, rules, "docs/RULES.md has other refusals than the definition");
    println!("refusals: {} names and numbers, the same in definition, header, bindings and rules", defined.len());
}
