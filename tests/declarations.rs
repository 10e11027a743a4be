// declarations RATTLE HEADER RUST: the functions that the library exports are declared in the C header and in the Rust bindings as they are, no more
// and no fewer. Nothing else compares them: a wrong declaration would link.

// A declaration: the function's name, and its parameters as C has them.
type Declared = (String, Vec<String>);

// The text with every stretch of blank space as one space.
fn plain(text: &str) -> String {
    text.split_whitespace().collect::<Vec<_>>().join(" ")
}

// The functions that follow `word` in a source, each name with the text between its brackets. Every one of them has to return `returns`.
fn functions(path: &str, word: &str, returns: &str) -> Vec<(String, String)> {
    let source = std::fs::read_to_string(path).expect("the source can be read");
    let declared = |after: &str| {
        let (name, rest) = after.split_once('(').expect("a parameter list");
        let (parameters, behind) = rest.split_once(')').expect("its end");
        assert!(behind.trim_start().starts_with(returns), "{path}: {name} returns something else than a 32-bit number");
        (name.to_string(), plain(parameters).trim_end_matches(',').to_string())
    };
    let code: String = source.lines().filter(|line| !line.trim_start().starts_with(['*', '/'])).map(|line| line.to_string() + "\n").collect();
    let all: Vec<_> = code.split(&format!("{word}uvalinda_")).skip(1).map(declared).collect();
    assert_eq!(all.len(), code.matches("uvalinda_").count(), "{path}: a function that is declared in another form");
    all
}

// A C type for a number's name in Rattle or Rust.
fn c_type(number: &str) -> &'static str {
    match number {
        "u8" => "uint8_t",
        "u32" => "uint32_t",
        "u64" => "uint64_t",
        "i32" => "int32_t",
        "i64" => "int64_t",
        "usize" => "size_t",
        _ => panic!("no C type for {number}"),
    }
}

// A parameter `name: type` as C has it; a slice of Rattle's is a pointer and a length. In Rattle `result` is what a function returns, so that the parameter
// which C calls so is `res` there.
fn c_parameters(parameter: &str) -> Vec<String> {
    let (name, kind) = parameter.split_once(": ").expect("a name and a type");
    let name = if name == "res" { "result" } else { name };
    let pointer = |constant: &str, element: &str| format!("{constant}{} *{name}", c_type(element));
    let slice = |constant: &str, element: &str| vec![pointer(constant, element.trim_end_matches(']')), format!("size_t {name}_length")];
    match kind {
        _ if kind.starts_with("&mut [") => slice("", &kind[6..]),
        _ if kind.starts_with("&[") => slice("const ", &kind[2..]),
        _ if kind.starts_with("*mut ") => vec![pointer("", &kind[5..])],
        _ if kind.starts_with("*const ") => vec![pointer("const ", &kind[7..])],
        _ => vec![format!("{} {name}", c_type(kind))],
    }
}

fn sorted(functions: Vec<(String, String)>, parameters: impl Fn(&str) -> Vec<String>) -> Vec<Declared> {
    let mut all: Vec<Declared> = functions.into_iter().map(|(name, list)| (name, list.split(", ").flat_map(&parameters).collect())).collect();
    all.sort();
    all
}

fn main() {
    let paths: Vec<String> = std::env::args().skip(1).collect();
    let exported = sorted(functions(&paths[0], "pub extern \"C\" fn ", "-> u32"), c_parameters);
    let header = sorted(functions(&paths[1], "uint32_t ", ";"), |parameter| vec![parameter.to_string()]);
    let bindings = sorted(functions(&paths[2], "pub fn ", "-> u32;"), c_parameters);
    assert!(!exported.is_empty(), "no function is exported");
    assert_eq!(exported, header, "the C header declares something else than the library exports");
    assert_eq!(exported, bindings, "the Rust bindings declare something else than the library exports");
    println!("declarations: {} functions, as the library exports them", exported.len());
}
