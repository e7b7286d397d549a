//! What the archive's source, the C header and the Rust declarations declare, in one form.

use crate::tokens::{bracketed, find, starts_with, tokens};

/// A name and a type in the words of Rust.
pub type Typed = (String, String);

#[derive(Clone, Debug, Default, PartialEq, Eq)]
pub struct Declared {
    pub structs: Vec<(String, Vec<Typed>)>,
    /// Name, parameters and result.
    pub functions: Vec<(String, Vec<Typed>, String)>,
}

const REPR_C: [&str; 7] = ["#", "[", "repr", "(", "C", ")", "]"];

/// The exported functions and structs of the archive's source, with a pointer and a length for each slice.
pub fn of_rattle(text: &str) -> Result<Declared, String> {
    let tokens = tokens(text);
    let functions = rust_functions(&tokens, &["pub", "extern", "\"C\"", "fn"])?;
    Ok(Declared { structs: rust_structs(&tokens)?, functions: functions.into_iter().map(as_called).collect() })
}

/// The structs and functions of the extern block in Rust.
pub fn of_rust(text: &str) -> Result<Declared, String> {
    let tokens = tokens(text);
    Ok(Declared { structs: rust_structs(&tokens)?, functions: rust_functions(&tokens, &["pub", "fn"])? })
}

pub fn of_c(text: &str) -> Result<Declared, String> {
    let tokens = tokens(text);
    let mut declared = Declared::default();
    let mut at = 0;
    while let Some(found) = find(&tokens, at, &["typedef", "struct"]) {
        let (name, open) = (&tokens[found + 2], found + 3);
        let fields = bracketed(&tokens, open, "}");
        at = open + 1 + fields.len();
        if !starts_with(&tokens[at..], &["}", name, ";"]) {
            return Err(format!("struct {name} has another type name"));
        }
        let fields: Result<_, _> = fields.split_inclusive(|t| t == ";").map(|f| c_typed(&f[..f.len() - 1])).collect();
        declared.structs.push((camel(name), fields?));
    }
    for open in (at + 3..tokens.len()).filter(|&n| tokens[n] == "(") {
        let parameters: Result<_, _> = bracketed(&tokens, open, ")").split(|t| t == ",").map(c_typed).collect();
        declared.functions.push((tokens[open - 1].clone(), parameters?, camel(&tokens[open - 2])));
    }
    Ok(declared)
}

fn rust_structs(tokens: &[String]) -> Result<Vec<(String, Vec<Typed>)>, String> {
    let mut out = Vec::new();
    let mut at = 0;
    while let Some(found) = find(tokens, at, &["pub", "struct"]) {
        let name = &tokens[found + 2];
        if found < REPR_C.len() || !starts_with(&tokens[found - REPR_C.len()..], &REPR_C) {
            return Err(format!("struct {name} is not of C's layout"));
        }
        let fields = bracketed(tokens, found + 3, "}");
        let fields = fields.split(|t| t == ",").filter(|f| !f.is_empty());
        let fields: Result<_, _> =
            fields.map(|f| rust_typed(f.strip_prefix(&["pub".to_owned()]).unwrap_or(f))).collect();
        out.push((name.clone(), fields?));
        at = found + 1;
    }
    Ok(out)
}

fn rust_functions(tokens: &[String], start: &[&str]) -> Result<Vec<(String, Vec<Typed>, String)>, String> {
    let mut out = Vec::new();
    let mut at = 0;
    while let Some(found) = find(tokens, at, start) {
        at = found + start.len();
        let name = tokens[at].clone();
        let open = find(tokens, at, &["("]).ok_or("a function without parameters")?;
        let parameters = bracketed(tokens, open, ")");
        let after = open + parameters.len() + 2;
        let parameters = parameters.split(|t| t == ",").filter(|p| !p.is_empty());
        let parameters: Result<_, _> = parameters.map(rust_typed).collect();
        if !starts_with(&tokens[after..], &["-", ">"]) {
            return Err(format!("{name} has no result"));
        }
        out.push((name, parameters?, tokens[after + 2].clone()));
    }
    Ok(out)
}

/// `name: type`.
fn rust_typed(tokens: &[String]) -> Result<Typed, String> {
    let [name, colon, kind @ ..] = tokens else { return Err(format!("{tokens:?} is no declaration")) };
    let kind = kind.concat();
    match (colon.as_str(), kind.as_str()) {
        (":", "u64" | "usize" | "*constu8" | "*mutu8" | "&[u8]" | "&mut[u8]") => Ok((name.clone(), kind)),
        _ => Err(format!("{tokens:?} has another type")),
    }
}

/// `type name`, with the type in Rust's words.
fn c_typed(tokens: &[String]) -> Result<Typed, String> {
    let [kind @ .., name] = tokens else { return Err("a declaration is empty".to_owned()) };
    let kind = match kind.concat().as_str() {
        "uint64_t" => "u64",
        "size_t" => "usize",
        "constuint8_t*" => "*constu8",
        "uint8_t*" => "*mutu8",
        _ => return Err(format!("{tokens:?} has another type")),
    };
    Ok((name.clone(), kind.to_owned()))
}

/// A slice is passed as its pointer and its length.
fn as_called((name, parameters, result): (String, Vec<Typed>, String)) -> (String, Vec<Typed>, String) {
    let called = |(name, kind): Typed| {
        let pointer = match kind.as_str() {
            "&[u8]" => "*constu8",
            "&mut[u8]" => "*mutu8",
            _ => return vec![(name, kind)],
        };
        let length = (format!("{name}_length"), "usize".to_owned());
        vec![(name, pointer.to_owned()), length]
    };
    (name, parameters.into_iter().flat_map(called).collect(), result)
}

/// `fql_refusal` as `FqlRefusal`.
fn camel(name: &str) -> String {
    let upper = |word: &str| word[..1].to_uppercase() + &word[1..];
    name.split('_').filter(|word| !word.is_empty()).map(upper).collect()
}
