//! The tokens that declarations in Rattle, Rust and C are made of.

/// Words, strings and single other characters; without comments, lifetimes and lines of the C preprocessor.
pub fn tokens(text: &str) -> Vec<String> {
    let directive = |line: &&str| ["#if", "#endif", "#define", "#include"].iter().any(|word| line.starts_with(word));
    let text: Vec<&str> = text.lines().filter(|line| !directive(line)).collect();
    let text = text.join("\n");
    let mut rest = text.as_str();
    let mut out = Vec::new();
    while let Some(c) = rest.chars().next() {
        let length = length_of_token(rest);
        let skipped = c.is_whitespace() || c == '\'' || rest.starts_with("//") || rest.starts_with("/*");
        if !skipped {
            out.push(rest[..length].to_owned());
        }
        rest = &rest[length..];
    }
    out
}

fn length_of_token(rest: &str) -> usize {
    let c = rest.chars().next().unwrap();
    let end_of = |end: &str| rest[1..].find(end).map_or(rest.len(), |n| 1 + n + end.len());
    let of_word = |c: char| c.is_alphanumeric() || c == '_';
    match c {
        _ if rest.starts_with("//") => rest.find('\n').unwrap_or(rest.len()),
        _ if rest.starts_with("/*") => end_of("*/"),
        '"' => end_of("\""),
        '\'' => 1 + rest[1..].find(|c| !of_word(c)).unwrap_or(rest.len() - 1),
        c if of_word(c) => rest.find(|c| !of_word(c)).unwrap_or(rest.len()),
        c => c.len_utf8(),
    }
}

/// Where such a sequence of tokens starts, after an offset.
pub fn find(tokens: &[String], from: usize, sequence: &[&str]) -> Option<usize> {
    (from..tokens.len()).find(|&n| starts_with(&tokens[n..], sequence))
}

pub fn starts_with(tokens: &[String], sequence: &[&str]) -> bool {
    tokens.len() >= sequence.len() && tokens.iter().zip(sequence).all(|(a, b)| a == b)
}

/// The tokens between the bracket at `open` and its first `close`.
pub fn bracketed<'a>(tokens: &'a [String], open: usize, close: &str) -> &'a [String] {
    let end = find(tokens, open, &[close]).unwrap_or(tokens.len());
    &tokens[open + 1..end]
}
