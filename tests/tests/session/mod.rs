//! Sessions of the reference.

/// The replies to the lines, one after another from a fresh block.
pub fn replies(lines: &[&str]) -> Vec<String> {
    let mut output = Vec::new();
    reference::session(lines.join("\n").as_bytes(), &mut output).unwrap();
    let output = String::from_utf8(output).unwrap();
    output.lines().map(String::from).collect()
}

/// The reply to the last line.
pub fn last(lines: &[&str]) -> String {
    replies(lines).pop().unwrap()
}
