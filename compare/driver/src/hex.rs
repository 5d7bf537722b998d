//! Bytes as lower-case hex, and back.

/// Two digits for each byte, nothing between them.
pub fn show(bytes: &[u8]) -> String {
    bytes.iter().map(|b| format!("{b:02x}")).collect()
}

/// Reads hex with or without spaces. `aa*3` stands for `aa aa aa`: a star and a count repeat what stands before them.
pub fn read(text: &str) -> Result<Vec<u8>, String> {
    let (digits, count) = match text.split_once('*') {
        Some((digits, count)) => (digits, count.parse().map_err(|_| format!("no count: {text}"))?),
        None => (text, 1),
    };
    let digits: Vec<char> = digits.chars().filter(|c| *c != ' ').collect();
    if digits.len() % 2 == 1 {
        return Err(format!("odd number of digits: {text}"));
    }
    let byte = |pair: &[char]| u8::from_str_radix(&pair.iter().collect::<String>(), 16);
    let once: Result<Vec<u8>, _> = digits.chunks(2).map(byte).collect();
    Ok(once.map_err(|_| format!("not hex: {text}"))?.repeat(count))
}

/// Joins what each text stands for.
pub fn read_all(texts: &[String]) -> Result<Vec<u8>, String> {
    let parts: Result<Vec<_>, _> = texts.iter().map(|text| read(text)).collect();
    Ok(parts?.concat())
}
