//! The names that the comparison uses. They are fewer than T = 256, so that the room is never full (document 01's domain), and all are UTF-8.

/// The desk's airlines.
pub fn airlines() -> Vec<Vec<u8>> {
    (0..60).map(|n| format!("{}{:02}", ["TP", "LH", "KL", "AF"][n % 4], n).into_bytes()).collect()
}

/// The empty name, prefixes of each other, bytes 0, characters of several bytes, the longest names.
pub fn odd() -> Vec<Vec<u8>> {
    let mut names: Vec<Vec<u8>> = Vec::new();
    for n in 0..=24 {
        names.push(vec![b'A'; n]);
        names.push([vec![b'A'; n.min(23)], vec![0]].concat());
    }
    for n in 1..=8 {
        names.push("é".repeat(n).into_bytes());
        names.push("日本航空".chars().take(n).collect::<String>().into_bytes());
        names.push(vec![0; n]);
        names.push([b"Q".to_vec(), vec![b'1'; n]].concat());
    }
    names.push("✈ SAS".as_bytes().to_vec());
    names.push("\u{10ffff}".repeat(6).into_bytes());
    names.sort();
    names.dedup();
    names
}
