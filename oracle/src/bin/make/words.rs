/// All strings of n letters over an alphabet.
pub fn words_of(alphabet: &[&str], n: usize) -> Vec<String> {
    let longer = |w: String| alphabet.iter().map(move |a| format!("{w}{a}"));
    (0..n).fold(vec![String::new()], |all, _| all.into_iter().flat_map(longer).collect())
}

/// All of at most n letters, the shortest first.
pub fn words(alphabet: &[&str], n: usize) -> Vec<String> {
    (0..=n).flat_map(|length| words_of(alphabet, length)).collect()
}
