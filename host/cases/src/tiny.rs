//! All small texts over an alphabet of tokens, each with a number.

/// Bytes and short words of the format.
pub const TOKENS: [&str; 21] = [
    "S", "L", "P", "W", "H", "#", "\t", "\n", "\r\n", "1", "2", "+", "-", "*", ",", ">", "<", "A",
    "AC", "0M", "x",
];

/// Whole lines and pieces of path lines, so that few of them make a graph.
pub const PIECES: [&str; 21] = [
    "S\t1\tAC\n",
    "S\t2\tG\n",
    "S\t1\t*\n",
    "S\ta-\tT\n",
    "L\t1\t+\t1\t+\t0M\n",
    "L\t1\t+\t1\t-\t0M\n",
    "L\t2\t-\t2\t-\t*\n",
    "L\ta-\t+\ta-\t+\t0M\n",
    "P\tp\t",
    "W\ts\t0\tw\t0\t4\t",
    "1+,1+",
    "1-,",
    "2+,2+",
    "a-+,a-+,",
    ">1>1",
    "<2<2",
    "\t*\n",
    "\n",
    "\r\n",
    "H\n",
    "x\n",
];

/// The text of a number: no token, then each token, then each pair, and so on.
pub fn text(alphabet: &[&str], number: u64) -> Vec<u8> {
    let base = alphabet.len() as u64;
    let mut tokens = Vec::new();
    let mut rest = number;
    while rest > 0 {
        tokens.push(alphabet[((rest - 1) % base) as usize]);
        rest = (rest - 1) / base;
    }
    tokens.reverse();
    tokens.concat().into_bytes()
}

/// How many texts have at most so many tokens: they are the first numbers.
pub fn count(alphabet: &[&str], tokens: u32) -> u64 {
    (0..=tokens)
        .map(|length| (alphabet.len() as u64).pow(length))
        .sum()
}

#[cfg(test)]
mod tests {
    use super::*;

    #[test]
    fn every_word_once() {
        let alphabet = ["a", "b", "c"];
        let words: Vec<_> = (0..count(&alphabet, 4))
            .map(|number| text(&alphabet, number))
            .collect();
        let mut distinct = words.clone();
        distinct.sort();
        distinct.dedup();
        assert_eq!(words.len(), 1 + 3 + 9 + 27 + 81);
        assert_eq!(distinct.len(), words.len());
        assert!(words.iter().all(|word| word.len() <= 4));
    }
}
