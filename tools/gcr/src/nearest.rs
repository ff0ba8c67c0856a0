//! The right word that is nearest to a wrong one.

/// Of these the one that takes the fewest changes, if they are few.
pub fn nearest<'a>(word: &str, right: impl IntoIterator<Item = &'a str>) -> Option<&'a str> {
    let word = word.to_ascii_lowercase();
    let most = word.chars().count() / 2;
    let changed = right.into_iter().map(|each| (changes(&word, &each.to_ascii_lowercase()), each));
    changed.filter(|&(changes, _)| changes <= most.max(1)).min_by_key(|&(changes, _)| changes).map(|(_, each)| each)
}

/// `; the nearest is causal`, or nothing.
pub fn hint<'a>(word: &str, right: impl IntoIterator<Item = &'a str>) -> String {
    nearest(word, right).map_or(String::new(), |right| format!("; the nearest is {right}"))
}

/// The letters to put in, to take out, to replace or to swap with the next.
fn changes(one: &str, other: &str) -> usize {
    let (one, other): (Vec<char>, Vec<char>) = (one.chars().collect(), other.chars().collect());
    let mut rows: Vec<Vec<usize>> = vec![(0..=other.len()).collect()];
    for i in 1..=one.len() {
        let mut row = vec![i];
        for j in 1..=other.len() {
            let replaced = rows[i - 1][j - 1] + usize::from(one[i - 1] != other[j - 1]);
            let mut fewest = replaced.min(rows[i - 1][j] + 1).min(row[j - 1] + 1);
            if i > 1 && j > 1 && one[i - 1] == other[j - 2] && one[i - 2] == other[j - 1] {
                fewest = fewest.min(rows[i - 2][j - 2] + 1);
            }
            row.push(fewest);
        }
        rows.push(row);
    }
    rows[one.len()][other.len()]
}

#[cfg(test)]
mod tests {
    use super::*;

    #[test]
    fn the_nearest_word_takes_the_fewest_changes() {
        let commands = ["judge", "show", "make", "explain", "rehearse", "draw"];
        assert_eq!(nearest("jugde", commands), Some("judge"));
        assert_eq!(nearest("Explian", commands), Some("explain"));
        assert_eq!(nearest("reherse", commands), Some("rehearse"));
        assert_eq!(nearest("zzzzz", commands), None);
        assert_eq!(nearest("casual", ["causal", "regular"]), Some("causal"));
    }
}
