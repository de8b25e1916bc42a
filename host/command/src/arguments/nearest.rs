//! The known name that a mistyped one is near to.

/// The known name nearest to a mistyped one: at most two letters put in, left out, replaced or exchanged with a neighbour, and fewer
/// than the name has.
///
/// ```
/// # use command::arguments::nearest;
/// let known = ["kind", "width", "at"];
/// assert_eq!(nearest("knid", known.into_iter()), Some("kind"));
/// assert_eq!(nearest("wdth", known.into_iter()), Some("width"));
/// assert_eq!(nearest("xy", known.into_iter()), None);
/// assert_eq!(nearest("colour", known.into_iter()), None);
/// ```
pub fn nearest(typed: &str, known: impl Iterator<Item = &'static str>) -> Option<&'static str> {
    let typed: Vec<char> = typed.chars().take(32).collect();
    known
        .map(|name| (distance(&typed, &name.chars().collect::<Vec<_>>()), name))
        .filter(|&(distance, name)| distance <= 2 && distance < name.chars().count())
        .min_by_key(|&(distance, _)| distance)
        .map(|(_, name)| name)
}

/// How many letters are to be put in, left out, replaced or exchanged with a neighbour to turn one word into the other.
fn distance(from: &[char], to: &[char]) -> usize {
    let mut rows = vec![vec![0; to.len() + 1]; from.len() + 1];
    for (i, row) in rows.iter_mut().enumerate() {
        row[0] = i;
    }
    for (j, cell) in rows[0].iter_mut().enumerate() {
        *cell = j;
    }
    for i in 1..=from.len() {
        for j in 1..=to.len() {
            let same = usize::from(from[i - 1] != to[j - 1]);
            let mut least = (rows[i - 1][j] + 1)
                .min(rows[i][j - 1] + 1)
                .min(rows[i - 1][j - 1] + same);
            if i > 1 && j > 1 && from[i - 1] == to[j - 2] && from[i - 2] == to[j - 1] {
                least = least.min(rows[i - 2][j - 2] + 1);
            }
            rows[i][j] = least;
        }
    }
    rows[from.len()][to.len()]
}
