//! Makes an input smaller while a difference stays.

/// The most inputs that are tried; each is a run of the product.
const TRIES_MAX: usize = 4000;

/// The smallest input found for which the question still holds.
pub fn shrink(input: &[u8], differs: impl FnMut(&[u8]) -> bool) -> Vec<u8> {
    let mut search = Search {
        differs,
        tries_left: TRIES_MAX,
        ending: !input.ends_with(b"\n"),
    };
    let mut lines: Vec<Vec<u8>> = input
        .split_inclusive(|&byte| byte == b'\n')
        .map(|line| line.strip_suffix(b"\n").unwrap_or(line).to_vec())
        .collect();
    if search.ending {
        // Most often the missing line end does not matter.
        search.ending = false;
        search.ending = !search.holds(&lines);
    }
    loop {
        let before = joined(&lines, search.ending).len();
        lines = search.fewer_lines(lines);
        lines = search.shorter_lines(lines);
        if joined(&lines, search.ending).len() == before || search.tries_left == 0 {
            return joined(&lines, search.ending);
        }
    }
}

struct Search<F> {
    differs: F,
    tries_left: usize,
    /// Whether the last line lacks its LF.
    ending: bool,
}

impl<F: FnMut(&[u8]) -> bool> Search<F> {
    fn holds(&mut self, lines: &[Vec<u8>]) -> bool {
        if self.tries_left == 0 {
            return false;
        }
        self.tries_left -= 1;
        (self.differs)(&joined(lines, self.ending))
    }

    fn fewer_lines(&mut self, lines: Vec<Vec<u8>>) -> Vec<Vec<u8>> {
        fewer(lines, |fewer| self.holds(fewer))
    }

    fn shorter_lines(&mut self, mut lines: Vec<Vec<u8>>) -> Vec<Vec<u8>> {
        for index in 0..lines.len() {
            let line = lines[index].clone();
            lines[index] = fewer(line, |shorter| {
                let mut tried = lines.clone();
                tried[index] = shorter.to_vec();
                self.holds(&tried)
            });
        }
        lines
    }
}

/// Leaves out items, many at once and then few, while the question holds.
fn fewer<T: Clone>(mut items: Vec<T>, mut holds: impl FnMut(&[T]) -> bool) -> Vec<T> {
    let mut size = items.len().div_ceil(2);
    while size > 0 {
        let mut at = 0;
        while at < items.len() {
            let end = items.len().min(at + size);
            let left = [&items[..at], &items[end..]].concat();
            if holds(&left) {
                items = left;
            } else {
                at = end;
            }
        }
        size /= 2;
    }
    items
}

fn joined(lines: &[Vec<u8>], lacks_end: bool) -> Vec<u8> {
    let mut input = Vec::new();
    for line in lines {
        input.extend_from_slice(line);
        input.push(b'\n');
    }
    if lacks_end {
        input.pop();
    }
    input
}

#[cfg(test)]
mod tests {
    use super::*;

    fn holds(input: &[u8], part: &[u8]) -> bool {
        input.windows(part.len()).any(|window| window == part)
    }

    #[test]
    fn what_does_not_matter_is_left_out() {
        let input: Vec<u8> = (0..300)
            .flat_map(|n| format!("line {n}\n").into_bytes())
            .collect();
        let small = shrink(&input, |input| {
            holds(input, b"17\n") && holds(input, b"9\n")
        });
        assert_eq!(small, b"17\n9\n");
    }

    #[test]
    fn a_missing_line_end_stays_if_it_matters() {
        let small = shrink(b"one\ntwo\nthree", |input| input.ends_with(b"e"));
        assert_eq!(small, b"e");
        let small = shrink(b"one\ntwo\nthree", |input| holds(input, b"r"));
        assert_eq!(small, b"r\n");
    }

    #[test]
    fn nothing_is_lost_where_all_matters() {
        let input = b"a\nb\n";
        assert_eq!(shrink(input, |smaller| smaller == input), input);
    }
}
