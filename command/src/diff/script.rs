//! The shortest way from one list to another, by what is removed and added.

/// A step of it, with places in the one list and in the other.
#[derive(Debug, Clone, Copy, PartialEq, Eq)]
pub enum Edit {
    Same(usize, usize),
    Removed(usize),
    Added(usize),
}

/// Lists that are further apart than so many steps are taken for different as a whole.
const MOST: usize = 4096;

/// What stands for a place that can't be come to.
const NOWHERE: i64 = i64::MIN / 2;

pub fn script(a: &[u32], b: &[u32]) -> Vec<Edit> {
    let front = a.iter().zip(b).take_while(|(a, b)| a == b).count();
    let most = a.len().min(b.len()) - front;
    let backward = a.iter().rev().zip(b.iter().rev()).take(most);
    let back = backward.take_while(|(a, b)| a == b).count();

    let mut edits: Vec<Edit> = (0..front).map(|place| Edit::Same(place, place)).collect();
    let (end_a, end_b) = (a.len() - back, b.len() - back);
    let moved = |edit| match edit {
        Edit::Same(i, j) => Edit::Same(front + i, front + j),
        Edit::Removed(i) => Edit::Removed(front + i),
        Edit::Added(j) => Edit::Added(front + j),
    };
    match between(&a[front..end_a], &b[front..end_b]) {
        Some(between) => edits.extend(between.into_iter().map(moved)),
        None => {
            edits.extend((front..end_a).map(Edit::Removed));
            edits.extend((front..end_b).map(Edit::Added));
        }
    }
    edits.extend((0..back).map(|far| Edit::Same(end_a + far, end_b + far)));
    edits
}

/// How far in `a` each diagonal, place in `a` less place in `b`, is come to by so many steps: from `-steps` on, every second one.
type Reach = Vec<i64>;

/// E. Myers, "An O(ND) Difference Algorithm and Its Variations": with each step all diagonals go as far as they can.
fn between(a: &[u32], b: &[u32]) -> Option<Vec<Edit>> {
    let (columns, rows) = (a.len() as i64, b.len() as i64);
    let mut reaches: Vec<Reach> = Vec::new();
    for steps in 0..=(a.len() + b.len()).min(MOST) as i64 {
        let mut reach = Reach::new();
        for diagonal in (-steps..=steps).step_by(2) {
            let mut x = match reaches.last() {
                None => 0,
                Some(last) => begins(last, steps, diagonal, columns, rows),
            };
            while x >= 0
                && x < columns
                && x - diagonal < rows
                && a[x as usize] == b[(x - diagonal) as usize]
            {
                x += 1;
            }
            reach.push(x);
            if x == columns && x - diagonal == rows {
                reaches.push(reach);
                return Some(traced(&reaches, columns, rows));
            }
        }
        reaches.push(reach);
    }
    None
}

/// Where a diagonal begins after one more step: behind a word that is added, or behind one that is removed, whichever is further.
fn begins(last: &Reach, steps: i64, diagonal: i64, columns: i64, rows: i64) -> i64 {
    let at = |diagonal: i64| {
        let place = (diagonal + steps - 1) / 2;
        let is_there = diagonal > -steps && diagonal < steps;
        last.get(place as usize)
            .copied()
            .filter(|_| is_there)
            .unwrap_or(NOWHERE)
    };
    let (added, removed) = (at(diagonal + 1), at(diagonal - 1) + 1);
    let added = if added - diagonal <= rows {
        added
    } else {
        NOWHERE
    };
    let removed = if removed <= columns { removed } else { NOWHERE };
    added.max(removed).max(NOWHERE)
}

/// The way back from the end of both.
fn traced(reaches: &[Reach], columns: i64, rows: i64) -> Vec<Edit> {
    let (mut x, mut y) = (columns, rows);
    let mut edits = Vec::new();
    for steps in (0..reaches.len() as i64).rev() {
        let diagonal = x - y;
        let begin = match steps {
            0 => 0,
            _ => begins(&reaches[steps as usize - 1], steps, diagonal, columns, rows),
        };
        while x > begin {
            (x, y) = (x - 1, y - 1);
            edits.push(Edit::Same(x as usize, y as usize));
        }
        if steps == 0 {
            break;
        }
        let before = &reaches[steps as usize - 1];
        let place = (diagonal + steps) / 2;
        let comes_down = diagonal < steps - 1 && before.get(place as usize) == Some(&x);
        if comes_down {
            y -= 1;
            edits.push(Edit::Added(y as usize));
        } else {
            x -= 1;
            edits.push(Edit::Removed(x as usize));
        }
    }
    edits.reverse();
    edits
}

#[cfg(test)]
mod tests {
    use super::*;

    /// How many words both have in common at best, by the plain table.
    fn common(a: &[u32], b: &[u32]) -> usize {
        let mut table = vec![vec![0; b.len() + 1]; a.len() + 1];
        for i in (0..a.len()).rev() {
            for j in (0..b.len()).rev() {
                table[i][j] = if a[i] == b[j] {
                    table[i + 1][j + 1] + 1
                } else {
                    table[i + 1][j].max(table[i][j + 1])
                };
            }
        }
        table[0][0]
    }

    fn holds(a: &[u32], b: &[u32]) {
        let edits = script(a, b);
        let (mut i, mut j, mut same) = (0, 0, 0);
        for edit in edits {
            match edit {
                Edit::Same(x, y) => {
                    assert_eq!((x, y), (i, j));
                    assert_eq!(a[x], b[y]);
                    (i, j, same) = (i + 1, j + 1, same + 1);
                }
                Edit::Removed(x) => {
                    assert_eq!(x, i);
                    i += 1;
                }
                Edit::Added(y) => {
                    assert_eq!(y, j);
                    j += 1;
                }
            }
        }
        assert_eq!((i, j), (a.len(), b.len()));
        assert_eq!(same, common(a, b), "{a:?} {b:?}");
    }

    #[test]
    fn a_script_is_whole_and_shortest() {
        let mut seed = 1u32;
        let mut random = |below: u32| {
            seed = seed.wrapping_mul(1_664_525).wrapping_add(1_013_904_223);
            (seed >> 16) % below
        };
        for letters in [1, 2, 3, 20] {
            for _ in 0..2000 {
                let (m, n) = (random(12), random(12));
                let a: Vec<u32> = (0..m).map(|_| random(letters)).collect();
                let b: Vec<u32> = (0..n).map(|_| random(letters)).collect();
                holds(&a, &b);
            }
        }
    }

    #[test]
    fn what_is_too_far_apart_differs_as_a_whole() {
        let a: Vec<u32> = (0..5000).collect();
        let b: Vec<u32> = (5000..10000).collect();
        assert_eq!(script(&a, &b).len(), 10000);
    }
}
