//! Stand-in for `itertools`: `powerset` (subsets by size, then lexicographic, the order of `elements`)
//! and `cartesian_product` (the right factor runs fastest: the phases of `elements`).

pub trait Itertools: Iterator + Sized {
    fn powerset(self) -> Powerset<Self::Item>
    where
        Self::Item: Clone,
    {
        Powerset { pool: self.collect(), indexes: Some(Vec::new()) }
    }

    fn cartesian_product<J>(self, other: J) -> Product<Self, J::IntoIter>
    where
        J: IntoIterator,
        J::IntoIter: Clone,
        Self::Item: Clone,
    {
        let right = other.into_iter();
        Product { left: self, current: None, right: right.clone(), restart: right }
    }
}

impl<I: Iterator> Itertools for I {}

pub struct Powerset<T> {
    pool: Vec<T>,
    /// The next subset to hand out, as rising indexes.
    indexes: Option<Vec<usize>>,
}

impl<T: Clone> Iterator for Powerset<T> {
    type Item = Vec<T>;

    fn next(&mut self) -> Option<Vec<T>> {
        let indexes = self.indexes.take()?;
        let subset = indexes.iter().map(|&i| self.pool[i].clone()).collect();
        self.indexes = following(indexes, self.pool.len());
        Some(subset)
    }
}

/// The subset of 0..n after `indexes`: the next of the same size, else the first of the next size.
fn following(mut indexes: Vec<usize>, n: usize) -> Option<Vec<usize>> {
    let k = indexes.len();
    for place in (0..k).rev() {
        if indexes[place] < n - (k - place) {
            indexes[place] += 1;
            for later in place + 1..k {
                indexes[later] = indexes[later - 1] + 1;
            }
            return Some(indexes);
        }
    }
    (k < n).then(|| (0..=k).collect())
}

pub struct Product<I: Iterator, J> {
    left: I,
    current: Option<I::Item>,
    right: J,
    restart: J,
}

impl<I: Iterator, J: Iterator + Clone> Iterator for Product<I, J>
where
    I::Item: Clone,
{
    type Item = (I::Item, J::Item);

    fn next(&mut self) -> Option<Self::Item> {
        loop {
            if self.current.is_none() {
                self.current = Some(self.left.next()?);
                self.right = self.restart.clone();
            }
            if let Some(right) = self.right.next() {
                return Some((self.current.clone()?, right));
            }
            self.current = None;
        }
    }
}

#[test]
fn subsets_by_size_then_lexicographic() {
    let all: Vec<Vec<u8>> = [0u8, 1, 2].into_iter().powerset().collect();
    assert_eq!(all, [vec![], vec![0], vec![1], vec![2], vec![0, 1], vec![0, 2], vec![1, 2], vec![0, 1, 2]]);
    assert_eq!(std::iter::empty::<u8>().powerset().count(), 1);
    let pairs: Vec<(u8, char)> = (0..2u8).cartesian_product(vec!['a', 'b']).collect();
    assert_eq!(pairs, [(0, 'a'), (0, 'b'), (1, 'a'), (1, 'b')]);
}
