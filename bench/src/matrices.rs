//! The echelon form alone, against M4RI on [A | I], so that both sides pay for the transform. Copying the input into place is timed
//! on both sides.
use crate::m4ri::{Matrix, WAYS};
use crate::random::Random;
use crate::timing::{compare, Figures, Plan};
use howhiruke::Formation;
use std::hint::black_box;

pub const SIZES: [(usize, usize); 2] = [(40, 256), (128, 256)];

/// How many matrices are reduced in turn: a few small ones would be learned by the branch predictor.
const TURN: usize = 64;

/// Rows of A's words and T's words, as the library lays them; the pivots' words are behind the rows.
pub struct Input {
    pub rows: usize,
    pub cols: usize,
    pub words: Vec<u64>,
}

impl Input {
    pub fn random(random: &mut Random, rows: usize, cols: usize) -> Self {
        let (width, stride) = (cols / 64, cols / 64 + rows.div_ceil(64));
        let mut words = vec![0; rows * stride + rows];
        for row in words.chunks_mut(stride).take(rows) {
            row[..width].iter_mut().for_each(|word| *word = random.next());
        }
        Input { rows, cols, words }
    }

    fn stride(&self) -> usize {
        self.cols / 64 + self.rows.div_ceil(64)
    }

    /// Copies the input to `area` and reduces it there.
    pub fn reduce(&self, area: &mut [u64]) -> usize {
        area.copy_from_slice(&self.words);
        match howhiruke::echelon_form(area, self.cols / 64, self.rows, self.cols) {
            Formation::Rank(rank) => rank,
            Formation::Misfit => panic!("the matrix does not fit"),
        }
    }

    /// [A | I] for M4RI.
    fn beside_identity(&self) -> Matrix {
        let (width, stride) = (self.cols / 64, self.stride());
        let mut words = self.words[..self.rows * stride].to_vec();
        for (i, row) in words.chunks_mut(stride).enumerate() {
            row[width + i / 64] |= 1 << (i % 64);
        }
        let mut matrix = Matrix::new(self.rows, self.cols + self.rows);
        matrix.fill(&words);
        matrix
    }
}

/// Both sides have the same rank, R and T. The transform is the only one, since the rank is full.
fn check(input: &Input, from: &Matrix, work: &mut Matrix) {
    let mut area = input.words.clone();
    let rank = input.reduce(&mut area);
    assert_eq!(rank, input.rows, "the rank is not full");
    for (way, name) in WAYS.iter().enumerate() {
        assert_eq!(work.reduce(from, way), rank, "rank by {name}");
        assert!(work.words() == area[..input.rows * input.stride()], "the echelon forms differ by {name}");
    }
}

/// The figures of each of M4RI's ways.
pub fn measure(plan: Plan, rows: usize, cols: usize) -> Vec<(&'static str, Figures)> {
    let random = &mut Random((rows * cols) as u64);
    let inputs: Vec<Input> = (0..TURN).map(|_| Input::random(random, rows, cols)).collect();
    let sources: Vec<Matrix> = inputs.iter().map(Input::beside_identity).collect();
    let mut work = Matrix::new(rows, cols + rows);
    let mut area = inputs[0].words.clone();
    inputs.iter().zip(&sources).for_each(|(input, from)| check(input, from, &mut work));
    let mut figures = Vec::new();
    for (way, name) in WAYS.iter().enumerate() {
        let ours = || {
            for input in &inputs {
                black_box(input.reduce(black_box(&mut area)));
            }
        };
        let theirs = || {
            for source in &sources {
                black_box(work.reduce(black_box(source), way));
            }
        };
        figures.push((*name, compare(plan, TURN, ours, theirs)));
    }
    figures
}
