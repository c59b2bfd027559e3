//! Whole calls, sound, with tails past the counts that nobody may read.

use super::make::{self, PALETTES, Palette, Size, Tails};
use super::rng::Rng;
use crate::tables::{Data, Line, Model, Scores, Settings};

/// A call on a line: scoring, or scoring and decoding.
#[derive(Debug, Clone, PartialEq)]
pub struct LineCall {
    pub model: Model,
    pub line: Line,
}

#[derive(Debug, Clone, PartialEq)]
pub struct CountCall {
    pub model: Model,
    pub line: Line,
    pub labels: Vec<u32>,
}

/// Decoding: the tables, and the buffer that is lent for the path, with what lies in it.
#[derive(Debug, Clone, PartialEq)]
pub struct DecodeCall {
    pub scores: Scores,
    pub path: Vec<u32>,
}

#[derive(Debug, Clone, PartialEq)]
pub struct PathCall {
    pub scores: Scores,
    pub path: Vec<u32>,
    pub length: u32,
}

#[derive(Debug, Clone, PartialEq)]
pub struct TrainCall {
    pub model: Model,
    pub data: Data,
    pub settings: Settings,
}

pub fn line(rng: &mut Rng) -> LineCall {
    let size = Size::drawn(rng);
    let palette = rng.pick(&PALETTES);
    let mut model = make::model(rng, &size, palette);
    let mut line = make::line(rng, &model, &size, palette);
    model.add_tails(rng);
    line.add_tails(rng);
    LineCall { model, line }
}

pub fn count(rng: &mut Rng) -> CountCall {
    let LineCall { model, line } = line(rng);
    let labels = longer_path(rng, model.labels, line.words);
    CountCall { model, line, labels }
}

pub fn scores(rng: &mut Rng) -> Scores {
    let Size { labels, words, .. } = Size::drawn(rng);
    let palette = rng.pick(&PALETTES);
    let mut scores = make::scores(rng, labels, words, palette);
    scores.add_tails(rng);
    scores
}

/// The path's buffer is as long as the line or longer.
pub fn decode(rng: &mut Rng) -> DecodeCall {
    let scores = scores(rng);
    let room = scores.words + if rng.chance(30) { 0 } else { rng.between(1, 9) };
    let path = (0..room).map(|_| rng.draw() as u32).collect();
    DecodeCall { scores, path }
}

/// A path as long as the line, shorter, or empty.
pub fn path(rng: &mut Rng) -> PathCall {
    let scores = scores(rng);
    let length = if rng.chance(50) { scores.words } else { rng.between(0, scores.words) };
    let path = longer_path(rng, scores.labels, length);
    PathCall { scores, path, length }
}

/// Training: mostly of numbers that learn something, the rest of any.
pub fn train(rng: &mut Rng) -> TrainCall {
    let size = Size::drawn(rng);
    let palette = if rng.chance(60) { rng.pick(&[Palette::Whole, Palette::Plain]) } else { rng.pick(&PALETTES) };
    let mut model = make::model(rng, &size, palette);
    let mut data = make::data(rng, &model, &size, palette);
    model.add_tails(rng);
    data.add_tails(rng);
    TrainCall { model, data, settings: make::settings(rng) }
}

/// Labels with a tail.
fn longer_path(rng: &mut Rng, labels: u32, length: u32) -> Vec<u32> {
    let mut path = make::path(rng, labels, length);
    path.extend([u32::MAX].iter().take(rng.below(2) as usize));
    path
}
