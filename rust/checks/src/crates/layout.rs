//! Where the crates of a picture stand. An arrow over several layers passes
//! each of them at a place of its own, so that it crosses no box.

use super::Crates;

/// Room between two places of a layer, in pixels.
const GAP: f64 = 22.0;
/// Width of a place that an arrow passes, and of a letter of a crate's name.
const PASSAGE: f64 = 6.0;
const LETTER: f64 = 8.5;
const PADDING: f64 = 24.0;
/// How often all layers are sorted and moved: more changes nothing to see.
const ROUNDS: usize = 40;

/// A place in a layer: that of a crate, or one that an arrow passes.
pub struct Place {
    pub layer: usize,
    pub holds: Option<usize>,
    pub width: f64,
    /// Its middle.
    pub x: f64,
    /// The places in the layers beside it that lines lead to.
    above: Vec<usize>,
    below: Vec<usize>,
}

pub struct Layout {
    pub places: Vec<Place>,
    /// The places of each layer from the left, the lowest layer first.
    layers: Vec<Vec<usize>>,
    /// Each arrow from its upper end down, by the places that it passes.
    pub arrows: Vec<Vec<usize>>,
}

impl Layout {
    pub fn new(crates: &Crates) -> Self {
        let mut layout = Layout {
            places: vec![],
            layers: vec![],
            arrows: vec![],
        };
        for (of, name) in crates.names.iter().enumerate() {
            let width = PADDING + LETTER * name.len() as f64;
            layout.add(crates.layer(of), Some(of), width);
        }
        for (from, below) in crates.direct().into_iter().enumerate() {
            for to in below {
                layout.connect(from, to);
            }
        }
        layout.sort();
        layout.settle();
        layout
    }

    pub fn layer_count(&self) -> usize {
        self.layers.len()
    }

    /// The width that all layers need.
    pub fn width(&self) -> f64 {
        let ends = self.places.iter().map(|place| place.x + place.width / 2.0);
        ends.fold(0.0, f64::max)
    }

    fn add(&mut self, layer: usize, holds: Option<usize>, width: f64) -> usize {
        let count = self.layers.len().max(layer + 1);
        self.layers.resize(count, vec![]);
        self.layers[layer].push(self.places.len());
        self.places.push(Place {
            layer,
            holds,
            width,
            x: 0.0,
            above: vec![],
            below: vec![],
        });
        self.places.len() - 1
    }

    fn connect(&mut self, from: usize, to: usize) {
        let mut arrow = vec![from];
        for layer in (self.places[to].layer + 1..self.places[from].layer).rev() {
            arrow.push(self.add(layer, None, PASSAGE));
        }
        arrow.push(to);
        for pair in arrow.windows(2) {
            self.places[pair[0]].below.push(pair[1]);
            self.places[pair[1]].above.push(pair[0]);
        }
        self.arrows.push(arrow);
    }

    /// Sorts each layer by where its lines lead, upward and downward in turn,
    /// and keeps the sequence with the fewest crossings.
    fn sort(&mut self) {
        let mut best = (self.crossings(), self.layers.clone());
        for round in 0..ROUNDS {
            self.sort_layers(round % 2 == 0);
            let crossings = self.crossings();
            if crossings < best.0 {
                best = (crossings, self.layers.clone());
            }
        }
        self.layers = best.1;
    }

    fn sort_layers(&mut self, is_upward: bool) {
        let count = self.layers.len();
        for step in 1..count {
            let (layer, beside) = if is_upward {
                (step, step - 1)
            } else {
                (count - 1 - step, count - step)
            };
            let rank = ranks(self.places.len(), &self.layers[beside]);
            let key = |&place: &usize| {
                let Place { above, below, .. } = &self.places[place];
                let ends = if is_upward { below } else { above };
                mean(ends.iter().map(|&end| rank[end] as f64))
            };
            let mut sorted: Vec<(f64, usize)> = self.layers[layer]
                .iter()
                .enumerate()
                .map(|(at, place)| (key(place).unwrap_or(at as f64), *place))
                .collect();
            sorted.sort_by(|one, other| one.0.total_cmp(&other.0));
            self.layers[layer] = sorted.into_iter().map(|(_, place)| place).collect();
        }
    }

    /// How many pairs of lines cross.
    fn crossings(&self) -> usize {
        let pairs = self.layers.windows(2).map(|pair| {
            let rank = ranks(self.places.len(), &pair[0]);
            let lines: Vec<(usize, usize)> = (0..)
                .zip(&pair[1])
                .flat_map(|(at, &place)| {
                    let ends = self.places[place].below.iter();
                    ends.map(|&end| (at, rank[end])).collect::<Vec<_>>()
                })
                .collect();
            let cross = |a: &(usize, usize), b: &(usize, usize)| a.0 < b.0 && a.1 > b.1;
            let count = |a| lines.iter().filter(|b| cross(a, b)).count();
            lines.iter().map(count).sum::<usize>()
        });
        pairs.sum()
    }

    /// Moves the places of each layer to the middle of where their lines lead,
    /// as far as those beside them allow.
    fn settle(&mut self) {
        for round in 0..ROUNDS {
            for step in 0..self.layers.len() {
                let is_upward = round % 2 == 0;
                let layer = if is_upward {
                    step
                } else {
                    self.layers.len() - 1 - step
                };
                self.settle_layer(layer);
            }
        }
        let starts = self.places.iter().map(|place| place.x - place.width / 2.0);
        let left = starts.fold(f64::INFINITY, f64::min);
        for place in &mut self.places {
            place.x -= left;
        }
    }

    fn settle_layer(&mut self, layer: usize) {
        let row = self.layers[layer].clone();
        let mut offset = 0.0;
        let mut wanted = vec![];
        for (at, &place) in row.iter().enumerate() {
            let Place { above, below, .. } = &self.places[place];
            if at > 0 {
                offset += (self.places[row[at - 1]].width + self.places[place].width) / 2.0 + GAP;
            }
            let ends = above.iter().chain(below).map(|&end| self.places[end].x);
            let middle = mean(ends).unwrap_or(self.places[place].x);
            wanted.push((offset, middle - offset));
        }
        let middles: Vec<f64> = wanted.iter().map(|(_, middle)| *middle).collect();
        for ((place, (offset, _)), x) in row.into_iter().zip(wanted).zip(rising(&middles)) {
            self.places[place].x = x + offset;
        }
    }
}

/// The position of each place of a layer.
fn ranks(count: usize, layer: &[usize]) -> Vec<usize> {
    let mut ranks = vec![0; count];
    for (rank, &place) in layer.iter().enumerate() {
        ranks[place] = rank;
    }
    ranks
}

fn mean(numbers: impl Iterator<Item = f64>) -> Option<f64> {
    let (sum, count) = numbers.fold((0.0, 0), |(sum, count), number| (sum + number, count + 1));
    (count > 0).then(|| sum / f64::from(count))
}

/// The numbers nearest to these that do not fall: where some fall, they share
/// their mean.
fn rising(numbers: &[f64]) -> Vec<f64> {
    let mut runs: Vec<(f64, usize)> = vec![];
    for &number in numbers {
        let mut run = (number, 1);
        while let Some((sum, count)) = runs.pop_if(|last| {
            let (sum, count) = *last;
            sum / count as f64 > run.0 / run.1 as f64
        }) {
            run = (sum + run.0, count + run.1);
        }
        runs.push(run);
    }
    let spread = |(sum, count): (f64, usize)| vec![sum / count as f64; count];
    runs.into_iter().flat_map(spread).collect()
}

#[cfg(test)]
mod tests {
    use super::rising;

    #[test]
    fn falling_numbers_share_their_mean() {
        assert_eq!(rising(&[1.0, 5.0, 3.0, 7.0]), [1.0, 4.0, 4.0, 7.0]);
        assert_eq!(rising(&[3.0, 2.0, 1.0]), [2.0, 2.0, 2.0]);
    }
}
