//! The arrows of one side.

use super::draw::Drawing;
use super::elements::{head, ink, px, together};
use super::measure::{GUTTER, HEAD, LANE};
use super::titles;
use super::wires::{Meeting, Port, Side, Tail, Wires};

/// How round the corners are.
const ROUND: f64 = 8.0;

/// Every trunk in a colour: an arrow for each mention, and the head that they
/// share.
pub fn svg(drawing: &Drawing, wires: &Wires) -> String {
    let pen = Pen { drawing, wires };
    let trunks = 0..wires.trunks.len();
    trunks.map(|trunk| pen.trunk(trunk)).collect()
}

struct Pen<'a> {
    drawing: &'a Drawing<'a>,
    wires: &'a Wires,
}

impl Pen<'_> {
    fn trunk(&self, number: usize) -> String {
        let trunk = &self.wires.trunks[number];
        let tip = self.port(trunk.target, number, Meeting::Head);
        let arrows = trunk.tails.iter();
        let arrows: String = arrows.map(|tail| self.arrow(number, tail, tip)).collect();
        let head = head(tip, self.out() * HEAD);
        together(&ink(number), &[], &(arrows + &head))
    }

    /// From a card out to the lane, along it and back in.
    fn arrow(&self, number: usize, tail: &Tail, (to, end): (f64, f64)) -> String {
        let trunk = &self.wires.trunks[number];
        let (from, start) = self.port(tail.row, number, trunk.meeting(tail.row));
        let (lane, out) = (self.lane(trunk.lane), self.out());
        let round = ROUND.min((end - start).abs() / 2.0);
        let down = round * (end - start).signum();
        let [near, neck] = [lane - out * round, to + out * (HEAD - 1.0)].map(px);
        let [turn, back] = [start + down, end - down].map(px);
        let [from, lane, start, end] = [from, lane, start, end].map(px);
        let title = titles::arrow(self.drawing.sheet, &tail.mentions);
        let title = titles::element(&title);
        format!(
            "<path class=\"arrow\" d=\"M{from} {start}H{near}Q{lane} {start} {lane} {turn}\
             V{back}Q{lane} {end} {near} {end}H{neck}\">{title}</path>\n\
             <circle class=\"tail\" cx=\"{from}\" cy=\"{start}\" r=\"2.4\"/>\n"
        )
    }

    /// Where an arrow meets a card.
    fn port(&self, row: usize, trunk: usize, at: Meeting) -> (f64, f64) {
        let plate = self.drawing.plates.cards[row];
        let x = match self.wires.side {
            Side::Left => plate.x,
            Side::Right => plate.right(),
        };
        let share = self.wires.share(row, Port { trunk, at });
        (x, plate.y + plate.height * share)
    }

    fn lane(&self, lane: usize) -> f64 {
        let measures = &self.drawing.measures;
        let edge = match self.wires.side {
            Side::Left => measures.origin(),
            Side::Right => measures.origin() + measures.width,
        };
        edge + self.out() * (GUTTER + LANE * lane as f64)
    }

    /// Which way leads out of the cards.
    fn out(&self) -> f64 {
        match self.wires.side {
            Side::Left => -1.0,
            Side::Right => 1.0,
        }
    }
}
