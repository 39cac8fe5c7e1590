// The straightforward program: a `BinaryHeap` of offers, into which only those go that improve on what a cell has.
use crate::library::{Record, Spot};
use std::cmp::Reverse;
use std::collections::BinaryHeap;

#[derive(Clone, Copy)]
struct Cell {
    height: u16,
    pad: u8,
    barred: bool,
}

pub struct Plain {
    side: usize,
    groups: [u8; 64],
    cells: Vec<Cell>,
    pub map: Vec<Record>,
    queue: BinaryHeap<Reverse<(u64, usize)>>,
}

impl Plain {
    // A board with pad 1 in group 1.
    pub fn new(side: usize, spots: &[Spot]) -> Plain {
        let mut groups = [0; 64];
        groups[0] = 1;
        let cell = |spot: &Spot| Cell {
            height: spot.height,
            pad: spot.pad,
            barred: false,
        };
        Plain {
            side,
            groups,
            cells: spots.iter().map(cell).collect(),
            map: vec![Record::default(); spots.len()],
            queue: BinaryHeap::new(),
        }
    }

    // A source is an open cell whose pad is in group 1.
    fn is_source(&self, cell: Cell) -> bool {
        !cell.barred && (1..=64).contains(&cell.pad) && self.groups[cell.pad as usize - 1] == 1
    }

    fn start(&mut self) {
        self.queue.clear();
        for number in 0..self.cells.len() {
            let cell = self.cells[number];
            self.map[number] = Record::default();
            if self.is_source(cell) {
                self.map[number] = Record {
                    pad: cell.pad,
                    link: number as u16,
                    ..Record::default()
                };
                self.queue.push(Reverse((0, number)));
            }
        }
    }

    // Offers a cell's length to its open neighbours, and counts them.
    fn offer_around(&mut self, number: usize, length: u64, pad: u8) -> usize {
        let side = self.side;
        let (row, column) = (number / side, number % side);
        let height = self.cells[number].height;
        let mut steps = 0;
        for r in row.saturating_sub(1)..(row + 2).min(side) {
            for c in column.saturating_sub(1)..(column + 2).min(side) {
                let other = r * side + c;
                let cell = self.cells[other];
                if other == number || cell.barred {
                    continue;
                }
                steps += 1;
                let offer = length.saturating_add(height.abs_diff(cell.height) as u64 + 1);
                let known = &mut self.map[other];
                if known.reached == 1 || known.pad != 0 && known.length <= offer {
                    continue;
                }
                *known = Record {
                    length: offer,
                    link: number as u16,
                    rank: 0,
                    pad,
                    reached: 0,
                };
                self.queue.push(Reverse((offer, other)));
            }
        }
        steps
    }

    // Measures group 1: how many cells are reached, and how many steps were looked at.
    pub fn measure(&mut self) -> (usize, usize) {
        self.start();
        let (mut reached, mut steps) = (0, 0);
        while let Some(Reverse((length, number))) = self.queue.pop() {
            if self.map[number].reached == 1 {
                continue;
            }
            self.map[number].reached = 1;
            self.map[number].rank = reached as u16;
            reached += 1;
            steps += self.offer_around(number, length, self.map[number].pad);
        }
        (reached, steps)
    }
}
