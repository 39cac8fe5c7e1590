// The static library's one function.

// What a map says of one cell.
#[repr(C)]
#[derive(Clone, Copy, Debug, PartialEq, Eq, Default)]
pub struct Record {
    pub length: u64,
    pub link: u16,
    pub rank: u16,
    pub pad: u8,
    pub reached: u8,
}

// An open cell's height and pad.
#[repr(C)]
#[derive(Clone, Copy)]
pub struct Spot {
    pub height: u16,
    pub pad: u8,
}

// Room for so many of the library's own values, which no one here reads.
#[repr(C)]
struct Lent {
    at: *mut u64,
    len: usize,
}

// What the library measures in: cells of 4 bytes, map records of 16 and entries of 16.
#[repr(C)]
struct Lents {
    cells: Lent,
    map: Lent,
    entries: Lent,
}

unsafe extern "C" {
    // A slice is passed as a pointer and a length.
    fn plate_measured(
        rows: u16,
        columns: u16,
        spots: *const Spot,
        spots_len: usize,
        times: usize,
        tables: *mut Lents,
        out: *mut Record,
        out_len: usize,
        reached: *mut usize,
        steps: *mut usize,
    ) -> u8;
}

// The tables of a board. Bytes of zeros are a value of each type, and words lie as each has to.
pub struct Tables {
    area: usize,
    cells: Vec<u64>,
    map: Vec<u64>,
    entries: Vec<u64>,
}

impl Tables {
    pub fn new(area: usize) -> Tables {
        Tables {
            area,
            cells: vec![0; area.div_ceil(2)],
            map: vec![0; 2 * area],
            entries: vec![0; 18 * area],
        }
    }

    fn lend(&mut self) -> Lents {
        let lent = |words: &mut Vec<u64>, len| Lent {
            at: words.as_mut_ptr(),
            len,
        };
        Lents {
            cells: lent(&mut self.cells, self.area),
            map: lent(&mut self.map, self.area),
            entries: lent(&mut self.entries, 9 * self.area),
        }
    }
}

// Measures group 1, to which pad 1 belongs, so many times; how many cells are reached, and how many steps were put to the gauge.
pub fn measure(
    side: usize,
    spots: &[Spot],
    times: usize,
    tables: &mut Tables,
    out: &mut [Record],
) -> (usize, usize) {
    let (mut reached, mut steps) = (0, 0);
    // The slices and the tables live as long as the call, and the counts are this function's own.
    let refusal = unsafe {
        plate_measured(
            side as u16,
            side as u16,
            spots.as_ptr(),
            spots.len(),
            times,
            &mut tables.lend(),
            out.as_mut_ptr(),
            out.len(),
            &mut reached,
            &mut steps,
        )
    };
    assert_eq!(refusal, 0);
    (reached, steps)
}
