//! A store as the exports take it.
use vowherunga::store::{Cell, Store, MAX_CELLS};
use vowherunga::Header;

/// The arrays that the parts of a store's places are passed in.
#[derive(Clone, Debug, PartialEq)]
pub struct Arrays {
    pub starts: [usize; MAX_CELLS],
    pub widths: [u32; MAX_CELLS],
    pub signs: [bool; MAX_CELLS],
    pub fills: [bool; MAX_CELLS],
}

impl Arrays {
    pub fn new(places: &[Cell; MAX_CELLS]) -> Arrays {
        Arrays {
            starts: places.map(|cell| cell.start),
            widths: places.map(|cell| cell.header.width),
            signs: places.map(|cell| cell.header.is_signed),
            fills: places.map(|cell| cell.header.is_fill),
        }
    }

    /// What an export is handed.
    pub fn pointers(&mut self) -> (PartOf<usize>, PartOf<u32>, PartOf<bool>, PartOf<bool>) {
        (&mut self.starts, &mut self.widths, &mut self.signs, &mut self.fills)
    }

    pub fn store(&self, count: usize) -> Store {
        let places = std::array::from_fn(|i| Cell {
            start: self.starts[i],
            header: Header {
                width: self.widths[i],
                is_signed: self.signs[i],
                is_fill: self.fills[i],
            },
        });
        Store::from_parts(&places, count)
    }
}

/// A pointer to an array of a part of each place.
type PartOf<T> = *mut [T; MAX_CELLS];

/// Pointers and lengths of planes.
pub fn raw_parts<const N: usize>(planes: [&mut [u64]; N]) -> [(*mut u64, usize); N] {
    planes.map(|plane| (plane.as_mut_ptr(), plane.len()))
}
