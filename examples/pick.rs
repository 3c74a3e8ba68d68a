//! pick.json as Rust source. The file is a bridge as a whole, so its items stand in the root.

#![diplomat::bridge]

#[diplomat::opaque]
pub struct O(u8);

impl O {
    pub fn pick<'a, 'b: 'a>(&'a self, y: &'b O) -> &'a O {
        if self.0 == 0 {
            self
        } else {
            y
        }
    }
}
