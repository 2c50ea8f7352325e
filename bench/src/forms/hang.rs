//! The free edges of the tree beside vertex 1, hung up at the part of vertex 2.

use super::grow::Grown;
use super::keys::{limit, Key, FAR, LANES};

/// Places count from the root, and each branch has its places in a row. So of two parts, the one
/// at the higher place climbs past no place below the other's until it is where both climbs meet.
pub struct Hung {
    /// by part
    pub place: [u8; LANES],
    /// by place: the dearest key that the edge above can be swapped with; but in the lowest byte the
    /// place above
    pub step: [Key; LANES],
    /// by place: the key that was last offered for the edge above
    pub offer: [Key; LANES],
}

impl Hung {
    #[inline(always)]
    pub fn blank() -> Hung {
        Hung {
            place: [0; LANES],
            step: [0; LANES],
            offer: [FAR; LANES],
        }
    }

    /// Hangs the tree up, child by child; a leaf leads back to the last part with children left.
    pub fn hang(&mut self, grown: &Grown, frees: usize, slack: Key) {
        let (mut left, mut top) = ([0; LANES], 0);
        let root = grown.part[2] as usize % LANES;
        let mut met = 1u32 << root;
        let mut children = grown.near[root];
        self.place[root] = 0;
        self.offer = [FAR; LANES];
        for place in 1..=frees {
            if children == 0 {
                top -= 1;
                children = left[top % LANES];
            }
            let vertex = children.trailing_zeros() as usize % LANES;
            let others = children & (children - 1);
            left[top % LANES] = others;
            top += (others != 0) as usize;
            let near = grown.near[vertex];
            // Only one neighbour was met before.
            let above = (near & met).trailing_zeros() as usize % LANES;
            self.put(grown, place % LANES, vertex, above, slack);
            met |= 1 << vertex;
            children = near & !met;
        }
    }

    /// Gives a place to the vertex.
    #[inline(always)]
    fn put(&mut self, grown: &Grown, place: usize, vertex: usize, above: usize, slack: Key) {
        let k = grown.between[vertex - 1][above - 1];
        let key = grown.key[k as usize];
        self.place[vertex] = place as u8;
        self.step[place] = limit(key, slack) & !255 | self.place[above] as Key;
    }
}
