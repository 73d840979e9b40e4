//! Views into the original's state, from a module below it so that none of it has to be made public.

use super::*;

impl Implicit {
    pub fn relation(&self) -> &Relation {
        &self.rel
    }

    pub fn relation_mut(&mut self) -> &mut Relation {
        &mut self.rel
    }

    pub fn queue(&self) -> &BlockQueue {
        &self.bs_to_subdivide
    }

    /// The cells as document 01 numbers them, rows from the top.
    pub fn cells(&self) -> impl Iterator<Item = u64> + '_ {
        self.im.pixels().map(|&state| match state {
            PixelState::Uncertain(Some(number)) => number as u64,
            PixelState::True => 1 << 32,
            PixelState::Uncertain(None) => (1 << 32) + 1,
        })
    }

    /// The children of the front block, asked for ahead of the step; the step's own listing is what counts.
    pub fn front_children(&self) -> Option<Vec<Block>> {
        let b = self.bs_to_subdivide.front_block()?;
        let mut children = vec![];
        match self.subdivision_dirs.get(b.next_dir_index as usize) {
            Some(&XY) => self.subdivide_xy(&mut children, &b),
            Some(&VarSet::M) => subdivide_m(&mut children, &b),
            Some(&VarSet::N) => subdivide_n(&mut children, &b),
            Some(&VarSet::N_THETA) => subdivide_n_theta(&mut children, &b),
            Some(&VarSet::T) => subdivide_t_implicit(&mut children, &b),
            Some(_) => unreachable!(),
            None => children.push(b),
        }
        Some(children)
    }

    /// Takes over a queue and cells.
    pub fn resume(&mut self, queue: BlockQueue, cells: &[u64]) {
        self.bs_to_subdivide = queue;
        for (state, &cell) in self.im.pixels_mut().zip(cells) {
            *state = match cell.checked_sub(1 << 32) {
                None => PixelState::Uncertain(Some(cell as u32)),
                Some(0) => PixelState::True,
                Some(1) => PixelState::Uncertain(None),
                Some(_) => panic!("no cell is over 2^32 + 1"),
            };
        }
    }
}

impl Implicit {
    /// The same with another map from the picture's coordinates to real ones.
    pub fn with_map(self, map: Transformation2D) -> Self {
        Self { im_to_real: map, ..self }
    }

    /// A block's box, of which the evaluation of the block starts.
    pub fn block_box(&self, b: &Block) -> Box2D {
        if b.x.is_subpixel() {
            self.region(b.x, b.y)
        } else {
            self.region_clipped(b.x, b.y)
        }
    }

    /// What of the box an evaluation is given.
    pub fn evaluated(&self, b: &Block) -> Region {
        if b.x.is_subpixel() {
            subpixel_outer(&self.block_box(b), b)
        } else {
            self.block_box(b).outer()
        }
    }
}

impl Clone for Implicit {
    fn clone(&self) -> Self {
        Self {
            rel: self.rel.clone(),
            var_indices: self.var_indices.clone(),
            subdivision_dirs: self.subdivision_dirs.clone(),
            im: self.im.clone(),
            bs_to_subdivide: self.bs_to_subdivide.clone(),
            im_to_real: self.im_to_real.clone(),
            stats: self.stats.clone(),
            mem_limit: self.mem_limit,
            cache_eval_on_region: self.cache_eval_on_region.clone(),
            cache_eval_on_point: self.cache_eval_on_point.clone(),
        }
    }
}

/// `simple_fraction` of graph/common.rs, which is private to the graphs.
pub fn fraction(x: inari::Interval) -> f64 {
    simple_fraction(x)
}
