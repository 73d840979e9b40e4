//! The functions of the C interface, as the Rust binding declares them.

pub use super::abi::{
    smyrilox_block_box, smyrilox_cells, smyrilox_children, smyrilox_counts, smyrilox_explain, smyrilox_fill_table, smyrilox_first_cut,
    smyrilox_halves, smyrilox_is_halvable, smyrilox_is_subdivisible, smyrilox_later_cut, smyrilox_least_ring,
    smyrilox_midpoint, smyrilox_picture, smyrilox_pixel_index, smyrilox_read_small, smyrilox_run,
    smyrilox_run_with_table, smyrilox_setup, smyrilox_setup_with_table, smyrilox_simple_fraction, smyrilox_step,
    smyrilox_step_with_table, smyrilox_subdivision_point, smyrilox_tile_count, smyrilox_write_small,
};
