//! An independent, plain Rust implementation of Fleecebutton, written from documents 01 and 02 and from ITU-T H.264 (clauses 8.3.1,
//! 8.3.3, 8.3.4 and 8.5), and not from the Rattle code it is compared with.
//!
//! Every entry point takes any value of its argument types. It runs its tests
//! in the order of document 01's table of refusals, and writes to its outputs
//! only after the last of them has passed.

mod block;
pub mod calls;
mod chroma;
mod dc;
pub mod extremes;
mod inspection;
mod macroblock;
mod neighbours;
mod picture;
mod plane;
mod predict;
mod quantizer;
pub mod record;
mod refusal;
mod sheet;
mod sixteen;
mod transform;

pub use block::{code_block, forward, levels, rebuild, rebuild_with_dc, unclipped};
pub use chroma::ChromaSads;
pub use dc::{
    chroma_dc_levels, chroma_dc_values, luma_dc_levels, luma_dc_values, rescaled_luma_dc,
};
pub use inspection::inspect;
pub use picture::{code_picture, code_picture_by, decode_picture, Picture};
pub use plane::{code_plane, code_plane_by, decode_plane, Sads};
pub use predict::{choose, predict, Choice, Mode};
pub use quantizer::{chroma_quantizer, promised_distance, Quantizer};
pub use refusal::Refusal;
pub use sheet::quality_sheet;
