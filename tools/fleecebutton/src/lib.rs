//! Fleecebutton, a proved H.264 intra codec, for safe Rust.
//!
//! Each function calls the exported function of its name (`include/fleecebutton.h`) and hands back what that wrote, or the [`Refusal`] that it
//! sent, in words. Blocks have their lengths in their types; planes and files are slices, and a wrong length of one is refused. What is
//! written is allocated here; the functions that end in `_into` write into areas that are lent, and allocate nothing. Of the functions that are
//! no methods [`room`] alone calls nothing of the library: it makes room for a file to be read into.
//!
//! ```
//! use fleecebutton::{code_plane, decode_plane, Layout};
//!
//! let plane = vec![138; 2 * 256];
//! let coded = code_plane(Layout::one_slice(2, 1), 28, &plane).unwrap();
//! assert_eq!(decode_plane(&coded.file).unwrap().samples, coded.rebuilt);
//! let refusal = decode_plane(&coded.file[1..]).unwrap_err();
//! assert_eq!((refusal.number(), refusal.name(), refusal.place()), (11, "MARK", 0));
//! ```
#![deny(warnings, missing_docs, unsafe_code)]

mod block;
#[allow(unsafe_code)]
mod calls;
mod fault;
mod layout;
mod pages;
mod plane;
mod record;
mod refusal;
mod sheet;
mod words;

pub use block::{
    choose, chroma_dc_levels, chroma_dc_values, chroma_quantizer, code_block, forward, levels, luma_dc_levels, luma_dc_values, predict,
    promised_distance, rebuild, rebuild_with_dc, Choice, CodedBlock,
};
pub use layout::{Layout, Macroblock, MOST, SIDE};
pub use pages::room;
pub use plane::{
    code_picture, code_picture_into, code_plane, code_plane_into, decode_picture, decode_picture_into, decode_plane, decode_plane_into,
    inspect, read_head, CodedPicture, CodedPlane, Coding, DecodedPicture, DecodedPlane, Planes, PlanesMut,
};
pub use record::{Kind, Record, Records};
pub use refusal::{number, Refusal};
pub use sheet::{quality_sheet, Sheet};

/// Where the library that this is linked with comes from: `proved archive`, or that it is an unproved build of the same source.
pub const ORIGIN: &str = env!("FLEECEBUTTON_ORIGIN");
