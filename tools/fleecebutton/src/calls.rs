//! The library's functions as it exports them, over slices, and one hint to the system: all unsafe code of the tools.
//!
//! What the library asks of a caller (`include/fleecebutton.h`), and why the calls below keep it whatever they are given:
//! - a pointer is to as many elements as are lent with it: both are taken of one slice, whose pointer is aligned and not null, an empty
//!   one's too;
//! - an output shares no memory with any other array of the call, and no other thread has it: it comes by `&mut`, and every array is
//!   borrowed while the call lasts;
//! - every other argument may have any value of its type.
//!
//! The library keeps no pointer behind a call and has no state. It writes whole numbers and doubles, of which every value is valid.

/// What every function sends back: 0 or the refusal's number in the low byte, and above it the value or the place.
#[derive(Clone, Copy, Debug, PartialEq, Eq)]
pub struct Word(pub u64);

extern "C" {
    fn fb_predict(neighbours: *const u8, neighbours_length: usize, flags: u8, mode: u8, out: *mut u8, out_length: usize) -> u64;
    fn fb_choose(
        neighbours: *const u8,
        neighbours_length: usize,
        flags: u8,
        samples: *const u8,
        samples_length: usize,
        prediction: *mut u8,
        prediction_length: usize,
    ) -> u64;
    fn fb_forward(residual: *const i32, residual_length: usize, coefficients: *mut i32, coefficients_length: usize) -> u64;
    fn fb_levels(qp: u8, residual: *const i32, residual_length: usize, levels: *mut i32, levels_length: usize) -> u64;
    fn fb_rebuild(
        qp: u8,
        prediction: *const u8,
        prediction_length: usize,
        levels: *const i32,
        levels_length: usize,
        out: *mut u8,
        out_length: usize,
    ) -> u64;
    fn fb_rebuild_with_dc(
        qp: u8,
        prediction: *const u8,
        prediction_length: usize,
        dc: i32,
        ac: *const i32,
        ac_length: usize,
        out: *mut u8,
        out_length: usize,
    ) -> u64;
    fn fb_luma_dc_levels(qp: u8, dc: *const i32, dc_length: usize, levels: *mut i32, levels_length: usize) -> u64;
    fn fb_luma_dc_values(qp: u8, levels: *const i32, levels_length: usize, dc: *mut i32, dc_length: usize) -> u64;
    fn fb_chroma_dc_levels(qp: u8, dc: *const i32, dc_length: usize, levels: *mut i32, levels_length: usize) -> u64;
    fn fb_chroma_dc_values(qp: u8, levels: *const i32, levels_length: usize, dc: *mut i32, dc_length: usize) -> u64;
    fn fb_chroma_quantizer(qp: u8, offset: i32) -> u64;
    fn fb_code_block(
        qp: u8,
        flags: u8,
        neighbours: *const u8,
        neighbours_length: usize,
        samples: *const u8,
        samples_length: usize,
        levels: *mut i32,
        levels_length: usize,
        rebuilt: *mut u8,
        rebuilt_length: usize,
    ) -> u64;
    fn fb_promised_distance(qp: u8) -> u64;
    fn fb_code_plane(
        width: usize,
        height: usize,
        rows: usize,
        qp: u8,
        plane: *const u8,
        plane_length: usize,
        file: *mut u8,
        file_length: usize,
        rebuilt: *mut u8,
        rebuilt_length: usize,
    ) -> u64;
    fn fb_read_head(file: *const u8, file_length: usize) -> u64;
    fn fb_decode_plane(file: *const u8, file_length: usize, plane: *mut u8, plane_length: usize) -> u64;
    fn fb_code_picture(
        width: usize,
        height: usize,
        rows: usize,
        qp: u8,
        cb_offset: i32,
        cr_offset: i32,
        luma: *const u8,
        luma_length: usize,
        cb: *const u8,
        cb_length: usize,
        cr: *const u8,
        cr_length: usize,
        file: *mut u8,
        file_length: usize,
        luma_out: *mut u8,
        luma_out_length: usize,
        cb_out: *mut u8,
        cb_out_length: usize,
        cr_out: *mut u8,
        cr_out_length: usize,
    ) -> u64;
    fn fb_decode_picture(
        file: *const u8,
        file_length: usize,
        luma: *mut u8,
        luma_length: usize,
        cb: *mut u8,
        cb_length: usize,
        cr: *mut u8,
        cr_length: usize,
    ) -> u64;
    fn fb_inspect(file: *const u8, file_length: usize, theirs: *const u8, theirs_length: usize) -> u64;
    fn fb_quality_sheet(
        width: usize,
        height: usize,
        original: *const u8,
        original_length: usize,
        rebuilt: *const u8,
        rebuilt_length: usize,
        map: *const u8,
        map_length: usize,
        out: *mut f64,
        out_length: usize,
    ) -> u64;
}

pub fn predict(neighbours: &[u8], flags: u8, mode: u8, out: &mut [u8]) -> Word {
    // SAFETY: `neighbours` and `out` come with their own lengths; `out` is borrowed alone.
    Word(unsafe { fb_predict(neighbours.as_ptr(), neighbours.len(), flags, mode, out.as_mut_ptr(), out.len()) })
}

pub fn choose(neighbours: &[u8], flags: u8, samples: &[u8], prediction: &mut [u8]) -> Word {
    // SAFETY: `neighbours`, `samples` and `prediction` come with their own lengths; `prediction` is borrowed alone.
    Word(unsafe {
        fb_choose(neighbours.as_ptr(), neighbours.len(), flags, samples.as_ptr(), samples.len(), prediction.as_mut_ptr(), prediction.len())
    })
}

pub fn forward(residual: &[i32], coefficients: &mut [i32]) -> Word {
    // SAFETY: `residual` and `coefficients` come with their own lengths; `coefficients` is borrowed alone.
    Word(unsafe { fb_forward(residual.as_ptr(), residual.len(), coefficients.as_mut_ptr(), coefficients.len()) })
}

pub fn levels(qp: u8, residual: &[i32], levels: &mut [i32]) -> Word {
    // SAFETY: `residual` and `levels` come with their own lengths; `levels` is borrowed alone.
    Word(unsafe { fb_levels(qp, residual.as_ptr(), residual.len(), levels.as_mut_ptr(), levels.len()) })
}

pub fn rebuild(qp: u8, prediction: &[u8], levels: &[i32], out: &mut [u8]) -> Word {
    // SAFETY: `prediction`, `levels` and `out` come with their own lengths; `out` is borrowed alone.
    Word(unsafe { fb_rebuild(qp, prediction.as_ptr(), prediction.len(), levels.as_ptr(), levels.len(), out.as_mut_ptr(), out.len()) })
}

pub fn rebuild_with_dc(qp: u8, prediction: &[u8], dc: i32, ac: &[i32], out: &mut [u8]) -> Word {
    // SAFETY: `prediction`, `ac` and `out` come with their own lengths; `out` is borrowed alone.
    Word(unsafe { fb_rebuild_with_dc(qp, prediction.as_ptr(), prediction.len(), dc, ac.as_ptr(), ac.len(), out.as_mut_ptr(), out.len()) })
}

pub fn luma_dc_levels(qp: u8, dc: &[i32], levels: &mut [i32]) -> Word {
    // SAFETY: `dc` and `levels` come with their own lengths; `levels` is borrowed alone.
    Word(unsafe { fb_luma_dc_levels(qp, dc.as_ptr(), dc.len(), levels.as_mut_ptr(), levels.len()) })
}

pub fn luma_dc_values(qp: u8, levels: &[i32], dc: &mut [i32]) -> Word {
    // SAFETY: `levels` and `dc` come with their own lengths; `dc` is borrowed alone.
    Word(unsafe { fb_luma_dc_values(qp, levels.as_ptr(), levels.len(), dc.as_mut_ptr(), dc.len()) })
}

pub fn chroma_dc_levels(qp: u8, dc: &[i32], levels: &mut [i32]) -> Word {
    // SAFETY: `dc` and `levels` come with their own lengths; `levels` is borrowed alone.
    Word(unsafe { fb_chroma_dc_levels(qp, dc.as_ptr(), dc.len(), levels.as_mut_ptr(), levels.len()) })
}

pub fn chroma_dc_values(qp: u8, levels: &[i32], dc: &mut [i32]) -> Word {
    // SAFETY: `levels` and `dc` come with their own lengths; `dc` is borrowed alone.
    Word(unsafe { fb_chroma_dc_values(qp, levels.as_ptr(), levels.len(), dc.as_mut_ptr(), dc.len()) })
}

pub fn chroma_quantizer(qp: u8, offset: i32) -> Word {
    // SAFETY: numbers alone are lent, and each may have any value.
    Word(unsafe { fb_chroma_quantizer(qp, offset) })
}

pub fn code_block(qp: u8, flags: u8, neighbours: &[u8], samples: &[u8], levels: &mut [i32], rebuilt: &mut [u8]) -> Word {
    // SAFETY: `neighbours`, `samples`, `levels` and `rebuilt` come with their own lengths; `levels` and `rebuilt` are borrowed alone.
    Word(unsafe {
        fb_code_block(
            qp,
            flags,
            neighbours.as_ptr(),
            neighbours.len(),
            samples.as_ptr(),
            samples.len(),
            levels.as_mut_ptr(),
            levels.len(),
            rebuilt.as_mut_ptr(),
            rebuilt.len(),
        )
    })
}

pub fn promised_distance(qp: u8) -> Word {
    // SAFETY: numbers alone are lent, and each may have any value.
    Word(unsafe { fb_promised_distance(qp) })
}

pub fn code_plane(width: usize, height: usize, rows: usize, qp: u8, plane: &[u8], file: &mut [u8], rebuilt: &mut [u8]) -> Word {
    // SAFETY: `plane`, `file` and `rebuilt` come with their own lengths; `file` and `rebuilt` are borrowed alone.
    Word(unsafe {
        fb_code_plane(
            width,
            height,
            rows,
            qp,
            plane.as_ptr(),
            plane.len(),
            file.as_mut_ptr(),
            file.len(),
            rebuilt.as_mut_ptr(),
            rebuilt.len(),
        )
    })
}

pub fn read_head(file: &[u8]) -> Word {
    // SAFETY: `file` comes with its own length; nothing is written.
    Word(unsafe { fb_read_head(file.as_ptr(), file.len()) })
}

pub fn decode_plane(file: &[u8], plane: &mut [u8]) -> Word {
    // SAFETY: `file` and `plane` come with their own lengths; `plane` is borrowed alone.
    Word(unsafe { fb_decode_plane(file.as_ptr(), file.len(), plane.as_mut_ptr(), plane.len()) })
}

#[allow(clippy::too_many_arguments)]
pub fn code_picture(
    width: usize,
    height: usize,
    rows: usize,
    qp: u8,
    cb_offset: i32,
    cr_offset: i32,
    luma: &[u8],
    cb: &[u8],
    cr: &[u8],
    file: &mut [u8],
    luma_out: &mut [u8],
    cb_out: &mut [u8],
    cr_out: &mut [u8],
) -> Word {
    // SAFETY: `luma`, `cb`, `cr`, `file`, `luma_out`, `cb_out` and `cr_out` come with their own lengths; `file`, `luma_out`, `cb_out` and `cr_out` are borrowed alone.
    Word(unsafe {
        fb_code_picture(
            width,
            height,
            rows,
            qp,
            cb_offset,
            cr_offset,
            luma.as_ptr(),
            luma.len(),
            cb.as_ptr(),
            cb.len(),
            cr.as_ptr(),
            cr.len(),
            file.as_mut_ptr(),
            file.len(),
            luma_out.as_mut_ptr(),
            luma_out.len(),
            cb_out.as_mut_ptr(),
            cb_out.len(),
            cr_out.as_mut_ptr(),
            cr_out.len(),
        )
    })
}

pub fn decode_picture(file: &[u8], luma: &mut [u8], cb: &mut [u8], cr: &mut [u8]) -> Word {
    // SAFETY: `file`, `luma`, `cb` and `cr` come with their own lengths; `luma`, `cb` and `cr` are borrowed alone.
    Word(unsafe {
        fb_decode_picture(file.as_ptr(), file.len(), luma.as_mut_ptr(), luma.len(), cb.as_mut_ptr(), cb.len(), cr.as_mut_ptr(), cr.len())
    })
}

pub fn inspect(file: &[u8], theirs: &[u8]) -> Word {
    // SAFETY: `file` and `theirs` come with their own lengths; nothing is written.
    Word(unsafe { fb_inspect(file.as_ptr(), file.len(), theirs.as_ptr(), theirs.len()) })
}

pub fn quality_sheet(width: usize, height: usize, original: &[u8], rebuilt: &[u8], map: &[u8], out: &mut [f64]) -> Word {
    // SAFETY: `original`, `rebuilt`, `map` and `out` come with their own lengths; `out` is borrowed alone.
    Word(unsafe {
        fb_quality_sheet(
            width,
            height,
            original.as_ptr(),
            original.len(),
            rebuilt.as_ptr(),
            rebuilt.len(),
            map.as_ptr(),
            map.len(),
            out.as_mut_ptr(),
            out.len(),
        )
    })
}

/// Asks the system for large pages for an area that is about to be filled. A hint: where there are none, or the area is small, all is as before.
#[cfg(target_os = "linux")]
pub fn ask_for_large_pages(area: *const u8, bytes: usize) {
    extern "C" {
        fn madvise(address: *const u8, length: usize, advice: i32) -> i32;
    }
    // where pages are larger the address may be refused, and then nothing happens
    const PAGE: usize = 4096;
    const MADV_HUGEPAGE: i32 = 14;
    const LARGE: usize = 2 << 20;
    if bytes >= LARGE {
        let skipped = area.align_offset(PAGE);
        // SAFETY: this advice changes no byte and no right of any page, whatever address it is given.
        let _ = unsafe { madvise(area.wrapping_add(skipped), bytes.saturating_sub(skipped), MADV_HUGEPAGE) };
    }
}

#[cfg(not(target_os = "linux"))]
pub fn ask_for_large_pages(_: *const u8, _: usize) {}
