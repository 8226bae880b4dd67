//! The codecs that are timed.

use crate::Codec;
use reference::record::Layout;
use reference::Picture;

extern "C" {
    fn fb_code_plane(
        width: usize,
        height: usize,
        rows: usize,
        qp: u8,
        plane: *const u8,
        plane_length: usize,
        file: *mut u8,
        file_length: usize,
        rebuilt: *mut u8,
        rebuilt_length: usize,
    ) -> u64;
    fn fb_decode_plane(
        file: *const u8,
        file_length: usize,
        plane: *mut u8,
        plane_length: usize,
    ) -> u64;
    fn fb_inspect(
        file: *const u8,
        file_length: usize,
        theirs: *const u8,
        theirs_length: usize,
    ) -> u64;
    fn fb_code_picture(
        width: usize,
        height: usize,
        rows: usize,
        qp: u8,
        cb_offset: i32,
        cr_offset: i32,
        luma: *const u8,
        luma_length: usize,
        cb: *const u8,
        cb_length: usize,
        cr: *const u8,
        cr_length: usize,
        file: *mut u8,
        file_length: usize,
        luma_out: *mut u8,
        luma_out_length: usize,
        cb_out: *mut u8,
        cb_out_length: usize,
        cr_out: *mut u8,
        cr_out_length: usize,
    ) -> u64;
    fn fb_decode_picture(
        file: *const u8,
        file_length: usize,
        luma: *mut u8,
        luma_length: usize,
        cb: *mut u8,
        cb_length: usize,
        cr: *mut u8,
        cr_length: usize,
    ) -> u64;
}

#[cfg(study)]
extern "C" {
    fn study_code(
        plane: *const u8,
        plane_length: usize,
        rebuilt: *mut u8,
        rebuilt_length: usize,
        file: *mut u8,
        file_length: usize,
        width: usize,
        height: usize,
        qp: u8,
    ) -> u32;
    fn study_decode(
        file: *const u8,
        file_length: usize,
        plane: *mut u8,
        plane_length: usize,
        parts: u8,
    ) -> u32;
}

pub struct Proved;

impl Codec for Proved {
    fn name(&self) -> &'static str {
        "proved library"
    }

    fn both_kinds(&self) -> bool {
        true
    }

    fn slices(&self) -> bool {
        true
    }

    fn code(
        &self,
        layout: Layout,
        qp: u8,
        plane: &[u8],
        area: &mut [u8],
        rebuilt: &mut [u8],
    ) -> usize {
        // Each pointer comes with its slice's length.
        let word = unsafe {
            fb_code_plane(
                layout.width,
                layout.height,
                layout.rows,
                qp,
                plane.as_ptr(),
                plane.len(),
                area.as_mut_ptr(),
                area.len(),
                rebuilt.as_mut_ptr(),
                rebuilt.len(),
            )
        };
        assert_eq!(word % 256, 0);
        (word / 256) as usize
    }

    fn decode(&self, file: &[u8], plane: &mut [u8]) {
        // Each pointer comes with its slice's length.
        let word =
            unsafe { fb_decode_plane(file.as_ptr(), file.len(), plane.as_mut_ptr(), plane.len()) };
        assert_eq!(word, 0);
    }

    fn inspections(&self) -> bool {
        true
    }

    fn inspect(&self, file: &[u8], theirs: &[u8]) {
        // Each pointer comes with its slice's length.
        let word = unsafe { fb_inspect(file.as_ptr(), file.len(), theirs.as_ptr(), theirs.len()) };
        assert_eq!(word, 0);
    }

    fn colour(&self) -> bool {
        true
    }

    fn code_picture(
        &self,
        picture: &Picture,
        area: &mut [u8],
        [luma_out, cb_out, cr_out]: [&mut [u8]; 3],
    ) -> usize {
        let Layout {
            width,
            height,
            rows,
        } = picture.layout;
        let [luma, cb, cr] = picture.planes;
        // Each pointer comes with its slice's length.
        let word = unsafe {
            fb_code_picture(
                width,
                height,
                rows,
                picture.qp,
                picture.offsets[0],
                picture.offsets[1],
                luma.as_ptr(),
                luma.len(),
                cb.as_ptr(),
                cb.len(),
                cr.as_ptr(),
                cr.len(),
                area.as_mut_ptr(),
                area.len(),
                luma_out.as_mut_ptr(),
                luma_out.len(),
                cb_out.as_mut_ptr(),
                cb_out.len(),
                cr_out.as_mut_ptr(),
                cr_out.len(),
            )
        };
        assert_eq!(word % 256, 0);
        (word / 256) as usize
    }

    fn decode_picture(&self, file: &[u8], [luma, cb, cr]: [&mut [u8]; 3]) {
        // Each pointer comes with its slice's length.
        let word = unsafe {
            fb_decode_picture(
                file.as_ptr(),
                file.len(),
                luma.as_mut_ptr(),
                luma.len(),
                cb.as_mut_ptr(),
                cb.len(),
                cr.as_mut_ptr(),
                cr.len(),
            )
        };
        assert_eq!(word, 256);
    }
}

#[cfg(study)]
pub struct Study;

#[cfg(study)]
impl Codec for Study {
    fn name(&self) -> &'static str {
        "speed study"
    }

    fn both_kinds(&self) -> bool {
        false
    }

    fn slices(&self) -> bool {
        false
    }

    fn code(
        &self,
        layout: Layout,
        qp: u8,
        plane: &[u8],
        area: &mut [u8],
        rebuilt: &mut [u8],
    ) -> usize {
        // Each pointer comes with its slice's length; the study itself tests none, and they are those it takes.
        let answer = unsafe {
            study_code(
                plane.as_ptr(),
                plane.len(),
                rebuilt.as_mut_ptr(),
                rebuilt.len(),
                area.as_mut_ptr(),
                area.len(),
                layout.width,
                layout.height,
                qp,
            )
        };
        assert_eq!(answer, 0);
        area.len()
    }

    fn decode(&self, file: &[u8], plane: &mut [u8]) {
        /// The form of the records, their content, and the plane.
        const ALL_PARTS: u8 = 7;
        // Each pointer comes with its slice's length; the file is one that the study itself wrote.
        let answer = unsafe {
            study_decode(
                file.as_ptr(),
                file.len(),
                plane.as_mut_ptr(),
                plane.len(),
                ALL_PARTS,
            )
        };
        assert_eq!(answer, 0);
    }

    fn inspections(&self) -> bool {
        false
    }

    fn inspect(&self, _: &[u8], _: &[u8]) {
        unreachable!("it knows no inspection")
    }

    fn colour(&self) -> bool {
        false
    }

    fn code_picture(&self, _: &Picture, _: &mut [u8], _: [&mut [u8]; 3]) -> usize {
        unreachable!("it knows no colour")
    }

    fn decode_picture(&self, _: &[u8], _: [&mut [u8]; 3]) {
        unreachable!("it knows no colour")
    }
}

pub struct Reference;

impl Codec for Reference {
    fn name(&self) -> &'static str {
        "reference"
    }

    fn both_kinds(&self) -> bool {
        true
    }

    fn slices(&self) -> bool {
        true
    }

    fn code(
        &self,
        layout: Layout,
        qp: u8,
        plane: &[u8],
        area: &mut [u8],
        rebuilt: &mut [u8],
    ) -> usize {
        let Layout {
            width,
            height,
            rows,
        } = layout;
        reference::code_plane(width, height, rows, qp, plane, area, rebuilt)
            .expect("the sizes are right")
    }

    fn decode(&self, file: &[u8], plane: &mut [u8]) {
        reference::decode_plane(file, plane).expect("the file is whole");
    }

    fn inspections(&self) -> bool {
        true
    }

    fn inspect(&self, file: &[u8], theirs: &[u8]) {
        reference::inspect(file, theirs).expect("the plane is the file's");
    }

    fn colour(&self) -> bool {
        true
    }

    fn code_picture(
        &self,
        picture: &Picture,
        area: &mut [u8],
        [luma_out, cb_out, cr_out]: [&mut [u8]; 3],
    ) -> usize {
        let Layout {
            width,
            height,
            rows,
        } = picture.layout;
        let (qp, [cb_offset, cr_offset]) = (picture.qp, picture.offsets);
        let [luma, cb, cr] = picture.planes;
        reference::code_picture(
            width, height, rows, qp, cb_offset, cr_offset, luma, cb, cr, area, luma_out, cb_out,
            cr_out,
        )
        .expect("the sizes are right")
    }

    fn decode_picture(&self, file: &[u8], [luma, cb, cr]: [&mut [u8]; 3]) {
        let colour = reference::decode_picture(file, luma, cb, cr);
        assert_eq!(colour, Ok(true));
    }
}
