//! The library under test, through its C interface. The answer is number, input, position, first,
//! second, count; a call gives back the number once more. The buffer holds numbers as four bytes
//! each, low byte first.

use crate::oracle::Settings;

/// The only declaration of the C interface here. The names that the library exports have the number of the binary interface
/// (`SGML_ABI` of the header).
mod c {
    extern "C" {
        #[link_name = "sgml_judge_abi9"]
        pub fn sgml_judge(
            type_file: *const u8,
            type_length: usize,
            buffer: *mut u8,
            buffer_length: usize,
            answer: *mut u32,
            name_length: u32,
            edition: u32,
        ) -> u32;
        #[link_name = "sgml_attributes_abi9"]
        pub fn sgml_attributes(
            type_file: *const u8,
            type_length: usize,
            buffer: *mut u8,
            buffer_length: usize,
            answer: *mut u32,
            name_length: u32,
            edition: u32,
        ) -> u32;
        #[link_name = "sgml_read_abi9"]
        pub fn sgml_read(
            type_file: *const u8,
            type_length: usize,
            document: *const u8,
            document_length: usize,
            buffer: *mut u8,
            buffer_length: usize,
            answer: *mut u32,
            name_length: u32,
            edition: u32,
        ) -> u32;
        #[link_name = "sgml_read_batch_abi9"]
        pub fn sgml_read_batch(
            type_file: *const u8,
            type_length: usize,
            string: *const u8,
            string_length: usize,
            starts: *const usize,
            starts_count: usize,
            lengths: *const usize,
            lengths_count: usize,
            buffer: *mut u8,
            buffer_length: usize,
            froms: *const usize,
            froms_count: usize,
            sizes: *const usize,
            sizes_count: usize,
            answers: *mut u32,
            answers_length: usize,
            answer: *mut u32,
            name_length: u32,
            edition: u32,
        ) -> u32;
    }
}

pub fn judge(settings: Settings, type_file: &[u8], buffer: &mut [u8], answer: &mut [u32; 6]) -> u32 {
    // Safety: every pointer is that of a live slice and goes with its length.
    unsafe {
        c::sgml_judge(
            type_file.as_ptr(),
            type_file.len(),
            buffer.as_mut_ptr(),
            buffer.len(),
            answer.as_mut_ptr(),
            settings.name_length,
            settings.edition,
        )
    }
}

pub fn attributes(
    settings: Settings,
    type_file: &[u8],
    buffer: &mut [u8],
    answer: &mut [u32; 6],
) -> u32 {
    // Safety: as above.
    unsafe {
        c::sgml_attributes(
            type_file.as_ptr(),
            type_file.len(),
            buffer.as_mut_ptr(),
            buffer.len(),
            answer.as_mut_ptr(),
            settings.name_length,
            settings.edition,
        )
    }
}

pub fn read(
    settings: Settings,
    type_file: &[u8],
    document: &[u8],
    buffer: &mut [u8],
    answer: &mut [u32; 6],
) -> u32 {
    // Safety: as above.
    unsafe {
        c::sgml_read(
            type_file.as_ptr(),
            type_file.len(),
            document.as_ptr(),
            document.len(),
            buffer.as_mut_ptr(),
            buffer.len(),
            answer.as_mut_ptr(),
            settings.name_length,
            settings.edition,
        )
    }
}

/// What a batch is given of its documents: starts and lengths in the string, and in the buffer.
pub struct Lists {
    pub starts: Vec<usize>,
    pub lengths: Vec<usize>,
    pub froms: Vec<usize>,
    pub sizes: Vec<usize>,
}

pub fn read_batch(
    settings: Settings,
    type_file: &[u8],
    string: &[u8],
    lists: &Lists,
    buffer: &mut [u8],
    answers: &mut [u32],
    answer: &mut [u32; 6],
) -> u32 {
    // Safety: as above.
    unsafe {
        c::sgml_read_batch(
            type_file.as_ptr(),
            type_file.len(),
            string.as_ptr(),
            string.len(),
            lists.starts.as_ptr(),
            lists.starts.len(),
            lists.lengths.as_ptr(),
            lists.lengths.len(),
            buffer.as_mut_ptr(),
            buffer.len(),
            lists.froms.as_ptr(),
            lists.froms.len(),
            lists.sizes.as_ptr(),
            lists.sizes.len(),
            answers.as_mut_ptr(),
            answers.len(),
            answer.as_mut_ptr(),
            settings.name_length,
            settings.edition,
        )
    }
}
