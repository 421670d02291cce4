//! The functions of include/houayletan.h, by their names for the linker. None has a precondition but that pointers and lengths are those of slices.
use crate::limits::{linked, COUNT_WORDS};

#[repr(C)]
pub struct Verdict {
    pub number: u32,
    pub place: usize,
    pub nodes: usize,
    pub vars: u32,
}

#[repr(C)]
pub struct Count {
    pub verdict: Verdict,
    pub count: [u32; COUNT_WORDS],
}

#[repr(C)]
pub struct Float {
    pub verdict: Verdict,
    pub count: f64,
}

#[repr(C)]
pub struct Diagram {
    pub verdict: Verdict,
    pub nodes: usize,
}

#[repr(C)]
pub struct Approximation {
    pub verdict: Verdict,
    pub nodes: usize,
    pub trials: usize,
}

#[repr(C)]
pub struct Natural {
    pub words: [u32; COUNT_WORDS],
}

#[repr(C)]
pub struct Comparison {
    pub verdict: Verdict,
    pub which: u32,
    pub differ: u32,
    pub first: [u32; COUNT_WORDS],
    pub second: [u32; COUNT_WORDS],
    pub both: [u32; COUNT_WORDS],
    pub smallest: [u32; COUNT_WORDS],
}

#[repr(C)]
pub struct Stored {
    pub number: u32,
    pub place: usize,
    pub nodes: usize,
}

#[derive(Clone, Copy, Debug, PartialEq)]
#[repr(C)]
pub struct Setting {
    pub direction: u32,
    pub kind: u32,
    pub as_is: u32,
    pub target: [u32; COUNT_WORDS],
}

#[repr(C)]
pub struct SettingRead {
    pub number: u32,
    pub place: usize,
    pub version: u32,
    pub setting: Setting,
}

#[repr(C)]
pub struct SettingWritten {
    pub number: u32,
    pub place: usize,
    pub bytes: usize,
}

extern "C" {
    #[link_name = linked!(underapproximate)]
    fn houayletan_underapproximate(words: *const u32, words_len: usize, list: *const u32, list_len: usize, room: *mut u32, room_len: usize, output: *mut u32, output_len: usize) -> Diagram;
    #[link_name = linked!(overapproximate)]
    fn houayletan_overapproximate(words: *const u32, words_len: usize, list: *const u32, list_len: usize, room: *mut u32, room_len: usize, output: *mut u32, output_len: usize) -> Diagram;
    #[link_name = linked!(underapproximate_to_size)]
    fn houayletan_underapproximate_to_size(words: *const u32, words_len: usize, target: u32, as_is: u32, room: *mut u32, room_len: usize, output: *mut u32, output_len: usize) -> Approximation;
    #[link_name = linked!(overapproximate_to_size)]
    fn houayletan_overapproximate_to_size(words: *const u32, words_len: usize, target: u32, as_is: u32, room: *mut u32, room_len: usize, output: *mut u32, output_len: usize) -> Approximation;
    #[link_name = linked!(underapproximate_to_cardinality)]
    fn houayletan_underapproximate_to_cardinality(words: *const u32, words_len: usize, target: Natural, as_is: u32, room: *mut u32, room_len: usize, output: *mut u32, output_len: usize) -> Approximation;
    #[link_name = linked!(overapproximate_to_cardinality)]
    fn houayletan_overapproximate_to_cardinality(words: *const u32, words_len: usize, target: Natural, as_is: u32, room: *mut u32, room_len: usize, output: *mut u32, output_len: usize) -> Approximation;
    #[link_name = linked!(validate)]
    fn houayletan_validate(words: *const u32, words_len: usize, room: *mut u32, room_len: usize) -> Verdict;
    #[link_name = linked!(clear)]
    fn houayletan_clear(room: *mut u32, room_len: usize, count: usize);
    #[link_name = linked!(exact_cardinality)]
    fn houayletan_exact_cardinality(words: *const u32, words_len: usize, room: *mut u32, room_len: usize) -> Count;
    #[link_name = linked!(cardinality)]
    fn houayletan_cardinality(words: *const u32, words_len: usize, room: *mut u32, room_len: usize) -> Float;
    #[link_name = linked!(exact_clause_cardinality)]
    fn houayletan_exact_clause_cardinality(words: *const u32, words_len: usize, room: *mut u32, room_len: usize) -> Count;
    #[link_name = linked!(node_valuation_weights)]
    fn houayletan_node_valuation_weights(words: *const u32, words_len: usize, room: *mut u32, room_len: usize, output: *mut u32, output_len: usize) -> Verdict;
    #[link_name = linked!(count_and_weights)]
    fn houayletan_count_and_weights(words: *const u32, words_len: usize, room: *mut u32, room_len: usize, output: *mut u32, output_len: usize) -> Count;
    #[link_name = linked!(read_as_bytes)]
    fn houayletan_read_as_bytes(bytes: *const u8, bytes_len: usize, output: *mut u32, output_len: usize) -> Stored;
    #[link_name = linked!(write_as_bytes)]
    fn houayletan_write_as_bytes(words: *const u32, words_len: usize, bytes: *mut u8, bytes_len: usize) -> Stored;
    #[link_name = linked!(read_settings)]
    fn houayletan_read_settings(block: *const u8, block_len: usize) -> SettingRead;
    #[link_name = linked!(write_settings)]
    fn houayletan_write_settings(version: u32, setting: Setting, output: *mut u8, output_len: usize) -> SettingWritten;
    #[link_name = linked!(compare)]
    fn houayletan_compare(first: *const u32, first_len: usize, second: *const u32, second_len: usize, room: *mut u32, room_len: usize, table: *mut u32, table_len: usize) -> Comparison;
    #[link_name = linked!(reduce)]
    fn houayletan_reduce(words: *const u32, words_len: usize, room: *mut u32, room_len: usize, output: *mut u32, output_len: usize) -> Diagram;
}

pub fn validate(words: &[u32], room: &mut [u32]) -> Verdict {
    unsafe { houayletan_validate(words.as_ptr(), words.len(), room.as_mut_ptr(), room.len()) }
}

pub fn compare(first: &[u32], second: &[u32], room: &mut [u32], table: &mut [u32]) -> Comparison {
    let (lent, len) = (table.as_mut_ptr(), table.len());
    unsafe { houayletan_compare(first.as_ptr(), first.len(), second.as_ptr(), second.len(), room.as_mut_ptr(), room.len(), lent, len) }
}

pub fn clear(room: &mut [u32], count: usize) {
    unsafe { houayletan_clear(room.as_mut_ptr(), room.len(), count) }
}

pub fn exact_cardinality(words: &[u32], room: &mut [u32]) -> Count {
    unsafe { houayletan_exact_cardinality(words.as_ptr(), words.len(), room.as_mut_ptr(), room.len()) }
}

pub fn cardinality(words: &[u32], room: &mut [u32]) -> Float {
    unsafe { houayletan_cardinality(words.as_ptr(), words.len(), room.as_mut_ptr(), room.len()) }
}

pub fn exact_clause_cardinality(words: &[u32], room: &mut [u32]) -> Count {
    unsafe { houayletan_exact_clause_cardinality(words.as_ptr(), words.len(), room.as_mut_ptr(), room.len()) }
}

pub fn node_valuation_weights(words: &[u32], room: &mut [u32], output: &mut [u32]) -> Verdict {
    let (out, out_len) = (output.as_mut_ptr(), output.len());
    unsafe { houayletan_node_valuation_weights(words.as_ptr(), words.len(), room.as_mut_ptr(), room.len(), out, out_len) }
}

pub fn count_and_weights(words: &[u32], room: &mut [u32], output: &mut [u32]) -> Count {
    let (out, out_len) = (output.as_mut_ptr(), output.len());
    unsafe { houayletan_count_and_weights(words.as_ptr(), words.len(), room.as_mut_ptr(), room.len(), out, out_len) }
}

pub fn reduce(words: &[u32], room: &mut [u32], output: &mut [u32]) -> Diagram {
    let (out, out_len) = (output.as_mut_ptr(), output.len());
    unsafe { houayletan_reduce(words.as_ptr(), words.len(), room.as_mut_ptr(), room.len(), out, out_len) }
}

pub fn underapproximate(words: &[u32], list: &[u32], room: &mut [u32], output: &mut [u32]) -> Diagram {
    let (out, out_len) = (output.as_mut_ptr(), output.len());
    unsafe { houayletan_underapproximate(words.as_ptr(), words.len(), list.as_ptr(), list.len(), room.as_mut_ptr(), room.len(), out, out_len) }
}

pub fn overapproximate(words: &[u32], list: &[u32], room: &mut [u32], output: &mut [u32]) -> Diagram {
    let (out, out_len) = (output.as_mut_ptr(), output.len());
    unsafe { houayletan_overapproximate(words.as_ptr(), words.len(), list.as_ptr(), list.len(), room.as_mut_ptr(), room.len(), out, out_len) }
}

pub fn underapproximate_to_size(words: &[u32], target: u32, as_is: bool, room: &mut [u32], output: &mut [u32]) -> Approximation {
    let (out, out_len) = (output.as_mut_ptr(), output.len());
    unsafe { houayletan_underapproximate_to_size(words.as_ptr(), words.len(), target, as_is as u32, room.as_mut_ptr(), room.len(), out, out_len) }
}

pub fn overapproximate_to_size(words: &[u32], target: u32, as_is: bool, room: &mut [u32], output: &mut [u32]) -> Approximation {
    let (out, out_len) = (output.as_mut_ptr(), output.len());
    unsafe { houayletan_overapproximate_to_size(words.as_ptr(), words.len(), target, as_is as u32, room.as_mut_ptr(), room.len(), out, out_len) }
}

pub fn underapproximate_to_cardinality(words: &[u32], target: Natural, as_is: bool, room: &mut [u32], output: &mut [u32]) -> Approximation {
    let (out, out_len) = (output.as_mut_ptr(), output.len());
    unsafe { houayletan_underapproximate_to_cardinality(words.as_ptr(), words.len(), target, as_is as u32, room.as_mut_ptr(), room.len(), out, out_len) }
}

pub fn overapproximate_to_cardinality(words: &[u32], target: Natural, as_is: bool, room: &mut [u32], output: &mut [u32]) -> Approximation {
    let (out, out_len) = (output.as_mut_ptr(), output.len());
    unsafe { houayletan_overapproximate_to_cardinality(words.as_ptr(), words.len(), target, as_is as u32, room.as_mut_ptr(), room.len(), out, out_len) }
}

pub fn read_as_bytes(bytes: &[u8], output: &mut [u32]) -> Stored {
    unsafe { houayletan_read_as_bytes(bytes.as_ptr(), bytes.len(), output.as_mut_ptr(), output.len()) }
}

pub fn write_as_bytes(words: &[u32], bytes: &mut [u8]) -> Stored {
    unsafe { houayletan_write_as_bytes(words.as_ptr(), words.len(), bytes.as_mut_ptr(), bytes.len()) }
}

pub fn read_settings(block: &[u8]) -> SettingRead {
    unsafe { houayletan_read_settings(block.as_ptr(), block.len()) }
}

pub fn write_settings(version: u32, setting: Setting, output: &mut [u8]) -> SettingWritten {
    unsafe { houayletan_write_settings(version, setting, output.as_mut_ptr(), output.len()) }
}
