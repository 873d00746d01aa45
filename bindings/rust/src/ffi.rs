//! The functions and records of include/dezhakom.h as they are. tests/vectors.rs calls each of them through the safe functions.

#[repr(C)]
#[derive(Clone, Copy, Debug, Default, PartialEq, Eq)]
pub struct Command {
    pub byte: u32,
    pub team: u32,
    pub member: u32,
    pub lock: u32,
    pub site: u32,
    pub base: u32,
    pub stride: u32,
    pub count: u32,
    pub size: u32,
}

#[repr(C)]
#[derive(Clone, Copy, Debug, Default, PartialEq, Eq)]
pub struct Access {
    pub team: u32,
    pub member: u32,
    pub number: u32,
    pub site: u32,
    pub element: u32,
}

#[repr(C)]
#[derive(Clone, Copy, Debug, Default, PartialEq, Eq)]
pub struct Race {
    pub witness: u32,
    pub first: Access,
    pub second: Access,
}

#[repr(C)]
#[derive(Clone, Copy, Debug, Default, PartialEq, Eq)]
pub struct Judgement {
    pub chunks: u32,
    pub segments: u32,
    pub accesses: u32,
    pub races: u32,
    pub found: u32,
    pub least: Race,
}

#[repr(C)]
#[derive(Clone, Copy, Debug, Default, PartialEq, Eq)]
pub struct Totals {
    pub chunks: u32,
    pub segments: u32,
    pub accesses: u32,
    pub races: u32,
    pub whole: u32,
}

// The words of the records.
const _: () = {
    use std::mem::size_of;
    assert!(size_of::<Command>() == 4 * 9 && size_of::<crate::Label>() == 4 * 16 && size_of::<Access>() == 4 * 5);
    assert!(size_of::<Race>() == 4 * 11 && size_of::<Judgement>() == 4 * 16 && size_of::<Totals>() == 4 * 5);
};

extern "C" {
    pub fn dezhakom_read_command(
        bytes: *const u8,
        length: usize,
        position: usize,
        command: &mut Command,
        next: &mut usize,
        place: &mut usize,
    ) -> u32;

    pub fn dezhakom_put_command(
        command: &Command,
        buffer: *mut u8,
        length: usize,
        position: usize,
        next: &mut usize,
        place: &mut usize,
    ) -> u32;

    pub fn dezhakom_check(bytes: *const u8, length: usize, place: &mut usize) -> u32;

    pub fn dezhakom_find_chunk(
        bytes: *const u8,
        length: usize,
        team: u16,
        member: u8,
        start: &mut usize,
        end: &mut usize,
        place: &mut usize,
    ) -> u32;

    pub fn dezhakom_label_of_segment(
        bytes: *const u8,
        length: usize,
        team: u16,
        member: u8,
        segment: u32,
        label: &mut crate::Label,
        place: &mut usize,
    ) -> u32;

    pub fn dezhakom_compare_labels(
        first: &crate::Label,
        second: &crate::Label,
        order: &mut u32,
        place: &mut usize,
    ) -> u32;

    pub fn dezhakom_lowest_shared_byte(
        base: u32,
        stride: u16,
        count: u16,
        size: u8,
        other_base: u32,
        other_stride: u16,
        other_count: u16,
        other_size: u8,
        found: &mut u32,
        byte: &mut u32,
        element: &mut u32,
        other_element: &mut u32,
        place: &mut usize,
    ) -> u32;

    pub fn dezhakom_judge(
        bytes: *const u8,
        length: usize,
        work: *mut u32,
        words: usize,
        judgement: &mut Judgement,
        place: &mut usize,
    ) -> u32;

    pub fn dezhakom_next_race(
        bytes: *const u8,
        length: usize,
        witness: u32,
        first_team: u16,
        first_member: u8,
        first_number: u16,
        second_team: u16,
        second_member: u8,
        second_number: u16,
        work: *mut u32,
        words: usize,
        found: &mut u32,
        race: &mut Race,
        place: &mut usize,
    ) -> u32;

    pub fn dezhakom_list_races(
        bytes: *const u8,
        length: usize,
        work: *mut u32,
        words: usize,
        names: *mut u64,
        names_length: usize,
        numbers: *mut u64,
        numbers_length: usize,
        spare: *mut u64,
        spare_length: usize,
        totals: &mut Totals,
        place: &mut usize,
    ) -> u32;

    pub fn dezhakom_race_in(names: *const u64, names_length: usize, number: u64, race: &mut Race);
}
