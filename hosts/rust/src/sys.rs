// sys.rs: the seam to the proved archive, as include/skumvari.h declares it; the only place that calls it.
// Each function is wrapped by one of the same name that takes slices, since slices are all that the header asks of a
// caller. Only the questions without judging ask for more, so these are unsafe to call.

mod archive {
    extern "C" {
        pub fn skumvari_table_words() -> usize;
        pub fn skumvari_intake(
            text: *const u8,
            text_length: usize,
            table: *mut u64,
            table_length: usize,
            answer: *mut u64,
            answer_length: usize,
        ) -> bool;
        pub fn skumvari_sound(text: *const u8, text_length: usize, table: *const u64, table_length: usize) -> bool;
        pub fn skumvari_entry(
            text: *const u8,
            text_length: usize,
            table: *const u64,
            table_length: usize,
            section: u64,
            kind: u64,
            row: u64,
            column: u64,
            answer: *mut u64,
            answer_length: usize,
        ) -> bool;
        pub fn skumvari_walk(
            text: *const u8,
            text_length: usize,
            table: *const u64,
            table_length: usize,
            model: u64,
            step: u64,
            depth: u64,
            answer: *mut u64,
            answer_length: usize,
        ) -> bool;
        pub fn skumvari_matrix(
            text: *const u8,
            text_length: usize,
            table: *const u64,
            table_length: usize,
            section: u64,
            kind: u64,
            values: *mut u64,
            values_length: usize,
            answer: *mut u64,
            answer_length: usize,
        ) -> bool;
        pub fn skumvari_double(word: u64, answer: *mut u64, answer_length: usize) -> bool;
        pub fn skumvari_pair(frequency: u64, value: u64, answer: *mut u64, answer_length: usize) -> bool;
        pub fn skumvari_list(
            text: *const u8,
            text_length: usize,
            table: *const u64,
            table_length: usize,
            words: usize,
            out: *mut u8,
            out_length: usize,
        ) -> usize;
        pub fn skumvari_entry_unjudged(
            text: *const u8,
            text_length: usize,
            table: *const u64,
            table_length: usize,
            section: u64,
            kind: u64,
            row: u64,
            column: u64,
            answer: *mut u64,
            answer_length: usize,
        ) -> bool;
        pub fn skumvari_walk_unjudged(
            text: *const u8,
            text_length: usize,
            table: *const u64,
            table_length: usize,
            model: u64,
            step: u64,
            depth: u64,
            answer: *mut u64,
            answer_length: usize,
        ) -> bool;
        pub fn skumvari_matrix_unjudged(
            text: *const u8,
            text_length: usize,
            table: *const u64,
            table_length: usize,
            section: u64,
            kind: u64,
            values: *mut u64,
            values_length: usize,
            answer: *mut u64,
            answer_length: usize,
        ) -> bool;
    }
}

// A question and the one of it that does not judge are declared alike, so each pair is called in one place.
type Entry = unsafe extern "C" fn(*const u8, usize, *const u64, usize, u64, u64, u64, u64, *mut u64, usize) -> bool;
type Walk = unsafe extern "C" fn(*const u8, usize, *const u64, usize, u64, u64, u64, *mut u64, usize) -> bool;
type Matrix =
    unsafe extern "C" fn(*const u8, usize, *const u64, usize, u64, u64, *mut u64, usize, *mut u64, usize) -> bool;

// A slice's pointer is never null and is aligned, for a length of 0 too; `&mut` slices overlap no other slice of the call, and the borrows
// last as long as the call. This is what makes every call below sound.

pub fn table_words() -> usize {
    // SAFETY: takes nothing and has no state.
    unsafe { archive::skumvari_table_words() }
}

pub fn intake(text: &[u8], table: &mut [u64], answer: &mut [u64]) -> bool {
    // SAFETY: the pointers and lengths are those of slices.
    unsafe {
        archive::skumvari_intake(
            text.as_ptr(),
            text.len(),
            table.as_mut_ptr(),
            table.len(),
            answer.as_mut_ptr(),
            answer.len(),
        )
    }
}

pub fn sound(text: &[u8], table: &[u64]) -> bool {
    // SAFETY: the pointers and lengths are those of slices.
    unsafe { archive::skumvari_sound(text.as_ptr(), text.len(), table.as_ptr(), table.len()) }
}

/// Writes as much of the listing as there is room for, and tells how many bytes that are.
pub fn list(text: &[u8], table: &[u64], words: usize, out: &mut [u8]) -> usize {
    // SAFETY: the pointers and lengths are those of slices.
    unsafe {
        archive::skumvari_list(
            text.as_ptr(),
            text.len(),
            table.as_ptr(),
            table.len(),
            words,
            out.as_mut_ptr(),
            out.len(),
        )
    }
}

/// The address of an entry is section, kind, row and column.
pub fn entry(text: &[u8], table: &[u64], address: [u64; 4], answer: &mut [u64]) -> bool {
    // SAFETY: it takes every text, table and address.
    unsafe { ask_entry(archive::skumvari_entry, text, table, address, answer) }
}

/// The same without judging the table.
///
/// # Safety
///
/// The table is sound for the text.
pub unsafe fn entry_unjudged(text: &[u8], table: &[u64], address: [u64; 4], answer: &mut [u64]) -> bool {
    // SAFETY: the caller answers for the table.
    unsafe { ask_entry(archive::skumvari_entry_unjudged, text, table, address, answer) }
}

/// # Safety
///
/// What the function asks for besides slices.
unsafe fn ask_entry(ask: Entry, text: &[u8], table: &[u64], address: [u64; 4], answer: &mut [u64]) -> bool {
    let [section, kind, row, column] = address;
    // SAFETY: the pointers and lengths are those of slices; the caller answers for the rest.
    unsafe {
        ask(
            text.as_ptr(),
            text.len(),
            table.as_ptr(),
            table.len(),
            section,
            kind,
            row,
            column,
            answer.as_mut_ptr(),
            answer.len(),
        )
    }
}

/// A place is model, step and depth.
pub fn walk(text: &[u8], table: &[u64], place: [u64; 3], answer: &mut [u64]) -> bool {
    // SAFETY: it takes every text, table and place.
    unsafe { ask_walk(archive::skumvari_walk, text, table, place, answer) }
}

/// The same without judging the table and the place.
///
/// # Safety
///
/// The table is sound for the text, and the place is in range.
pub unsafe fn walk_unjudged(text: &[u8], table: &[u64], place: [u64; 3], answer: &mut [u64]) -> bool {
    // SAFETY: the caller answers for the table and the place.
    unsafe { ask_walk(archive::skumvari_walk_unjudged, text, table, place, answer) }
}

/// # Safety
///
/// What the function asks for besides slices.
unsafe fn ask_walk(ask: Walk, text: &[u8], table: &[u64], place: [u64; 3], answer: &mut [u64]) -> bool {
    let [model, step, depth] = place;
    // SAFETY: the pointers and lengths are those of slices; the caller answers for the rest.
    unsafe {
        ask(
            text.as_ptr(),
            text.len(),
            table.as_ptr(),
            table.len(),
            model,
            step,
            depth,
            answer.as_mut_ptr(),
            answer.len(),
        )
    }
}

/// The address of a matrix is section and kind.
pub fn matrix(text: &[u8], table: &[u64], address: [u64; 2], values: &mut [u64], answer: &mut [u64]) -> bool {
    // SAFETY: it takes every text, table and address.
    unsafe { ask_matrix(archive::skumvari_matrix, text, table, address, values, answer) }
}

/// The same without judging the table.
///
/// # Safety
///
/// The table is sound for the text.
pub unsafe fn matrix_unjudged(
    text: &[u8],
    table: &[u64],
    address: [u64; 2],
    values: &mut [u64],
    answer: &mut [u64],
) -> bool {
    // SAFETY: the caller answers for the table.
    unsafe { ask_matrix(archive::skumvari_matrix_unjudged, text, table, address, values, answer) }
}

/// # Safety
///
/// What the function asks for besides slices.
unsafe fn ask_matrix(
    ask: Matrix,
    text: &[u8],
    table: &[u64],
    address: [u64; 2],
    values: &mut [u64],
    answer: &mut [u64],
) -> bool {
    let [section, kind] = address;
    // SAFETY: the pointers and lengths are those of slices; the caller answers for the rest.
    unsafe {
        ask(
            text.as_ptr(),
            text.len(),
            table.as_ptr(),
            table.len(),
            section,
            kind,
            values.as_mut_ptr(),
            values.len(),
            answer.as_mut_ptr(),
            answer.len(),
        )
    }
}

pub fn double(word: u64, answer: &mut [u64]) -> bool {
    // SAFETY: the pointer and the length are those of a slice.
    unsafe { archive::skumvari_double(word, answer.as_mut_ptr(), answer.len()) }
}

pub fn pair(frequency: u64, value: u64, answer: &mut [u64]) -> bool {
    // SAFETY: the pointer and the length are those of a slice.
    unsafe { archive::skumvari_pair(frequency, value, answer.as_mut_ptr(), answer.len()) }
}
