// library.rs: the intake of an archive that was made a shared library, loaded by its path, so that two versions of the
// same functions can be called in one process.
use std::ffi::{c_char, c_int, c_void, CStr, CString};
use std::mem::transmute;

use plain::Answer;

/// Every symbol is found at once, and none is seen by other libraries.
const RTLD_NOW: c_int = 2;

extern "C" {
    fn dlopen(path: *const c_char, flags: c_int) -> *mut c_void;
    fn dlsym(library: *mut c_void, name: *const c_char) -> *mut c_void;
    fn dlerror() -> *const c_char;
}

type TableWords = unsafe extern "C" fn() -> usize;
type Intake = unsafe extern "C" fn(*const u8, usize, *mut u64, usize, *mut u64, usize) -> bool;

pub struct Library {
    table_words: TableWords,
    intake: Intake,
}

impl Library {
    pub fn open(path: &str) -> Result<Library, String> {
        let path = CString::new(path).map_err(|error| error.to_string())?;
        // SAFETY: the path is a string of C's, and a library made of an archive runs nothing when it is loaded.
        let library = unsafe { dlopen(path.as_ptr(), RTLD_NOW) };
        if library.is_null() {
            return Err(last_error());
        }
        let (table_words, intake) = (symbol(library, "skumvari_table_words")?, symbol(library, "skumvari_intake")?);
        // SAFETY: the two functions have these types in every version of include/skumvari.h.
        Ok(unsafe {
            Library {
                table_words: transmute::<*mut c_void, TableWords>(table_words),
                intake: transmute::<*mut c_void, Intake>(intake),
            }
        })
    }

    /// A length of table that every text fits.
    pub fn table_words(&self) -> usize {
        // SAFETY: takes nothing and has no state.
        unsafe { (self.table_words)() }
    }

    pub fn intake(&self, text: &[u8], table: &mut [u64]) -> Answer {
        let mut answer = [0; 4];
        // SAFETY: the pointers and lengths are those of slices.
        let lent = unsafe {
            (self.intake)(text.as_ptr(), text.len(), table.as_mut_ptr(), table.len(), answer.as_mut_ptr(), answer.len())
        };
        assert!(lent, "an answer of the intake has four words");
        match answer {
            [1, _, _, used] => Answer::Accepted(used as usize),
            [_, number, line, _] => Answer::Refused(number, line),
        }
    }
}

fn symbol(library: *mut c_void, name: &str) -> Result<*mut c_void, String> {
    let text = CString::new(name).expect("a name without zeros");
    // SAFETY: the library was opened, is never closed, and the name is a string of C's.
    let found = unsafe { dlsym(library, text.as_ptr()) };
    if found.is_null() {
        return Err(last_error());
    }
    Ok(found)
}

fn last_error() -> String {
    // SAFETY: after a call that failed the system tells a string of C's, which stands until the next such call.
    unsafe { CStr::from_ptr(dlerror()) }.to_string_lossy().into_owned()
}
