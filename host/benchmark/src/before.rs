//! Another build of the library, loaded beside the one that is linked: so the
//! port before a change and after it are measured in one run.

use std::ffi::{c_char, c_int, c_void, CString};
use yeshqoram::{Answer, Normalized};

extern "C" {
    fn dlopen(file: *const c_char, flags: c_int) -> *mut c_void;
    fn dlsym(library: *mut c_void, name: *const c_char) -> *mut c_void;
}

const RTLD_NOW: c_int = 2;

type Call<A> = unsafe extern "C" fn(*const u8, usize, usize, *mut u8, usize, *mut u32, usize) -> A;

/// The services that include/yeshqoram.h declares.
pub struct Before {
    report: Call<Answer>,
    normalize: Call<Normalized>,
    spell_path: Call<Answer>,
}

impl Before {
    /// Loads a shared library that was made of `libexports.a`.
    pub fn load(path: &str) -> Result<Self, String> {
        let file = CString::new(path).map_err(|_| format!("no file is named {path:?}"))?;
        // The library runs no code when it is loaded.
        let library = unsafe { dlopen(file.as_ptr(), RTLD_NOW) };
        if library.is_null() {
            return Err(format!("{path} is no shared library"));
        }
        let find = |name: &str| {
            let symbol = CString::new(name).expect("no name holds a zero");
            let found = unsafe { dlsym(library, symbol.as_ptr()) };
            if found.is_null() {
                return Err(format!("{path} has no {name}"));
            }
            Ok(found)
        };
        // Each has the type that the header declares.
        unsafe {
            Ok(Before {
                report: std::mem::transmute::<*mut c_void, Call<Answer>>(find("yeshqoram_report")?),
                normalize: std::mem::transmute::<*mut c_void, Call<Normalized>>(find(
                    "yeshqoram_normalize",
                )?),
                spell_path: std::mem::transmute::<*mut c_void, Call<Answer>>(find(
                    "yeshqoram_spell_path",
                )?),
            })
        }
    }

    pub fn report(&self, text: &[u8], top_n: usize, out: &mut [u8], work: &mut [u32]) -> Answer {
        called(self.report, text, top_n, out, work)
    }

    pub fn normalize(
        &self,
        text: &[u8],
        cap: usize,
        out: &mut [u8],
        work: &mut [u32],
    ) -> Normalized {
        called(self.normalize, text, cap, out, work)
    }

    pub fn spell_path(&self, text: &[u8], k: usize, out: &mut [u8], work: &mut [u32]) -> Answer {
        called(self.spell_path, text, k, out, work)
    }
}

fn called<A>(call: Call<A>, text: &[u8], arg: usize, out: &mut [u8], work: &mut [u32]) -> A {
    // Each address is that of a slice of the length beside it, and the two
    // buffers are borrowed for this call alone.
    unsafe {
        call(
            text.as_ptr(),
            text.len(),
            arg,
            out.as_mut_ptr(),
            out.len(),
            work.as_mut_ptr(),
            work.len(),
        )
    }
}
