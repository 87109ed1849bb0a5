//! Check by two builds of the proved library, each a shared object, beside each other on the same files.

use crate::files::{Files, Ids};
use crate::timing::{medians, report_builds};
use crate::{DISTRIBUTORS, PASSES};
use reference::generate::RETAILER;
use std::ffi::{c_char, c_int, c_void, CString};

/// All that a shared object needs is found as it is loaded.
const AT_ONCE: c_int = 2;

extern "C" {
    fn dlopen(path: *const c_char, mode: c_int) -> *mut c_void;
    fn dlsym(object: *mut c_void, name: *const c_char) -> *mut c_void;
}

/// `intake_check` of host/intake.h.
type Check = extern "C" fn(u64, *const u8, usize, *const u8, usize) -> u64;

/// A build of the library.
struct Build {
    check: Check,
}

impl Build {
    fn load(path: &str) -> Build {
        let path = CString::new(path).expect("a path has no byte 0");
        let check = unsafe {
            let object = dlopen(path.as_ptr(), AT_ONCE);
            assert!(!object.is_null(), "{path:?} is a shared object");
            dlsym(object, c"intake_check".as_ptr())
        };
        assert!(!check.is_null(), "{path:?} exports intake_check");
        Build { check: unsafe { std::mem::transmute::<*mut c_void, Check>(check) } }
    }

    fn check(&self, file: &[u8]) -> (u32, u32) {
        let answer = (self.check)(RETAILER, DISTRIBUTORS.as_ptr(), DISTRIBUTORS.len(), file.as_ptr(), file.len());
        ((answer >> 32) as u32, answer as u32)
    }
}

/// Times Check by both builds: 11 calls of each on one file of each kind, which stays where it is, and their medians.
pub fn report_checks(before: &str, after: &str) {
    let (before, after) = (Build::load(before), Build::load(after));
    let mut files = Files::new();
    let kinds = [
        ("4096 lines, many sites", files.many_sites(4_096, Ids::Rising), PASSES),
        ("4096 lines, 4093 charges of one site", files.most_charges(), PASSES),
        ("4096 lines, all fields as long as they may be", files.longest_fields(), PASSES),
        ("1048576 bytes, refused by test 3 at line 4095", files.most_bytes(), (3, 4_095)),
    ];
    for (what, file, expected) in &kinds {
        let medians = medians(|| file.as_slice(), *expected, |file| after.check(file), |file| before.check(file));
        report_builds(&format!("check, {what}"), &medians);
    }
}
