//! How the benchmarks time what they compare.

use crate::files::file_of_samples;
use crate::gen::{calm_air, gusts, turbulence, Rng};
use crate::reference::Sample;
use std::ffi::{c_char, c_int, c_void, CString};
use std::mem::transmute;
use std::time::Instant;
use windshear::Outcome;

/// The median time of each pass in milliseconds. They are timed by turns, one pass of each in every
/// round, so that what slows the machine meanwhile slows them alike. A first round is not counted.
pub fn medians<const N: usize>(rounds: usize, mut passes: [&mut dyn FnMut(); N]) -> [f64; N] {
    assert!(rounds % 2 == 1, "the median is one of the times");
    let mut times = [const { Vec::new() }; N];
    for _ in 0..=rounds {
        for (pass, times) in passes.iter_mut().zip(&mut times) {
            let began = Instant::now();
            pass();
            times.push(began.elapsed().as_secs_f64() * 1e3);
        }
    }
    times.map(|mut times| {
        times.remove(0);
        times.sort_by(f64::total_cmp);
        times[rounds / 2]
    })
}

/// Three files of 2,600 records. Calm: small random changes, no lamp; turbulent: strong random changes at
/// every sample; gusty: winds that wander and jump, with changes of mode, height and climb.
pub fn three_files() -> [(&'static str, Vec<u8>); 3] {
    three_lists(2_600).map(|(name, list)| (name, file_of_samples(&list)))
}

/// The same with so many samples.
pub fn three_lists(n: i32) -> [(&'static str, Vec<Sample>); 3] {
    [
        ("calm", calm_air(&mut Rng::new(61), n)),
        ("turbulent", turbulence(&mut Rng::new(62), n)),
        ("gusty", gusts(&mut Rng::new(60), n)),
    ]
}

/// The line of one comparison.
pub fn report(what: &str, library: f64, plain: f64, reference: f64) {
    println!(
        "{what}: library {library:.3} ms, plain {plain:.3} ms, reference {reference:.3} ms; \
         library / plain {:.2}, library / reference {:.2}",
        library / plain,
        library / reference
    );
}

extern "C" {
    fn dlopen(path: *const c_char, flags: c_int) -> *mut c_void;
    fn dlsym(library: *mut c_void, name: *const c_char) -> *mut c_void;
}

/// `windshear_run` of the library as it was at an earlier commit.
pub struct Earlier(extern "C" fn(*const u8, usize, *mut u8, usize) -> Outcome);

impl Earlier {
    /// From a shared object that holds that library, so that its names do not meet those of today's.
    pub fn open(path: &str) -> Earlier {
        let path = CString::new(path).expect("a path has no zero byte");
        const RTLD_NOW: c_int = 2;
        // SAFETY: both names end in a zero byte. The function has the type that include/windshear.h gives it.
        unsafe {
            let library = dlopen(path.as_ptr(), RTLD_NOW);
            assert!(!library.is_null(), "{path:?} can't be opened");
            let run = dlsym(library, c"windshear_run".as_ptr());
            assert!(!run.is_null(), "{path:?} has no windshear_run");
            Earlier(transmute::<
                *mut c_void,
                extern "C" fn(*const u8, usize, *mut u8, usize) -> Outcome,
            >(run))
        }
    }

    pub fn run(&self, file: &[u8], answers: &mut [u8]) -> Outcome {
        (self.0)(
            file.as_ptr(),
            file.len(),
            answers.as_mut_ptr(),
            answers.len(),
        )
    }
}
