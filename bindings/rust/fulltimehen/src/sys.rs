//! All `unsafe` code of the crate: the calls of the proved library, and the allocator that it asks for. What
//! it hands out is safe.
//!
//! `tests/declarations.rs` compares the types of these declarations with those of the library's source. Each
//! `unsafe` block says why it may stand there.

#[cfg(feature = "heap")]
pub(crate) mod heap;

use std::ptr;

/// The library's `Handle`: an address, and an allocator, which takes no bytes. Null is no session.
#[repr(C)]
struct Handle {
    at: *mut u8,
}

// As `crates/svc_c/src/lib.rt` declares them: a slice crosses as a pointer and a length, and the
// parameter `alloc` takes no bytes, so nothing is passed for it.
//
// Where the build script didn't find the library, each call has the name of a sentence instead, which no
// library has: programs are checked, and the linker says the sentence where one is to be made.
macro_rules! declare {
    ($(fn $name:ident($($parameter:ident: $kind:ty),* $(,)?) $(-> $result:ty)?;)*) => {
        #[allow(clashing_extern_declarations, reason = "the sentences are none")]
        unsafe extern "C" {
            $(
                #[cfg_attr(
                    svc_c = "missing",
                    link_name = "libsvc_c.a is missing: run `bin/archive`, or name its folder in FULLTIMEHEN_LIB, and build again"
                )]
                #[cfg_attr(
                    svc_c = "foreign",
                    link_name = "libsvc_c.a is of another target: build it for this one, and name its folder in FULLTIMEHEN_LIB"
                )]
                fn $name($($parameter: $kind),*) $(-> $result)?;
            )*
        }
    };
}

declare! {
    fn svc_c_new(
        script: *const u8,
        script_len: usize,
        upgrade: bool,
        daemon: bool,
        test: bool,
        handle: *mut Handle,
        place: *mut u64,
        key: *mut u8,
        key_len: usize,
    ) -> u32;
    fn svc_c_begin(handle: *mut Handle) -> u32;
    fn svc_c_fits(
        handle: *mut Handle,
        line: *const u8,
        line_len: usize,
        filter: *mut u32,
        said: *mut bool,
    ) -> u32;
    fn svc_c_step(handle: *mut Handle, line: *const u8, line_len: usize, said: bool) -> u32;
    fn svc_c_told(handle: *mut Handle, out: *mut u8, out_len: usize, length: *mut u64) -> u32;
    fn svc_c_close(handle: *mut Handle, line: *const u8, line_len: usize) -> u32;
    fn svc_c_next_due(handle: *mut Handle) -> u64;
    fn svc_c_drop(handle: *mut Handle);
}

/// A session of the library. Its handle has one: the only `requires` of the library's calls.
pub(crate) struct Session {
    handle: Handle,
}

// SAFETY: a session is memory to which its handle alone leads, and the library has no variables, so that it can't tell one thread
// from another (`tests/bindings` looks whether it has none). Its allocator is the program's, of which each thread may ask. Two
// threads never use it at once: it isn't `Sync`.
unsafe impl Send for Session {}

/// Why no session was made: the answer's number, and the refused line or the name of the refused key.
pub(crate) struct Refused {
    pub number: u32,
    pub place: u64,
    pub key: String,
}

impl Session {
    /// A session of a script, with the flags `upgrade`, `daemon` and `test`.
    pub(crate) fn new(script: &[u8], flags: [bool; 3]) -> Result<Session, Refused> {
        let mut handle = Handle { at: ptr::null_mut() };
        let mut place = 0;
        let mut key = [0; 64];
        let [upgrade, daemon, test] = flags;
        // SAFETY: the pointers and lengths are those of a slice and an array that outlive the call and
        // don't overlap, and the other pointers are those of locals. A handle at null has no session.
        let number = unsafe {
            svc_c_new(
                script.as_ptr(),
                script.len(),
                upgrade,
                daemon,
                test,
                &raw mut handle,
                &raw mut place,
                key.as_mut_ptr(),
                key.len(),
            )
        };
        if number == 0 {
            return Ok(Session { handle });
        }
        let length = key.len().min(usize::try_from(place).unwrap_or(key.len()));
        let key = String::from_utf8_lossy(&key[..length]).trim_end_matches('\0').to_owned();
        Err(Refused { number, place, key })
    }

    pub(crate) fn begin(&mut self) -> u32 {
        // SAFETY: the handle has a session, and is borrowed for the call.
        unsafe { svc_c_begin(&raw mut self.handle) }
    }

    /// The answer's number, the filter, and what the blocked addresses say.
    pub(crate) fn fits(&mut self, line: &[u8]) -> (u32, u32, bool) {
        let (mut filter, mut said) = (0, true);
        // SAFETY: the handle has a session, the pointer and the length are those of one slice, which
        // outlives the call, and the other pointers are those of locals.
        let number = unsafe {
            svc_c_fits(
                &raw mut self.handle,
                line.as_ptr(),
                line.len(),
                &raw mut filter,
                &raw mut said,
            )
        };
        (number, filter, said)
    }

    pub(crate) fn step(&mut self, line: &[u8], said: bool) -> u32 {
        // SAFETY: the handle has a session, and the pointer and the length are those of one slice, which
        // outlives the call.
        unsafe { svc_c_step(&raw mut self.handle, line.as_ptr(), line.len(), said) }
    }

    /// The answer's number, and how many bytes the lines are.
    pub(crate) fn told(&mut self, out: &mut [u8]) -> (u32, u64) {
        let mut length = 0;
        // SAFETY: the handle has a session, the pointer and the length are those of one slice, which is
        // borrowed for the call, and the other pointer is that of a local.
        let number = unsafe {
            svc_c_told(&raw mut self.handle, out.as_mut_ptr(), out.len(), &raw mut length)
        };
        (number, length)
    }

    pub(crate) fn next_due(&mut self) -> Option<u64> {
        // SAFETY: the handle has a session, and is borrowed for the call.
        let moment = unsafe { svc_c_next_due(&raw mut self.handle) };
        (moment != u64::MAX).then_some(moment)
    }

    pub(crate) fn close(&mut self, line: &[u8]) -> u32 {
        // SAFETY: as in `step`.
        unsafe { svc_c_close(&raw mut self.handle, line.as_ptr(), line.len()) }
    }
}

impl Drop for Session {
    fn drop(&mut self) {
        // SAFETY: the handle has a session, which ends here: no call follows.
        unsafe { svc_c_drop(&raw mut self.handle) }
    }
}
