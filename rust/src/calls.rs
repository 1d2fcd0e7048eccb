//! Calls each function of the C library by a safe function. This is the only file with unsafe code.
#![allow(unsafe_code)]
use crate::error::Error;
use std::collections::hash_map::RandomState;
use std::hash::{BuildHasher, Hasher};
use std::mem::size_of;
use std::sync::OnceLock;
use std::time::{Duration, SystemTime};

/// `struct hcs_cache`.
#[repr(C)]
#[derive(Clone, Copy, Debug)]
pub(crate) struct Cache {
    secret: u64,
    more_secret: u64,
    pub(crate) immutable_seconds: u64,
    pub(crate) immutable_nanoseconds: u32,
    pub(crate) heuristic_numerator: u32,
    pub(crate) heuristic_denominator: u32,
    pub(crate) shared: u8,
    pub(crate) ignore_cargo_cult: u8,
    form: u8,
}

/// `struct hcs_time`.
#[repr(C)]
#[derive(Clone, Copy)]
pub(crate) struct Time {
    seconds: i64,
    nanoseconds: u32,
}

/// `struct hcs_duration`.
#[repr(C)]
struct Length {
    seconds: u64,
    nanoseconds: u32,
}

// The sizes of the structs in C, which `tests/library` compares with the header.
const _: () =
    assert!(size_of::<Cache>() == 40 && size_of::<Time>() == 16 && size_of::<Length>() == 16);

type Code = i32;
const TOO_SMALL: Code = -5;
// Most results are shorter, so a call is seldom repeated with a longer buffer.
const USUAL_SIZE: usize = 2048;

extern "C" {
    fn hcs_defaults(cache: *mut Cache);
    fn hcs_new(
        c: *const Cache,
        q: *const u8,
        ql: usize,
        r: *const u8,
        rl: usize,
        t: *const Time,
        out: *mut u8,
        len: usize,
        needed: *mut usize,
    ) -> Code;
    fn hcs_before(
        c: *const Cache,
        s: *const u8,
        sl: usize,
        q: *const u8,
        ql: usize,
        t: *const Time,
        out: *mut u8,
        len: usize,
        needed: *mut usize,
    ) -> Code;
    fn hcs_after(
        c: *const Cache,
        s: *const u8,
        sl: usize,
        q: *const u8,
        ql: usize,
        r: *const u8,
        rl: usize,
        t: *const Time,
        form: *mut u8,
        form_len: usize,
        form_needed: *mut usize,
        out: *mut u8,
        len: usize,
        needed: *mut usize,
    ) -> Code;
    fn hcs_explain(
        c: *const Cache,
        s: *const u8,
        sl: usize,
        q: *const u8,
        ql: usize,
        t: *const Time,
        n: *const u8,
        nl: usize,
        out: *mut u8,
        len: usize,
        needed: *mut usize,
    ) -> Code;
    fn hcs_storability(s: *const u8, sl: usize, obstacles: *mut u32) -> Code;
    fn hcs_freshness(s: *const u8, sl: usize, lifetime: *mut Length) -> Code;
    fn hcs_age(s: *const u8, sl: usize, t: *const Time, age: *mut Length) -> Code;
    fn hcs_time_to_live(s: *const u8, sl: usize, t: *const Time, left: *mut Length) -> Code;
    fn hcs_stale_use(
        c: *const Cache,
        s: *const u8,
        sl: usize,
        q: *const u8,
        ql: usize,
        t: *const Time,
    ) -> Code;
    fn hcs_response_at(
        s: *const u8,
        sl: usize,
        t: *const Time,
        out: *mut u8,
        len: usize,
        needed: *mut usize,
    ) -> Code;
    fn hcs_is_not_modified_for(
        c: *const Cache,
        s: *const u8,
        sl: usize,
        q: *const u8,
        ql: usize,
    ) -> Code;
    fn hcs_is_confirmed_by(
        c: *const Cache,
        s: *const u8,
        sl: usize,
        r: *const u8,
        rl: usize,
    ) -> Code;
    fn hcs_joined(
        c: *const Cache,
        r: *const u8,
        rl: usize,
        out: *mut u8,
        len: usize,
        needed: *mut usize,
    ) -> Code;
    fn hcs_updated(
        c: *const Cache,
        s: *const u8,
        sl: usize,
        r: *const u8,
        rl: usize,
        out: *mut u8,
        len: usize,
        needed: *mut usize,
    ) -> Code;
    fn hcs_fresh_at(
        c: *const Cache,
        s: *const u8,
        sl: usize,
        q: *const u8,
        ql: usize,
        t: *const Time,
    ) -> Code;
    fn hcs_may_be_used(
        c: *const Cache,
        s: *const u8,
        sl: usize,
        q: *const u8,
        ql: usize,
        t: *const Time,
    ) -> Code;
}

impl Cache {
    /// Returns the default options, with secrets that are drawn once per process.
    pub(crate) fn with_secrets() -> Cache {
        static SECRETS: OnceLock<(u64, u64)> = OnceLock::new();
        let drawn = || RandomState::new().build_hasher().finish();
        let (secret, more_secret) = *SECRETS.get_or_init(|| (drawn(), drawn()));
        let mut cache = std::mem::MaybeUninit::zeroed();
        // SAFETY: `cache` is valid for a write of the struct, and each pattern of its fields is a value.
        let defaults = unsafe {
            hcs_defaults(cache.as_mut_ptr());
            cache.assume_init()
        };
        Cache {
            secret,
            more_secret,
            ..defaults
        }
    }
}

impl Time {
    pub(crate) fn of(time: SystemTime) -> Result<Time, Error> {
        let (seconds, nanoseconds) = match time.duration_since(SystemTime::UNIX_EPOCH) {
            Ok(after) => (i64::try_from(after.as_secs()), after.subsec_nanos()),
            Err(e) => {
                let before = e.duration();
                let up = u64::from(before.subsec_nanos() > 0);
                let seconds = i64::try_from(before.as_secs() + up).map(|seconds| -seconds);
                (
                    seconds,
                    (1_000_000_000 - before.subsec_nanos()) % 1_000_000_000,
                )
            }
        };
        let seconds = seconds.map_err(|_| Error::BadArgument)?;
        Ok(Time {
            seconds,
            nanoseconds,
        })
    }
}

fn checked(code: Code) -> Result<Code, Error> {
    if code < 0 {
        return Err(Error::of_code(code));
    }
    Ok(code)
}

/// A vector that the library fills, with the length that it needs.
struct Out {
    bytes: Vec<u8>,
    needed: usize,
}

impl Out {
    fn new() -> Out {
        Out {
            bytes: Vec::with_capacity(USUAL_SIZE),
            needed: 0,
        }
    }

    /// Makes room for the bytes that the library needs.
    fn grow(&mut self) {
        self.bytes.reserve(self.needed);
    }

    /// Returns the bytes that the library has written.
    ///
    /// # Safety
    ///
    /// The library must have written `needed` bytes, and `needed` must be at most the capacity.
    unsafe fn filled(mut self) -> Vec<u8> {
        // SAFETY: the caller ensures that `needed` bytes are written within the capacity.
        unsafe { self.bytes.set_len(self.needed) };
        self.bytes
    }
}

/// Calls with longer and longer buffers until the result fits, and returns the code and the result.
fn filled(
    mut call: impl FnMut(*mut u8, usize, *mut usize) -> Code,
) -> Result<(Code, Vec<u8>), Error> {
    let mut out = Out::new();
    loop {
        let code = call(
            out.bytes.as_mut_ptr(),
            out.bytes.capacity(),
            &mut out.needed,
        );
        if code != TOO_SMALL {
            let code = checked(code)?;
            // SAFETY: a code of 0 or more means that `needed` bytes are written within the capacity.
            return Ok((code, unsafe { out.filled() }));
        }
        out.grow();
    }
}

pub(crate) fn new(
    cache: &Cache,
    request: &[u8],
    response: &[u8],
    received: Time,
) -> Result<Vec<u8>, Error> {
    // SAFETY: each pointer is to a borrowed slice of the length after it, or to a value; `out` has room for `len`.
    let (_, form) = filled(|out, len, needed| unsafe {
        hcs_new(
            cache,
            request.as_ptr(),
            request.len(),
            response.as_ptr(),
            response.len(),
            &received,
            out,
            len,
            needed,
        )
    })?;
    Ok(form)
}

pub(crate) fn before(
    cache: &Cache,
    stored: &[u8],
    request: &[u8],
    now: Time,
) -> Result<(Code, Vec<u8>), Error> {
    // SAFETY: as in `new`.
    filled(|out, len, needed| unsafe {
        hcs_before(
            cache,
            stored.as_ptr(),
            stored.len(),
            request.as_ptr(),
            request.len(),
            &now,
            out,
            len,
            needed,
        )
    })
}

/// Returns the code, the next stored form, and the head for the client.
pub(crate) fn after(
    cache: &Cache,
    stored: &[u8],
    request: &[u8],
    response: &[u8],
    now: Time,
) -> Result<(Code, Vec<u8>, Vec<u8>), Error> {
    let (mut form, mut head) = (Out::new(), Out::new());
    loop {
        // SAFETY: as in `new`; the two buffers don't overlap.
        let code = unsafe {
            hcs_after(
                cache,
                stored.as_ptr(),
                stored.len(),
                request.as_ptr(),
                request.len(),
                response.as_ptr(),
                response.len(),
                &now,
                form.bytes.as_mut_ptr(),
                form.bytes.capacity(),
                &mut form.needed,
                head.bytes.as_mut_ptr(),
                head.bytes.capacity(),
                &mut head.needed,
            )
        };
        if code != TOO_SMALL {
            let code = checked(code)?;
            // SAFETY: a code of 0 or more means that both are written within their capacities.
            return Ok(unsafe { (code, form.filled(), head.filled()) });
        }
        form.grow();
        head.grow();
    }
}

pub(crate) fn explain(
    cache: &Cache,
    stored: &[u8],
    request: &[u8],
    now: Time,
    name: &str,
) -> Result<Vec<u8>, Error> {
    // SAFETY: as in `new`.
    let (_, text) = filled(|out, len, needed| unsafe {
        hcs_explain(
            cache,
            stored.as_ptr(),
            stored.len(),
            request.as_ptr(),
            request.len(),
            &now,
            name.as_ptr(),
            name.len(),
            out,
            len,
            needed,
        )
    })?;
    Ok(text)
}

/// Returns the code of what allows the response to be stored, or 0, and the bits of what forbids it.
pub(crate) fn storability(stored: &[u8]) -> Result<(Code, u32), Error> {
    let mut obstacles = 0;
    // SAFETY: as in `new`.
    let code = checked(unsafe { hcs_storability(stored.as_ptr(), stored.len(), &mut obstacles) })?;
    Ok((code, obstacles))
}

/// Returns the freshness lifetime, and the code of what decides it.
pub(crate) fn freshness(stored: &[u8]) -> Result<(Duration, Code), Error> {
    let mut lifetime = Length {
        seconds: 0,
        nanoseconds: 0,
    };
    // SAFETY: as in `new`.
    let code = checked(unsafe { hcs_freshness(stored.as_ptr(), stored.len(), &mut lifetime) })?;
    Ok((Duration::new(lifetime.seconds, lifetime.nanoseconds), code))
}

pub(crate) fn age(stored: &[u8], now: Time) -> Result<Duration, Error> {
    let mut age = Length {
        seconds: 0,
        nanoseconds: 0,
    };
    // SAFETY: as in `new`.
    checked(unsafe { hcs_age(stored.as_ptr(), stored.len(), &now, &mut age) })?;
    Ok(Duration::new(age.seconds, age.nanoseconds))
}

pub(crate) fn time_to_live(stored: &[u8], now: Time) -> Result<Duration, Error> {
    let mut left = Length {
        seconds: 0,
        nanoseconds: 0,
    };
    // SAFETY: as in `new`.
    checked(unsafe { hcs_time_to_live(stored.as_ptr(), stored.len(), &now, &mut left) })?;
    Ok(Duration::new(left.seconds, left.nanoseconds))
}

pub(crate) fn stale_use(
    cache: &Cache,
    stored: &[u8],
    request: &[u8],
    now: Time,
) -> Result<Code, Error> {
    // SAFETY: as in `new`.
    checked(unsafe {
        hcs_stale_use(
            cache,
            stored.as_ptr(),
            stored.len(),
            request.as_ptr(),
            request.len(),
            &now,
        )
    })
}

pub(crate) fn response_at(stored: &[u8], now: Time) -> Result<Vec<u8>, Error> {
    // SAFETY: as in `new`.
    let (_, head) = filled(|out, len, needed| unsafe {
        hcs_response_at(stored.as_ptr(), stored.len(), &now, out, len, needed)
    })?;
    Ok(head)
}

pub(crate) fn is_not_modified_for(
    cache: &Cache,
    stored: &[u8],
    request: &[u8],
) -> Result<bool, Error> {
    // SAFETY: as in `new`.
    let code = unsafe {
        hcs_is_not_modified_for(
            cache,
            stored.as_ptr(),
            stored.len(),
            request.as_ptr(),
            request.len(),
        )
    };
    Ok(checked(code)? == 1)
}

pub(crate) fn is_confirmed_by(
    cache: &Cache,
    stored: &[u8],
    response: &[u8],
) -> Result<bool, Error> {
    // SAFETY: as in `new`.
    let code = unsafe {
        hcs_is_confirmed_by(
            cache,
            stored.as_ptr(),
            stored.len(),
            response.as_ptr(),
            response.len(),
        )
    };
    Ok(checked(code)? == 1)
}

pub(crate) fn joined(cache: &Cache, response: &[u8]) -> Result<Vec<u8>, Error> {
    // SAFETY: as in `new`.
    let (_, head) = filled(|out, len, needed| unsafe {
        hcs_joined(cache, response.as_ptr(), response.len(), out, len, needed)
    })?;
    Ok(head)
}

pub(crate) fn updated(cache: &Cache, stored: &[u8], received: &[u8]) -> Result<Vec<u8>, Error> {
    // SAFETY: as in `new`.
    let (_, head) = filled(|out, len, needed| unsafe {
        hcs_updated(
            cache,
            stored.as_ptr(),
            stored.len(),
            received.as_ptr(),
            received.len(),
            out,
            len,
            needed,
        )
    })?;
    Ok(head)
}

pub(crate) fn fresh_at(
    cache: &Cache,
    stored: &[u8],
    request: &[u8],
    now: Time,
) -> Result<bool, Error> {
    // SAFETY: as in `new`.
    let code = unsafe {
        hcs_fresh_at(
            cache,
            stored.as_ptr(),
            stored.len(),
            request.as_ptr(),
            request.len(),
            &now,
        )
    };
    Ok(checked(code)? == 1)
}

pub(crate) fn may_be_used(
    cache: &Cache,
    stored: &[u8],
    request: &[u8],
    now: Time,
) -> Result<bool, Error> {
    // SAFETY: as in `new`.
    let code = unsafe {
        hcs_may_be_used(
            cache,
            stored.as_ptr(),
            stored.len(),
            request.as_ptr(),
            request.len(),
            &now,
        )
    };
    Ok(checked(code)? == 1)
}
