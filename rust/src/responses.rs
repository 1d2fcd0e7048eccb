//! Functions on responses that have no policy.
use crate::calls;
use crate::error::Error;
use crate::heads;
use crate::messages::ResponseLike;
use crate::options::CacheOptions;
use crate::policy::head_of_response;
use http::response;

/// Returns a response with one field line for each name (RFC 9110, section 5.3).
///
/// A policy sends only the last line of each field. A cache that keeps all lines joins them before it makes the
/// policy.
///
/// # Errors
///
/// Returns `HeaderMapFull` if there are too many fields.
pub fn joined<Res: ResponseLike>(response: &Res) -> Result<response::Parts, Error> {
    heads::response_parts(&calls::joined(
        &CacheOptions::default().cache(),
        &head_of_response(response),
    )?)
}

/// Returns a stored response updated with the fields of a received 304 (RFC 9111, section 3.2).
///
/// # Errors
///
/// Returns `HeaderMapFull` if there are too many fields in both together.
pub fn updated<Res: ResponseLike, Received: ResponseLike>(
    stored: &Res,
    received: &Received,
) -> Result<response::Parts, Error> {
    let (stored, received) = (head_of_response(stored), head_of_response(received));
    heads::response_parts(&calls::updated(
        &CacheOptions::default().cache(),
        &stored,
        &received,
    )?)
}
