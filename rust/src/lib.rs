//! Decides when a stored HTTP response may be used again (RFC 7234, sections 3 to 5).
//!
//! It has the names and types of the Rust crate http-cache-semantics 3.0.0. Each decision is a call of the
//! proved library; README.md lists what differs.
//!
//! ```
//! use http::{Request, Response};
//! use http_cache_semantics::{BeforeRequest, CacheOptions, CachePolicy};
//! use std::time::{Duration, SystemTime};
//!
//! let request = Request::get("/a").body(()).unwrap();
//! let response = Response::builder().header("cache-control", "max-age=10").body(()).unwrap();
//! let received = SystemTime::UNIX_EPOCH + Duration::from_secs(1_704_067_200);
//! let policy = CachePolicy::new_options(&request, &response, received, CacheOptions::default());
//! assert!(policy.is_storable());
//! let now = received + Duration::from_secs(4);
//! assert_eq!(policy.time_to_live(now), Duration::from_secs(6));
//! assert!(matches!(policy.before_request(&request, now), BeforeRequest::Fresh(_)));
//! ```
#![warn(missing_docs)]
#![deny(unsafe_code)]

mod calls;
mod error;
mod heads;
mod messages;
mod options;
mod policy;
mod responses;

pub use error::Error;
pub use messages::{RequestLike, ResponseLike};
pub use options::CacheOptions;
pub use policy::{AfterResponse, BeforeRequest, CachePolicy, Freshness, StaleUse, Storability};
pub use responses::{joined, updated};
