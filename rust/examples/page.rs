//! Stores a page, and sends it again four seconds later without asking the origin server.
use http::{Request, Response};
use http_cache_semantics::{BeforeRequest, CacheOptions, CachePolicy};
use std::time::{Duration, SystemTime};

fn main() -> http::Result<()> {
    let page = Request::get("/page").body(())?;
    let builder = Response::builder().header("cache-control", "max-age=10");
    let stored = builder.body(())?;
    let received = SystemTime::now();
    let policy = CachePolicy::new_options(&page, &stored, received, CacheOptions::default());
    match policy.before_request(&page, received + Duration::from_secs(4)) {
        BeforeRequest::Fresh(head) => println!("{} {:?}", head.status, head.headers["age"]),
        BeforeRequest::Stale { request, .. } => println!("{} {}", request.method, request.uri),
    }
    Ok(())
}
