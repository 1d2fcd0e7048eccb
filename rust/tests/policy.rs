//! The calls of the crate, with results that follow from RFC 7234 and RFC 9111.
use http::{HeaderMap, Method, Request, Response, Uri};
use http_cache_semantics::{
    joined, updated, AfterResponse, BeforeRequest, CacheOptions, CachePolicy, Error, RequestLike,
};
use std::time::{Duration, SystemTime};

fn at(seconds: u64) -> SystemTime {
    SystemTime::UNIX_EPOCH + Duration::from_secs(1_704_067_200 + seconds)
}

fn get(uri: &str) -> Request<()> {
    Request::get(uri).body(()).unwrap()
}

fn response(fields: &[(&str, &str)]) -> Response<()> {
    let mut builder = Response::builder();
    for (name, value) in fields {
        builder = builder.header(*name, *value);
    }
    builder.body(()).unwrap()
}

fn policy_of(uri: &str, fields: &[(&str, &str)]) -> CachePolicy {
    CachePolicy::new_options(&get(uri), &response(fields), at(0), CacheOptions::default())
}

fn is_fresh<Req: RequestLike>(policy: &CachePolicy, request: &Req, seconds: u64) -> bool {
    policy
        .before_request(request, at(seconds))
        .satisfies_without_revalidation()
}

/// A request whose cache decides for itself which targets are the same.
struct Folded(Uri, bool, HeaderMap);

impl RequestLike for Folded {
    fn uri(&self) -> Uri {
        self.0.clone()
    }

    fn is_same_uri(&self, _: &Uri) -> bool {
        self.1
    }

    fn method(&self) -> &Method {
        &Method::GET
    }

    fn headers(&self) -> &HeaderMap {
        &self.2
    }
}

fn folded(uri: &'static str, same: bool) -> Folded {
    Folded(Uri::from_static(uri), same, HeaderMap::new())
}

#[test]
fn a_lifetime_ends() {
    let policy = policy_of("/a", &[("cache-control", "max-age=10"), ("age", "3")]);
    assert!(policy.is_storable());
    assert_eq!(policy.age(at(4)), Duration::from_secs(7));
    assert_eq!(policy.time_to_live(at(4)), Duration::from_secs(3));
    assert!(!policy.is_stale(at(6)));
    assert!(policy.is_stale(at(7)));
    assert!(is_fresh(&policy, &get("/a"), 6));
    assert!(!is_fresh(&policy, &get("/a"), 7));
    assert_eq!(
        (policy.freshness().lifetime, policy.freshness().source),
        (Duration::from_secs(10), "max-age")
    );
}

#[test]
fn a_fresh_response_has_its_age() {
    let policy = policy_of(
        "/a",
        &[
            ("cache-control", "max-age=10"),
            ("connection", "x-hop"),
            ("x-hop", "1"),
        ],
    );
    let BeforeRequest::Fresh(parts) = policy.before_request(&get("/a"), at(4)) else {
        panic!("stale")
    };
    assert_eq!(parts.status, 200);
    assert_eq!(parts.headers["age"], "4");
    assert_eq!(parts.headers["cache-control"], "max-age=10");
    assert!(!parts.headers.contains_key("x-hop"));
}

#[test]
fn a_stale_response_is_validated() {
    let policy = policy_of("/a", &[("cache-control", "max-age=10"), ("etag", "\"1\"")]);
    let BeforeRequest::Stale { request, matches } = policy.before_request(&get("/a"), at(20))
    else {
        panic!("fresh")
    };
    assert!(matches);
    assert_eq!(
        (request.method, request.uri),
        (Method::GET, Uri::from_static("/a"))
    );
    assert_eq!(request.headers["if-none-match"], "\"1\"");
    let confirmed = Response::builder()
        .status(304)
        .header("etag", "\"1\"")
        .body(())
        .unwrap();
    let AfterResponse::NotModified(next, parts) =
        policy.after_response(&get("/a"), &confirmed, at(20))
    else {
        panic!("modified")
    };
    assert_eq!(parts.status, 200);
    assert!(is_fresh(&next, &get("/a"), 29));
    let other = response(&[("cache-control", "no-store")]);
    let AfterResponse::Modified(next, _) = policy.after_response(&get("/a"), &other, at(20)) else {
        panic!("not modified")
    };
    assert!(!next.is_storable());
}

#[test]
fn an_own_comparison_of_targets_counts() {
    let policy = policy_of("/a?x=1", &[("cache-control", "max-age=10")]);
    assert!(is_fresh(&policy, &folded("/other", true), 4));
    assert!(!is_fresh(&policy, &folded("/a?x=1", false), 4));
    assert!(policy.fresh_at(&folded("/other", true), at(4)).unwrap());
    let root = policy_of("/", &[("cache-control", "max-age=10")]);
    assert!(!is_fresh(&root, &folded("/", false), 4));
    assert!(is_fresh(&root, &folded("/b", true), 4));
}

#[test]
fn targets_with_an_authority() {
    let policy = policy_of("https://example.com/a", &[("cache-control", "max-age=10")]);
    assert!(is_fresh(&policy, &get("https://EXAMPLE.com/a"), 4));
    assert!(!is_fresh(&policy, &get("http://example.com/a"), 4));
    assert!(!is_fresh(&policy, &get("/a"), 4));
}

#[test]
fn stored_forms_are_read_back() {
    let policy = policy_of(
        "https://example.com/a?b",
        &[("cache-control", "max-age=10, stale-if-error=30")],
    );
    let read = CachePolicy::from_bytes(policy.to_bytes()).unwrap();
    assert_eq!(read.to_bytes(), policy.to_bytes());
    assert!(is_fresh(&read, &get("https://example.com/a?b"), 4));
    assert!(!is_fresh(&read, &get("https://example.com/a"), 4));
    let stale = read
        .stale_use(&get("https://example.com/a?b"), at(15))
        .unwrap();
    assert!(stale.if_error && !stale.while_revalidate);
    assert_eq!(
        CachePolicy::from_bytes(b"{}").unwrap_err(),
        Error::Malformed
    );
    assert_eq!(CachePolicy::from_bytes(b"").unwrap_err(), Error::Malformed);
}

#[test]
fn a_private_cache_stores_what_is_private() {
    let private = response(&[("cache-control", "private, max-age=10")]);
    let options = |shared| CacheOptions {
        shared,
        ..CacheOptions::default()
    };
    let of = |shared| CachePolicy::new_options(&get("/a"), &private, at(0), options(shared));
    assert!(!of(true).is_storable());
    assert!(of(false).is_storable());
    assert_eq!(of(true).storability().reasons, ["private"]);
    assert_eq!(of(false).storability().reasons, ["max-age"]);
}

#[test]
fn a_tenth_of_the_time_since_last_modified() {
    let fields = [
        ("date", "Mon, 01 Jan 2024 00:00:00 GMT"),
        ("last-modified", "Sun, 31 Dec 2023 23:58:20 GMT"),
    ];
    assert_eq!(
        policy_of("/a", &fields).time_to_live(at(0)),
        Duration::from_secs(10)
    );
}

#[test]
fn a_request_that_a_cache_looks_up() {
    let policy = policy_of("/a", &[("cache-control", "s-maxage=10")]);
    let accepting = Request::get("/a")
        .header("cache-control", "max-stale")
        .body(())
        .unwrap();
    assert!(policy.fresh_at(&accepting, at(15)).unwrap());
    assert!(!policy.may_be_used(&accepting, at(15)).unwrap());
    assert!(policy.may_be_used(&accepting, at(9)).unwrap());
    let head = Request::head("/a").body(()).unwrap();
    assert!(!policy.fresh_at(&head, at(9)).unwrap());
    assert!(policy.may_be_used(&head, at(9)).unwrap());
}

#[test]
fn conditions_and_confirmations() {
    let policy = policy_of("/a", &[("cache-control", "max-age=10"), ("etag", "\"1\"")]);
    let asked = |tag| {
        Request::get("/a")
            .header("if-none-match", tag)
            .body(())
            .unwrap()
    };
    assert!(policy.is_not_modified_for(&asked("\"1\"")).unwrap());
    assert!(!policy.is_not_modified_for(&asked("\"2\"")).unwrap());
    let confirming = |tag| {
        Response::builder()
            .status(304)
            .header("etag", tag)
            .body(())
            .unwrap()
    };
    assert!(policy.is_confirmed_by(&confirming("\"1\"")).unwrap());
    assert!(!policy.is_confirmed_by(&confirming("\"2\"")).unwrap());
    assert_eq!(
        policy.explain(&get("/a"), at(3), "ExampleCache").unwrap(),
        "ExampleCache; hit; ttl=7"
    );
}

#[test]
fn every_line_is_sent() {
    let policy = policy_of(
        "/a",
        &[("x-a", "1"), ("x-a", "2"), ("cache-control", "max-age=10")],
    );
    let parts = policy.response_at(at(3)).unwrap();
    let lines: Vec<_> = parts.headers.get_all("x-a").iter().collect();
    assert_eq!(lines, ["1", "2"]);
    assert_eq!(parts.headers["age"], "3");
    let one = joined(&response(&[("x-a", "1"), ("x-a", "2")])).unwrap();
    assert_eq!(one.headers["x-a"], "1, 2");
    let next = updated(
        &response(&[("x-a", "1"), ("x-b", "1")]),
        &response(&[("x-a", "2")]),
    )
    .unwrap();
    assert_eq!(
        (&next.headers["x-a"], &next.headers["x-b"]),
        (&"2".parse().unwrap(), &"1".parse().unwrap())
    );
}

#[test]
fn times_around_1970() {
    let early = SystemTime::UNIX_EPOCH - Duration::new(1, 250_000_000);
    let fields = response(&[("cache-control", "max-age=10")]);
    let policy = CachePolicy::new_options(&get("/a"), &fields, early, CacheOptions::default());
    assert_eq!(
        policy.age(SystemTime::UNIX_EPOCH),
        Duration::new(1, 250_000_000)
    );
    let ancient = SystemTime::UNIX_EPOCH - Duration::from_secs(80 * 366 * 86_400);
    assert_eq!(
        policy.try_before_request(&get("/a"), ancient).unwrap_err(),
        Error::DateNotPrintable
    );
}

#[test]
fn policies_are_shared_by_threads() {
    let policy = policy_of("/a", &[("cache-control", "max-age=10")]);
    std::thread::scope(|scope| {
        for seconds in [4, 6, 8, 12] {
            let policy = &policy;
            scope.spawn(move || {
                for _ in 0..500 {
                    assert_eq!(is_fresh(policy, &get("/a"), seconds), seconds < 10);
                }
            });
        }
    });
}
