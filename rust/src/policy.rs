//! Policies: what a cache decides for one stored response.
use crate::calls::{self, Time};
use crate::error::Error;
use crate::heads;
use crate::messages::{RequestLike, ResponseLike};
use crate::options::CacheOptions;
use http::{request, response, Uri};
use std::time::{Duration, SystemTime};

const FRESH: i32 = 0;
const VALIDATE: i32 = 1;
const NOT_MODIFIED: i32 = 0;

// The words for the values of `enum hcs_permission` from 1, for the bits of `enum hcs_obstacle`, and for the
// values of `enum hcs_source`.
const PERMISSIONS: [&str; 5] = ["Expires", "max-age", "s-maxage", "public", "status"];
const OBSTACLES: [&str; 7] = [
    "no-store of the request",
    "method",
    "status",
    "no-store",
    "private",
    "Authorization",
    "nothing allows it",
];
const SOURCES: [&str; 13] = [
    "not storable",
    "no-cache",
    "Set-Cookie in a shared cache",
    "Vary: *",
    "proxy-revalidate",
    "s-maxage",
    "max-age",
    "Expires is no date",
    "Expires isn't after Date",
    "Expires",
    "Last-Modified",
    "immutable",
    "nothing says how long",
];

/// Decides for one stored response: whether it may be stored, how long it stays fresh, and which requests it
/// answers (RFC 7234, sections 3 to 5).
///
/// Keep its stored form, `to_bytes`, beside the stored body.
///
/// # Panics
///
/// A call without a `Result` panics if its `try_` call would return an error. The errors are: out of memory, a
/// Date before 1900, a time out of the years -9999 to 9999, a message that HTTP/1.1 can't send, and too many
/// fields.
#[derive(Clone, Debug)]
pub struct CachePolicy {
    form: Vec<u8>,
    uri: Uri,
    options: CacheOptions,
}

/// What to do with a request.
#[derive(Debug)]
pub enum BeforeRequest {
    /// Send the stored body under these fields.
    Fresh(response::Parts),
    /// Send a request to the origin server.
    Stale {
        /// The request to send. If `matches` is true, it validates the stored response.
        request: request::Parts,
        /// Whether the stored response is one for the request: then pass the received response to `after_response`.
        matches: bool,
    },
}

impl BeforeRequest {
    /// Returns whether the stored response may be sent without validation.
    pub fn satisfies_without_revalidation(&self) -> bool {
        matches!(self, BeforeRequest::Fresh(_))
    }
}

/// What to store after the response to a validating request, with the next policy and the fields for the client.
#[derive(Debug)]
pub enum AfterResponse {
    /// The stored body is kept under the new policy.
    NotModified(CachePolicy, response::Parts),
    /// The received body replaces the stored one. Store it if the new policy is storable.
    Modified(CachePolicy, response::Parts),
}

/// Whether a response may be stored, and what decides that.
#[derive(Clone, Debug, PartialEq, Eq)]
pub struct Storability {
    /// Whether it may be stored.
    pub storable: bool,
    /// What allows it, or all that forbids it, such as `max-age` or `no-store of the request`.
    pub reasons: Vec<&'static str>,
}

/// A freshness lifetime, and what decides it.
#[derive(Clone, Debug, PartialEq, Eq)]
pub struct Freshness {
    /// The lifetime.
    pub lifetime: Duration,
    /// What decides the lifetime, such as `max-age` or `Last-Modified`.
    pub source: &'static str,
}

/// Which uses of a stale response are allowed (RFC 5861).
#[derive(Clone, Copy, Debug, PartialEq, Eq)]
pub struct StaleUse {
    /// Whether it may be used while it is validated.
    pub while_revalidate: bool,
    /// Whether it may be used after an error of the origin server.
    pub if_error: bool,
}

fn expected<T>(result: Result<T, Error>) -> T {
    result.unwrap_or_else(|error| panic!("http-cache-semantics: {error}"))
}

fn text_of(bytes: Vec<u8>) -> String {
    String::from_utf8_lossy(&bytes).into_owned()
}

pub(crate) fn head_of_response<Res: ResponseLike>(response: &Res) -> Vec<u8> {
    heads::of_response(response.status(), response.headers())
}

impl CachePolicy {
    /// Returns the policy of a response that is received now, with the default options.
    pub fn new<Req: RequestLike, Res: ResponseLike>(req: &Req, res: &Res) -> CachePolicy {
        CachePolicy::new_options(req, res, SystemTime::now(), CacheOptions::default())
    }

    /// Returns the policy of a response that was received at `response_time`.
    pub fn new_options<Req: RequestLike, Res: ResponseLike>(
        req: &Req,
        res: &Res,
        response_time: SystemTime,
        opts: CacheOptions,
    ) -> CachePolicy {
        expected(CachePolicy::try_new_options(req, res, response_time, opts))
    }

    /// Returns the policy of a response that was received at `response_time`.
    ///
    /// # Errors
    ///
    /// Returns `Malformed` if the target can't be sent, `HeaderMapFull` if there are too many fields, and
    /// `BadArgument` if the time is out of range.
    pub fn try_new_options<Req: RequestLike, Res: ResponseLike>(
        req: &Req,
        res: &Res,
        response_time: SystemTime,
        opts: CacheOptions,
    ) -> Result<CachePolicy, Error> {
        let uri = req.uri();
        let request = heads::of_request(req.method(), &uri.to_string(), req.headers());
        let received = Time::of(response_time)?;
        let form = calls::new(&opts.cache(), &request, &head_of_response(res), received)?;
        Ok(CachePolicy {
            form,
            uri,
            options: opts,
        })
    }

    /// Returns the policy of a stored form. The form has the policy's own options.
    ///
    /// # Errors
    ///
    /// Returns `Malformed` if the bytes are no stored form: then forget the response.
    pub fn from_bytes(form: &[u8]) -> Result<CachePolicy, Error> {
        let options = CacheOptions::default();
        // No stored response answers this method, so that the result names the stored target.
        let epoch = Time::of(SystemTime::UNIX_EPOCH)?;
        let (_, head) = calls::before(&options.cache(), form, b"NONE / HTTP/1.1\r\n\r\n", epoch)?;
        let uri = heads::request_parts(&head)?.uri;
        Ok(CachePolicy {
            form: form.to_vec(),
            uri,
            options,
        })
    }

    /// Returns the stored form.
    pub fn to_bytes(&self) -> &[u8] {
        &self.form
    }

    /// Returns the head of a request. Its target is the stored one if `is_same_uri` says so, else another target.
    pub(crate) fn head_for<Req: RequestLike>(&self, req: &Req) -> Vec<u8> {
        let stored = self.uri.to_string();
        let target = match (req.is_same_uri(&self.uri), stored.as_str()) {
            (true, same) => same,
            (false, "/") => "/other",
            (false, _) => "/",
        };
        heads::of_request(req.method(), target, req.headers())
    }

    /// Returns whether the response may be stored (RFC 7234, section 3).
    pub fn is_storable(&self) -> bool {
        self.storability().storable
    }

    /// Returns whether the response may be stored, and what allows it, or all that forbids it.
    pub fn storability(&self) -> Storability {
        let (permission, obstacles) = expected(calls::storability(&self.form));
        let allowing = usize::try_from(permission - 1)
            .ok()
            .and_then(|at| PERMISSIONS.get(at));
        let forbidding = OBSTACLES
            .iter()
            .enumerate()
            .filter(|(bit, _)| obstacles >> bit & 1 == 1);
        Storability {
            storable: permission > 0,
            reasons: allowing
                .into_iter()
                .chain(forbidding.map(|(_, words)| words))
                .copied()
                .collect(),
        }
    }

    /// Returns the freshness lifetime, and what decides it (RFC 7234, section 4.2.1).
    pub fn freshness(&self) -> Freshness {
        let (lifetime, source) = expected(calls::freshness(&self.form));
        let source = usize::try_from(source)
            .ok()
            .and_then(|at| SOURCES.get(at).copied());
        Freshness {
            lifetime,
            source: expected(source.ok_or(Error::Malformed)),
        }
    }

    /// Returns the current age at `now` (RFC 7234, section 4.2.3).
    pub fn age(&self, now: SystemTime) -> Duration {
        expected(Time::of(now).and_then(|now| calls::age(&self.form, now)))
    }

    /// Returns for how long the response stays fresh after `now`, or zero if it is stale.
    pub fn time_to_live(&self, now: SystemTime) -> Duration {
        expected(Time::of(now).and_then(|now| calls::time_to_live(&self.form, now)))
    }

    /// Returns whether the response is stale at `now`.
    pub fn is_stale(&self, now: SystemTime) -> bool {
        self.time_to_live(now) == Duration::ZERO
    }

    /// Returns what to do with a request at `now` (RFC 7234, section 4).
    pub fn before_request<Req: RequestLike>(&self, req: &Req, now: SystemTime) -> BeforeRequest {
        expected(self.try_before_request(req, now))
    }

    /// Returns what to do with a request at `now` (RFC 7234, section 4).
    ///
    /// # Errors
    ///
    /// Returns `DateNotPrintable` if `now` is before 1900, and the errors of `try_new_options`.
    pub fn try_before_request<Req: RequestLike>(
        &self,
        req: &Req,
        now: SystemTime,
    ) -> Result<BeforeRequest, Error> {
        let head = self.head_for(req);
        let (code, head) = calls::before(&self.options.cache(), &self.form, &head, Time::of(now)?)?;
        self.decision(code, &head)
    }

    pub(crate) fn decision(&self, code: i32, head: &[u8]) -> Result<BeforeRequest, Error> {
        if code == FRESH {
            return Ok(BeforeRequest::Fresh(heads::response_parts(head)?));
        }
        let mut request = heads::request_parts(head)?;
        request.uri = self.uri.clone();
        Ok(BeforeRequest::Stale {
            request,
            matches: code == VALIDATE,
        })
    }

    /// Returns what to store and send after the response to a validating request (RFC 7234, section 4.3.3).
    pub fn after_response<Req: RequestLike, Res: ResponseLike>(
        &self,
        request: &Req,
        response: &Res,
        response_time: SystemTime,
    ) -> AfterResponse {
        expected(self.try_after_response(request, response, response_time))
    }

    /// Returns what to store and send after the response to a validating request (RFC 7234, section 4.3.3).
    ///
    /// # Errors
    ///
    /// Returns the errors of `try_before_request`.
    pub fn try_after_response<Req: RequestLike, Res: ResponseLike>(
        &self,
        request: &Req,
        response: &Res,
        response_time: SystemTime,
    ) -> Result<AfterResponse, Error> {
        let uri = request.uri();
        let asked = heads::of_request(request.method(), &uri.to_string(), request.headers());
        let received = head_of_response(response);
        let now = Time::of(response_time)?;
        let (code, form, head) =
            calls::after(&self.options.cache(), &self.form, &asked, &received, now)?;
        let (policy, parts) = (
            CachePolicy {
                form,
                uri,
                options: self.options,
            },
            heads::response_parts(&head)?,
        );
        Ok(if code == NOT_MODIFIED {
            AfterResponse::NotModified(policy, parts)
        } else {
            AfterResponse::Modified(policy, parts)
        })
    }

    /// Returns whether `before_request` would return `Fresh` at `now`.
    pub fn fresh_at<Req: RequestLike>(&self, req: &Req, now: SystemTime) -> Result<bool, Error> {
        calls::fresh_at(
            &self.options.cache(),
            &self.form,
            &self.head_for(req),
            Time::of(now)?,
        )
    }

    /// Returns why the stored response answers a request at `now` or doesn't, as a member of Cache-Status
    /// (RFC 9211). `name` is the name of the cache. A member is such as `ExampleCache; hit; ttl=7`.
    pub fn explain<Req: RequestLike>(
        &self,
        req: &Req,
        now: SystemTime,
        name: &str,
    ) -> Result<String, Error> {
        let head = self.head_for(req);
        Ok(text_of(calls::explain(
            &self.options.cache(),
            &self.form,
            &head,
            Time::of(now)?,
            name,
        )?))
    }

    /// Returns whether the stored response may be used for a request at `now` without validation, as a cache looks it
    /// up (RFC 9111, sections 4 and 4.2.4).
    ///
    /// All lines of a field count, a HEAD is answered by what is stored for GET, and a stale response isn't used if it
    /// forbids that, whatever `max-stale` says.
    pub fn may_be_used<Req: RequestLike>(&self, req: &Req, now: SystemTime) -> Result<bool, Error> {
        calls::may_be_used(
            &self.options.cache(),
            &self.form,
            &self.head_for(req),
            Time::of(now)?,
        )
    }

    /// Returns which uses of the stale response are allowed for a request at `now` (RFC 5861, sections 3 and 4).
    pub fn stale_use<Req: RequestLike>(
        &self,
        req: &Req,
        now: SystemTime,
    ) -> Result<StaleUse, Error> {
        let bits = calls::stale_use(
            &self.options.cache(),
            &self.form,
            &self.head_for(req),
            Time::of(now)?,
        )?;
        Ok(StaleUse {
            while_revalidate: bits & 1 != 0,
            if_error: bits & 2 != 0,
        })
    }

    /// Returns the head under which the stored body may be sent at `now`, fresh or stale. It has every field line
    /// that may be forwarded, and Age (RFC 9111, section 5.1).
    pub fn response_at(&self, now: SystemTime) -> Result<response::Parts, Error> {
        heads::response_parts(&calls::response_at(&self.form, Time::of(now)?)?)
    }

    /// Returns whether a 304 answers the preconditions of the request (RFC 9110, section 13.2.2).
    pub fn is_not_modified_for<Req: RequestLike>(&self, req: &Req) -> Result<bool, Error> {
        calls::is_not_modified_for(&self.options.cache(), &self.form, &self.head_for(req))
    }

    /// Returns whether a received 304 selects the stored response (RFC 7234, section 4.3.4).
    pub fn is_confirmed_by<Res: ResponseLike>(&self, res: &Res) -> Result<bool, Error> {
        calls::is_confirmed_by(&self.options.cache(), &self.form, &head_of_response(res))
    }
}
