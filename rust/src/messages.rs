//! The traits by which a policy reads requests and responses.
use http::{request, response, HeaderMap, Method, Request, Response, StatusCode, Uri};

/// A request that a policy can read.
///
/// Each function returns the same value at every call.
pub trait RequestLike {
    /// Returns a copy of the target URI.
    fn uri(&self) -> Uri;
    /// Returns whether the target URI is `other`, as this cache compares URIs.
    fn is_same_uri(&self, other: &Uri) -> bool;
    /// Returns the method.
    fn method(&self) -> &Method;
    /// Returns the header fields.
    fn headers(&self) -> &HeaderMap;
}

/// A response that a policy can read.
///
/// Each function returns the same value at every call.
pub trait ResponseLike {
    /// Returns the status code.
    fn status(&self) -> StatusCode;
    /// Returns the header fields.
    fn headers(&self) -> &HeaderMap;
}

impl<Body> RequestLike for Request<Body> {
    fn uri(&self) -> Uri {
        Request::uri(self).clone()
    }

    fn is_same_uri(&self, other: &Uri) -> bool {
        Request::uri(self) == other
    }

    fn method(&self) -> &Method {
        Request::method(self)
    }

    fn headers(&self) -> &HeaderMap {
        Request::headers(self)
    }
}

impl RequestLike for request::Parts {
    fn uri(&self) -> Uri {
        self.uri.clone()
    }

    fn is_same_uri(&self, other: &Uri) -> bool {
        self.uri == *other
    }

    fn method(&self) -> &Method {
        &self.method
    }

    fn headers(&self) -> &HeaderMap {
        &self.headers
    }
}

impl<Body> ResponseLike for Response<Body> {
    fn status(&self) -> StatusCode {
        Response::status(self)
    }

    fn headers(&self) -> &HeaderMap {
        Response::headers(self)
    }
}

impl ResponseLike for response::Parts {
    fn status(&self) -> StatusCode {
        self.status
    }

    fn headers(&self) -> &HeaderMap {
        &self.headers
    }
}
