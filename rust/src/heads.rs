//! Writes heads of HTTP/1.1 messages for the library, and reads the heads that it writes (RFC 9112, sections 2 to 5).
use crate::error::Error;
use http::header::{HeaderMap, HeaderName, HeaderValue};
use http::{request, response, Method, Request, Response, StatusCode, Uri};

fn push_fields(head: &mut Vec<u8>, headers: &HeaderMap) {
    for (name, value) in headers {
        head.extend_from_slice(name.as_str().as_bytes());
        head.extend_from_slice(b": ");
        head.extend_from_slice(value.as_bytes());
        head.extend_from_slice(b"\r\n");
    }
    head.extend_from_slice(b"\r\n");
}

pub(crate) fn of_request(method: &Method, target: &str, headers: &HeaderMap) -> Vec<u8> {
    let mut head = format!("{method} {target} HTTP/1.1\r\n").into_bytes();
    push_fields(&mut head, headers);
    head
}

pub(crate) fn of_response(status: StatusCode, headers: &HeaderMap) -> Vec<u8> {
    let mut head = format!("HTTP/1.1 {}\r\n", status.as_u16()).into_bytes();
    push_fields(&mut head, headers);
    head
}

/// Returns the bytes before the first separator, and the bytes after it.
fn split<'a>(bytes: &'a [u8], separator: &[u8]) -> Result<(&'a [u8], &'a [u8]), Error> {
    let at = bytes
        .windows(separator.len())
        .position(|window| window == separator)
        .ok_or(Error::Malformed)?;
    Ok((&bytes[..at], &bytes[at + separator.len()..]))
}

fn fields_of(mut lines: &[u8]) -> Result<HeaderMap, Error> {
    let mut headers = HeaderMap::new();
    loop {
        let (line, rest) = split(lines, b"\r\n")?;
        if line.is_empty() {
            return Ok(headers);
        }
        let (name, value) = split(line, b": ")?;
        let name = HeaderName::from_bytes(name).map_err(|_| Error::Malformed)?;
        let value = HeaderValue::from_bytes(value).map_err(|_| Error::Malformed)?;
        headers.append(name, value);
        lines = rest;
    }
}

/// Returns the status and the fields of a response whose head the library wrote.
pub(crate) fn response_parts(head: &[u8]) -> Result<response::Parts, Error> {
    let (line, fields) = split(head, b"\r\n")?;
    let (_, status) = split(line, b" ")?;
    let mut parts = Response::new(()).into_parts().0;
    let status = status.get(..3).ok_or(Error::Malformed)?;
    parts.status = StatusCode::from_bytes(status).map_err(|_| Error::Malformed)?;
    parts.headers = fields_of(fields)?;
    Ok(parts)
}

/// Returns the method, the target and the fields of a request whose head the library wrote.
pub(crate) fn request_parts(head: &[u8]) -> Result<request::Parts, Error> {
    let (line, fields) = split(head, b"\r\n")?;
    let (method, rest) = split(line, b" ")?;
    let (target, _) = split(rest, b" ")?;
    let mut parts = Request::new(()).into_parts().0;
    parts.method = Method::from_bytes(method).map_err(|_| Error::Malformed)?;
    parts.uri = Uri::try_from(target).map_err(|_| Error::Malformed)?;
    parts.headers = fields_of(fields)?;
    Ok(parts)
}
