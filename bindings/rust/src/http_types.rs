//! Messages as the types of the crate `http`, with the feature `http`.

use crate::endpoint::Endpoint;
use crate::error::Error;
use crate::fields::{Field, Fields};
use crate::item::Head;
use http::header::{COOKIE, HOST};
use http::uri::{Authority, PathAndQuery, Scheme};
use http::{HeaderMap, HeaderName, HeaderValue, Method, Request, Response, StatusCode, Uri, Version};

/// The `:protocol` of an extended CONNECT request (RFC 9220, section 3), among the extensions of an `http::Request`: a token of at most 31
/// bytes, as `websocket`.
#[derive(Debug, Clone, PartialEq, Eq)]
pub struct Protocol(pub String);

/// A list of fields, whose bytes are those of a message.
type List<'a> = Vec<Field<'a>>;

/// A pseudo-header field.
fn pseudo<'a>(name: &'a str, value: &'a str) -> Field<'a> {
    Field { name: name.as_bytes(), value: value.as_bytes(), never_indexed: false }
}

/// A sensitive value is one that is never indexed.
fn push_all<'a>(list: &mut List<'a>, fields: &'a HeaderMap) {
    list.extend(fields.iter().map(|(name, value)| Field {
        name: name.as_ref(),
        value: value.as_bytes(),
        never_indexed: value.is_sensitive(),
    }));
}

/// The pseudo-header fields of a request (RFC 9114, section 4.3.1), and its fields.
fn list_of_request<B>(request: &Request<B>) -> List<'_> {
    let (method, uri) = (request.method(), request.uri());
    let protocol = request.extensions().get::<Protocol>();
    let mut list: List = vec![pseudo(":method", method.as_str())];
    if let Some(Protocol(name)) = protocol {
        list.push(pseudo(":protocol", name));
    }
    // CONNECT alone has neither a scheme nor a path (section 4.4)
    if method != Method::CONNECT || protocol.is_some() {
        list.push(pseudo(":scheme", uri.scheme_str().unwrap_or("https")));
        list.push(pseudo(":path", uri.path_and_query().map_or("/", |it| it.as_str())));
    }
    if let Some(authority) = uri.authority() {
        list.push(pseudo(":authority", authority.as_str()));
    }
    push_all(&mut list, request.headers());
    list
}

impl Endpoint {
    /// Sends the header section of a request: its method, URI and fields, and the [`Protocol`] among its extensions. A URI without a scheme has
    /// `https`. The body is not sent, so any type may stand there. A value that is marked as sensitive is sent never indexed.
    ///
    /// ```
    /// # use beanwhile_h3::{Config, Endpoint};
    /// # fn main() -> Result<(), Box<dyn std::error::Error>> {
    /// let mut client = Endpoint::new(&Config::client())?;
    /// let id = client.open_request()?;
    /// client.send_request(id, &http::Request::get("https://localhost/a").header("accept", "*/*").body(())?)?;
    /// client.finish(id)?;
    /// # Ok(())
    /// # }
    /// ```
    ///
    /// # Errors
    ///
    /// Those of [`send_head`](Endpoint::send_head). A strict endpoint refuses connection-specific fields, as `connection`
    /// ([`Malformation::ConnectionField`](crate::Malformation::ConnectionField)): none is left out.
    pub fn send_request<B>(&mut self, id: u64, request: &Request<B>) -> Result<(), Error> {
        self.send_head(id, &list_of_request(request))
    }

    /// Sends the header section of a response: its status and fields. One with a status from 100 to 199 is an interim response.
    ///
    /// # Errors
    ///
    /// Those of [`send_request`](Endpoint::send_request).
    pub fn send_response<B>(&mut self, id: u64, response: &Response<B>) -> Result<(), Error> {
        let status = response.status();
        let mut list: List = vec![pseudo(":status", status.as_str())];
        push_all(&mut list, response.headers());
        self.send_head(id, &list)
    }

    /// Sends a trailer section.
    ///
    /// # Errors
    ///
    /// Those of [`send_trailer`](Endpoint::send_trailer).
    pub fn send_trailer_map(&mut self, id: u64, trailer: &HeaderMap) -> Result<(), Error> {
        let mut list = List::new();
        push_all(&mut list, trailer);
        self.send_trailer(id, &list)
    }
}

/// Several `cookie` fields as one (RFC 9114, section 4.2.1).
fn join_cookies(map: &mut HeaderMap) -> Result<(), http::Error> {
    let cookies: Vec<&[u8]> = map.get_all(COOKIE).iter().map(HeaderValue::as_bytes).collect();
    if cookies.len() > 1 {
        let mut joined = HeaderValue::from_bytes(&cookies.join(&b"; "[..]))?;
        joined.set_sensitive(map.get_all(COOKIE).iter().any(HeaderValue::is_sensitive));
        map.insert(COOKIE, joined);
    }
    Ok(())
}

/// The fields but for pseudo-header fields, in the order of their names' first lines. Several `cookie` fields are one. A value that came
/// never indexed is sensitive, and so are cookies of which one is.
///
/// # Errors
///
/// A name or value that `http` does not take, which a strict endpoint does not return; more names than a `HeaderMap` holds.
impl TryFrom<&Fields> for HeaderMap {
    type Error = http::Error;

    fn try_from(fields: &Fields) -> Result<HeaderMap, http::Error> {
        let mut map = HeaderMap::new();
        for field in fields.iter().filter(|field| !field.name.starts_with(b":")) {
            let mut value = HeaderValue::from_bytes(field.value)?;
            value.set_sensitive(field.never_indexed);
            map.try_append(HeaderName::from_bytes(field.name)?, value)?;
        }
        join_cookies(&mut map)?;
        Ok(map)
    }
}

/// The URI of a request. That of CONNECT has an authority alone; without `:authority` the one of `host` counts.
fn uri_of(fields: &Fields) -> Result<Uri, http::Error> {
    let mut parts = http::uri::Parts::default();
    if let Some(authority) = fields.get(":authority").or_else(|| fields.get(HOST)) {
        parts.authority = Some(Authority::try_from(authority)?);
    }
    if let Some(path) = fields.get(":path") {
        parts.path_and_query = Some(PathAndQuery::try_from(path)?);
        if let (Some(scheme), true) = (fields.get(":scheme"), parts.authority.is_some()) {
            parts.scheme = Some(Scheme::try_from(scheme)?);
        } else {
            parts.authority = None;
        }
    }
    Ok(Uri::from_parts(parts)?)
}

/// A request's header section, with the [`Protocol`] of an extended CONNECT among its extensions.
///
/// ```
/// # use beanwhile_h3::{Endpoint, Item, Next};
/// # fn answer(server: &mut Endpoint, id: u64) -> Result<(), Box<dyn std::error::Error>> {
/// if let Next::Item(Item::Head(head)) = server.next_item(id)? {
///     let request = http::Request::try_from(&head)?;
///     let status = if request.uri().path() == "/" { 200 } else { 404 };
///     server.send_response(id, &http::Response::builder().status(status).body(())?)?;
/// }
/// # Ok(())
/// # }
/// ```
///
/// # Errors
///
/// The header section of a response, or of a request that `http` does not take. A strict endpoint returns requests that have a method and,
/// but for CONNECT, a scheme and a path.
impl TryFrom<&Head> for Request<()> {
    type Error = http::Error;

    fn try_from(head: &Head) -> Result<Request<()>, http::Error> {
        let method = Method::from_bytes(head.fields.get(":method").unwrap_or_default())?;
        let mut request = Request::builder().method(method).uri(uri_of(&head.fields)?).version(Version::HTTP_3).body(())?;
        *request.headers_mut() = HeaderMap::try_from(&head.fields)?;
        if let Some(name) = head.fields.get(":protocol") {
            request.extensions_mut().insert(Protocol(String::from_utf8_lossy(name).into_owned()));
        }
        Ok(request)
    }
}

/// A response's header section.
///
/// # Errors
///
/// The header section of a request, or of a response that `http` does not take.
impl TryFrom<&Head> for Response<()> {
    type Error = http::Error;

    fn try_from(head: &Head) -> Result<Response<()>, http::Error> {
        let status = StatusCode::from_u16(head.status.unwrap_or_default())?;
        let mut response = Response::builder().status(status).version(Version::HTTP_3).body(())?;
        *response.headers_mut() = HeaderMap::try_from(&head.fields)?;
        Ok(response)
    }
}
