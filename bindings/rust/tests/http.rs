//! Messages as the types of the crate `http`: what was sent is what comes, and pseudo-header fields are those of RFC 9114, section 4.3.
#![cfg(feature = "http")]

use beanwhile_h3::{Config, Endpoint, Error, Head, Item, Malformation, Next, Protocol};
use http::{HeaderMap, HeaderValue, Method, Request, Response, StatusCode, Version};

fn carry(from: &mut Endpoint, to: &mut Endpoint) {
    let (mut next, mut buffer) = (0, [0; 4096]);
    while let Some(id) = from.next_to_send(next) {
        let (count, is_last) = from.outgoing(id, &mut buffer).unwrap();
        to.deliver(id, &buffer[..count]).unwrap();
        from.advance(id, count).unwrap();
        if is_last {
            to.deliver_end(id).unwrap();
            from.end_taken(id);
        }
        next = id + 1;
    }
}

fn pair() -> (Endpoint, Endpoint) {
    let mut config = Config::server();
    config.extended_connect = true;
    let (mut client, mut server) = (Endpoint::new(&Config::client()).unwrap(), Endpoint::new(&config).unwrap());
    carry(&mut client, &mut server);
    carry(&mut server, &mut client);
    (client, server)
}

fn head(endpoint: &mut Endpoint, id: u64) -> Head {
    match endpoint.next_item(id) {
        Ok(Next::Item(Item::Head(head) | Item::Interim(head))) => head,
        other => panic!("{other:?}"),
    }
}

/// A request as the server has it: its fields in order, and as a `Request`.
fn sent<B>(request: &Request<B>) -> (Vec<(String, String)>, Request<()>) {
    let (mut client, mut server) = pair();
    let id = client.open_request().unwrap();
    client.send_request(id, request).unwrap();
    carry(&mut client, &mut server);
    let head = head(&mut server, id);
    let text = |bytes: &[u8]| String::from_utf8(bytes.to_vec()).unwrap();
    let fields = head.fields.iter().map(|field| (text(field.name), text(field.value))).collect();
    (fields, Request::try_from(&head).unwrap())
}

fn owned(fields: &[(&str, &str)]) -> Vec<(String, String)> {
    fields.iter().map(|(name, value)| (name.to_string(), value.to_string())).collect()
}

#[test]
fn a_request_has_its_pseudo_header_fields() {
    let request = Request::post("https://localhost:4433/a/b?c=d").header("x-a", "1").header("x-a", "2").body("never sent").unwrap();
    let (fields, got) = sent(&request);
    let wanted =
        [(":method", "POST"), (":scheme", "https"), (":path", "/a/b?c=d"), (":authority", "localhost:4433"), ("x-a", "1"), ("x-a", "2")];
    assert_eq!(fields, owned(&wanted));
    assert_eq!((got.method(), got.uri(), got.version()), (&Method::POST, request.uri(), Version::HTTP_3));
    assert_eq!(got.headers(), request.headers());
    assert!(got.extensions().get::<Protocol>().is_none());
}

#[test]
fn a_request_without_a_scheme_is_of_https_and_of_its_host() {
    let (fields, got) = sent(&Request::get("/a").header("host", "localhost").body(()).unwrap());
    assert_eq!(fields, owned(&[(":method", "GET"), (":scheme", "https"), (":path", "/a"), ("host", "localhost")]));
    assert_eq!(got.uri(), "https://localhost/a");
    let asterisk = Request::builder().method("OPTIONS").uri("*").header("host", "localhost").body(()).unwrap();
    let (fields, got) = sent(&asterisk);
    assert_eq!(fields[2], (":path".to_string(), "*".to_string()));
    assert_eq!((got.method(), got.uri().path()), (&Method::OPTIONS, "*"));
}

#[test]
fn connect_has_an_authority_alone_and_extended_connect_has_all() {
    let (fields, got) = sent(&Request::connect("localhost:443").body(()).unwrap());
    assert_eq!(fields, owned(&[(":method", "CONNECT"), (":authority", "localhost:443")]));
    assert_eq!(got.uri(), "localhost:443");
    let protocol = Protocol("connect-udp".to_string());
    let (fields, got) = sent(&Request::connect("https://localhost/masque").extension(protocol.clone()).body(()).unwrap());
    let wanted =
        [(":method", "CONNECT"), (":protocol", "connect-udp"), (":scheme", "https"), (":path", "/masque"), (":authority", "localhost")];
    assert_eq!(fields, owned(&wanted));
    assert_eq!((got.uri().to_string().as_str(), got.extensions().get()), ("https://localhost/masque", Some(&protocol)));
}

#[test]
fn several_cookies_are_one() {
    let request = Request::get("https://localhost/").header("cookie", "a=b").header("cookie", "c=d").body(()).unwrap();
    let (fields, got) = sent(&request);
    assert_eq!(fields[4..], owned(&[("cookie", "a=b"), ("cookie", "c=d")]));
    assert_eq!(got.headers().get_all("cookie").iter().collect::<Vec<_>>(), ["a=b; c=d"]);
}

#[test]
fn a_sensitive_value_is_never_indexed() {
    let mut secret = HeaderValue::from_static("Basic YTpi");
    secret.set_sensitive(true);
    let (mut client, mut server) = pair();
    let id = client.open_request().unwrap();
    let request = Request::get("https://localhost/").header("x-token", secret).header("x-a", "1").header("cookie", "a=b").body(()).unwrap();
    client.send_request(id, &request).unwrap();
    carry(&mut client, &mut server);
    let head = head(&mut server, id);
    let flags: Vec<bool> = head.fields.iter().map(|field| field.never_indexed).collect();
    // the last one by `guard_secrets`
    assert_eq!(flags, [false, false, false, false, true, false, true]);
    let got = Request::try_from(&head).unwrap();
    assert!(got.headers()["x-token"].is_sensitive() && !got.headers()["x-a"].is_sensitive());
}

#[test]
fn responses_and_trailers_go_back() {
    let (mut client, mut server) = pair();
    let id = client.open_request().unwrap();
    client.send_request(id, &Request::get("https://localhost/").body(()).unwrap()).unwrap();
    client.finish(id).unwrap();
    carry(&mut client, &mut server);
    head(&mut server, id);
    let response = Response::builder().status(404).header("x-bytes", HeaderValue::from_bytes(b"\xff").unwrap()).body(()).unwrap();
    let trailer: HeaderMap = [("x-count".parse().unwrap(), "1".parse().unwrap())].into_iter().collect();
    server.send_response(id, &Response::builder().status(103).body(()).unwrap()).unwrap();
    server.send_response(id, &response).unwrap();
    server.send_trailer_map(id, &trailer).unwrap();
    server.finish(id).unwrap();
    carry(&mut server, &mut client);
    assert_eq!(Response::try_from(&head(&mut client, id)).unwrap().status(), 103);
    let got = head(&mut client, id);
    let got = (Response::try_from(&got).unwrap(), Request::try_from(&got).is_err());
    assert_eq!((got.0.status(), got.0.headers(), got.1), (StatusCode::NOT_FOUND, response.headers(), true));
    match client.next_item(id) {
        Ok(Next::Item(Item::Trailer(fields))) => assert_eq!(HeaderMap::try_from(&fields).unwrap(), trailer),
        other => panic!("{other:?}"),
    }
}

#[test]
fn what_http_3_forbids_is_refused_and_not_left_out() {
    let (mut client, _server) = pair();
    let id = client.open_request().unwrap();
    let request = Request::get("https://localhost/").header("connection", "close").body(()).unwrap();
    assert_eq!(client.send_request(id, &request), Err(Error::Malformed(Malformation::ConnectionField)));
    assert!(client.send_request(id, &Request::get("https://localhost/").body(()).unwrap()).is_ok());
}
