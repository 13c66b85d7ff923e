//! The port for metrics: requests of HTTP/1, one a connection.

use crate::Metrics;

/// The most bytes of a request.
const MOST: usize = 8 << 10;

/// The answer to a request, once its head is there; none as long as it isn't.
pub(crate) fn answer(request: &[u8], metrics: &Metrics) -> Option<Vec<u8>> {
    let is_whole = request.windows(4).any(|it| it == b"\r\n\r\n");
    if !is_whole {
        return (request.len() > MOST).then(|| response("431 Request Header Fields Too Large", "text/plain", ""));
    }
    let line = request.split(|byte| *byte == b'\r').next().unwrap_or_default();
    let mut words = line.split(|byte| *byte == b' ');
    let is_get = words.next() == Some(b"GET");
    Some(match words.next() {
        _ if !is_get => response("405 Method Not Allowed", "text/plain", ""),
        Some(b"/metrics") => response("200 OK", "text/plain; version=0.0.4", &metrics.to_text()),
        Some(b"/") => response("200 OK", "text/html; charset=utf-8", &metrics.to_page()),
        _ => response("404 Not Found", "text/plain", "there are / and /metrics\n"),
    })
}

fn response(status: &str, kind: &str, body: &str) -> Vec<u8> {
    let length = body.len();
    format!("HTTP/1.1 {status}\r\nContent-Type: {kind}\r\nContent-Length: {length}\r\nAllow: GET\r\nConnection: close\r\n\r\n{body}")
        .into_bytes()
}

#[cfg(test)]
mod tests {
    use super::*;
    use crate::NodeId;

    #[test]
    fn requests_are_answered_once_they_are_whole() {
        let metrics = Metrics::new(NodeId(1));
        let first_line = |request: &str| {
            let answer = String::from_utf8(answer(request.as_bytes(), &metrics)?).unwrap();
            answer.lines().next().map(str::to_string)
        };
        assert_eq!(first_line("GET / HTTP/1.1\r\nHost: a\r\n"), None);
        assert_eq!(
            first_line("GET / HTTP/1.1\r\nHost: a\r\n\r\n").unwrap(),
            "HTTP/1.1 200 OK"
        );
        assert_eq!(first_line("GET /metrics HTTP/1.0\r\n\r\n").unwrap(), "HTTP/1.1 200 OK");
        assert_eq!(first_line("GET /x HTTP/1.0\r\n\r\n").unwrap(), "HTTP/1.1 404 Not Found");
        assert_eq!(
            first_line("POST / HTTP/1.0\r\n\r\n").unwrap(),
            "HTTP/1.1 405 Method Not Allowed"
        );
        assert!(first_line(&"a".repeat(MOST + 1)).unwrap().contains("431"));
    }
}
