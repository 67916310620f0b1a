//! A daemon that answers true to all, by the same hyper and as many threads.
use hyper::body::to_bytes;
use hyper::header::CONTENT_TYPE;
use hyper::server::conn::Http;
use hyper::service::service_fn;
use hyper::{Body, Request, Response};
use std::convert::Infallible;
use std::path::Path;
use tokio::net::UnixListener;

async fn answer(request: Request<Body>) -> Result<Response<Body>, Infallible> {
    let _ = to_bytes(request.into_body()).await;
    let response = Response::builder().header(CONTENT_TYPE, "application/json");
    let response = response.body(Body::from("{\"decision\":true}\n"));
    Ok(response.expect("the header is right"))
}

/// Answers at a socket.
pub async fn serve(socket: &Path) {
    let listener = UnixListener::bind(socket).expect("a socket");
    while let Ok((stream, _)) = listener.accept().await {
        tokio::spawn(async move {
            let mut http = Http::new();
            let connection = http.http1_only(true);
            let served = connection.serve_connection(stream, service_fn(answer));
            let _ = served.await;
        });
    }
}
