//! A hyper client whose calls are retried: its requests aren't `Clone`.
use hyper::body::HttpBody;
use hyper::service::{make_service_fn, service_fn};
use hyper::{Body, Client, Method, Request, Response, Server, StatusCode};
use resil::{Bulkhead, Interval, Retry};
use resil_tower::{BulkheadLayer, RetryPolicy};
use std::convert::Infallible;
use std::net::SocketAddr;
use std::sync::Arc;
use std::sync::atomic::{AtomicU32, Ordering};
use std::time::Duration;
use tower::{BoxError, Service, ServiceBuilder, ServiceExt};

// A body that isn't empty is gone once it is sent, so such a request is sent only once.
fn cloned(request: &Request<Body>) -> Option<Request<Body>> {
    if request.body().size_hint().exact() != Some(0) {
        return None;
    }
    let mut copy = Request::new(Body::empty());
    copy.method_mut().clone_from(request.method());
    copy.uri_mut().clone_from(request.uri());
    copy.headers_mut().clone_from(request.headers());
    Some(copy)
}

// Answers each third request, and the others with 503.
fn serve(asked: Arc<AtomicU32>) -> SocketAddr {
    let each = make_service_fn(move |_connection: &_| {
        let asked = Arc::clone(&asked);
        async move {
            Ok::<_, Infallible>(service_fn(move |_request| {
                let is_ready = asked.fetch_add(1, Ordering::SeqCst) % 3 == 2;
                async move {
                    let mut response = Response::new(Body::from("hello"));
                    if !is_ready {
                        *response.status_mut() = StatusCode::SERVICE_UNAVAILABLE;
                    }
                    Ok::<_, Infallible>(response)
                }
            }))
        }
    });
    let server = Server::bind(&([127, 0, 0, 1], 0).into()).serve(each);
    let address = server.local_addr();
    tokio::spawn(server);
    address
}

#[tokio::test]
async fn requests_without_a_body_are_sent_again() -> Result<(), BoxError> {
    let asked = Arc::new(AtomicU32::new(0));
    let address = serve(Arc::clone(&asked));
    let retry = Retry::new()
        .interval(Interval::fixed(Duration::from_millis(1)))
        .retry_value_if(|response: &Response<Body>| {
            response.status() == StatusCode::SERVICE_UNAVAILABLE
        });
    let backend = Arc::new(Bulkhead::new("backend", 2)?);
    let mut client = ServiceBuilder::new()
        .retry(RetryPolicy::new(retry, tokio::time::sleep).cloning(cloned))
        .layer(BulkheadLayer::queueing(Arc::clone(&backend)))
        .service(Client::new());
    let request = |method, body| {
        let request = Request::builder()
            .method(method)
            .uri(format!("http://{address}/"));
        request.body(body)
    };
    let answer = client
        .ready()
        .await?
        .call(request(Method::GET, Body::empty())?)
        .await?;
    assert_eq!(answer.status(), StatusCode::OK);
    assert_eq!(asked.load(Ordering::SeqCst), 3);
    let answer = client
        .ready()
        .await?
        .call(request(Method::POST, Body::from("a letter"))?)
        .await?;
    assert_eq!(answer.status(), StatusCode::SERVICE_UNAVAILABLE);
    assert_eq!(asked.load(Ordering::SeqCst), 4);
    assert_eq!(backend.available(), 2);
    Ok(())
}
