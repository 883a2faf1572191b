//! Hyper servers with a layer whose calls wait: which connections hold a permit, and which don't.
use hyper::server::conn::AddrIncoming;
use hyper::service::make_service_fn;
use hyper::{Body, Request, Response, Server, StatusCode};
use resil::Bulkhead;
use resil_tower::{BulkheadLayer, QueueingLayer};
use std::convert::Infallible;
use std::net::SocketAddr;
use std::sync::Arc;
use std::time::Duration;
use tokio::io::{AsyncReadExt, AsyncWriteExt};
use tokio::net::TcpStream;
use tokio::sync::Semaphore;
use tower::{BoxError, ServiceBuilder, ServiceExt, service_fn};

type Checked = Result<(), BoxError>;

// For what is expected at once, however busy the machine is.
const PATIENCE: Duration = Duration::from_secs(60);

// A server with this layer, whose handler answers `/slow` once it may continue. Refused requests get a 503.
fn serve(layer: QueueingLayer, goes_on: Arc<Semaphore>) -> Result<SocketAddr, BoxError> {
    let handler = service_fn(move |request: Request<Body>| {
        let goes_on = Arc::clone(&goes_on);
        async move {
            if request.uri().path() == "/slow" {
                goes_on.acquire_owned().await.expect("it isn't closed").forget();
            }
            Ok::<_, Infallible>(Response::new(Body::from("hello")))
        }
    });
    let service = ServiceBuilder::new()
        .load_shed()
        .layer(layer)
        .service(handler);
    let service = service.then(async |answer: Result<Response<Body>, BoxError>| {
        answer.or_else(|_refused| {
            let response = Response::builder().status(StatusCode::SERVICE_UNAVAILABLE);
            response.body(Body::from("later")).map_err(BoxError::from)
        })
    });
    let incoming = AddrIncoming::bind(&([127, 0, 0, 1], 0).into())?;
    let address = incoming.local_addr();
    let each = make_service_fn(move |_connection: &_| {
        let service = service.clone();
        async move { Ok::<_, Infallible>(service) }
    });
    tokio::spawn(Server::builder(incoming).serve(each));
    Ok(address)
}

async fn send(connection: &mut TcpStream, path: &str) -> Checked {
    let request = format!("GET {path} HTTP/1.1\r\nhost: localhost\r\n\r\n");
    connection.write_all(request.as_bytes()).await?;
    Ok(())
}

// The status of the next answer, which is read to its end: five letters follow its head.
async fn status(connection: &mut TcpStream) -> Result<u16, BoxError> {
    let mut head = Vec::new();
    let reads = async {
        while !head.ends_with(b"\r\n\r\n") {
            head.push(connection.read_u8().await?);
        }
        connection.read_exact(&mut [0; 5]).await
    };
    tokio::time::timeout(PATIENCE, reads).await??;
    Ok(std::str::from_utf8(&head[9..12])?.parse()?)
}

async fn wait_until(is_so: impl Fn() -> bool) -> Checked {
    let waits = async {
        while !is_so() {
            tokio::time::sleep(Duration::from_millis(1)).await;
        }
    };
    Ok(tokio::time::timeout(PATIENCE, waits).await?)
}

#[tokio::test(flavor = "multi_thread", worker_threads = 2)]
async fn idle_connections_hold_no_permit() -> Checked {
    let backend = Arc::new(Bulkhead::new("backend", 2)?);
    let layer = BulkheadLayer::queueing(Arc::clone(&backend));
    let address = serve(layer, Arc::new(Semaphore::new(0)))?;
    // Two that request nothing; one of them has had an answer. hyper polls the service for readiness before it reads.
    let mut idle = [
        TcpStream::connect(address).await?,
        TcpStream::connect(address).await?,
    ];
    send(&mut idle[0], "/").await?;
    assert_eq!(status(&mut idle[0]).await?, 200);
    let mut asks = TcpStream::connect(address).await?;
    for _ in 0..3 {
        send(&mut asks, "/").await?;
        assert_eq!(status(&mut asks).await?, 200);
    }
    wait_until(|| backend.available() == 2).await?;
    assert_eq!(backend.numbers().waiting, 0);
    Ok(())
}

#[tokio::test(flavor = "multi_thread", worker_threads = 2)]
async fn a_connection_whose_request_was_refused_holds_no_permit() -> Checked {
    let backend = Arc::new(Bulkhead::new("backend", 1)?);
    let goes_on = Arc::new(Semaphore::new(0));
    let layer = BulkheadLayer::queueing(Arc::clone(&backend)).most_waiting(0);
    let address = serve(layer, Arc::clone(&goes_on))?;
    let mut slow = TcpStream::connect(address).await?;
    send(&mut slow, "/slow").await?;
    wait_until(|| backend.available() == 0).await?;
    let mut refused = TcpStream::connect(address).await?;
    send(&mut refused, "/").await?;
    assert_eq!(status(&mut refused).await?, 503);
    goes_on.add_permits(1);
    assert_eq!(status(&mut slow).await?, 200);
    // The refused connection stays open, and others are answered; then it is too.
    let mut other = TcpStream::connect(address).await?;
    for connection in [&mut other, &mut refused, &mut slow] {
        wait_until(|| backend.available() == 1).await?;
        send(connection, "/").await?;
        assert_eq!(status(connection).await?, 200);
    }
    Ok(())
}
