//! What comes on a connection goes back, over TLS. A new certificate is taken by an upgrade (`kill -QUIT`).

use clap::Parser;
use fulltimehen_server::{Connection, Opt, Server, Succession, listening_with_handshake};
use std::fs::File;
use std::io::{self, BufReader};
use std::path::{Path, PathBuf};
use std::sync::Arc;
use std::time::Duration;
use tokio::io::{AsyncWriteExt, copy, split};
use tokio_rustls::TlsAcceptor;
use tokio_rustls::rustls::{Certificate, PrivateKey, ServerConfig};

/// Echoes over TLS.
#[derive(Parser)]
#[command(version)]
struct Words {
    #[command(flatten)]
    server: Opt,
    /// Where it listens
    #[arg(long, default_value = "127.0.0.1:8443")]
    listen: String,
    /// The file with the certificate, and those that it stands on
    certificate: PathBuf,
    /// The file with its key
    key: PathBuf,
}

fn acceptor(certificate: &Path, key: &Path) -> io::Result<TlsAcceptor> {
    let open = |path| File::open(path).map(BufReader::new);
    let chain = rustls_pemfile::certs(&mut open(certificate)?)?;
    let keys = rustls_pemfile::pkcs8_private_keys(&mut open(key)?)?;
    let key = keys.into_iter().next().ok_or(io::ErrorKind::InvalidData)?;
    let tls = ServerConfig::builder().with_safe_defaults().with_no_client_auth();
    let tls = tls.with_single_cert(chain.into_iter().map(Certificate).collect(), PrivateKey(key));
    Ok(TlsAcceptor::from(Arc::new(tls.map_err(io::Error::other)?)))
}

fn main() -> io::Result<()> {
    let words = Words::parse();
    let acceptor = acceptor(&words.certificate, &words.key)?;
    let mut server = Server::new(words.server).unwrap_or_else(|error| error.exit());
    server.succession(Succession::new());
    let shake = move |mut connection: Connection| {
        connection.set_idle_timeout(Some(Duration::from_secs(60)));
        acceptor.accept(connection)
    };
    let echo = listening_with_handshake("echo", shake, |stream| async move {
        let (mut from, mut to) = split(stream);
        copy(&mut from, &mut to).await?;
        to.shutdown().await
    });
    server.add_service(echo.tcp(&words.listen));
    server.run_forever()
}
