//! The folder sync of `lcmux-tokio` over TLS: `sync-tls listen ADDRESS FOLDER KEYS` on one side, and
//! `sync-tls connect ADDRESS FOLDER KEYS NAME` on the other.
//!
//! Both sides have a certificate, and each checks that of the other: it has to be issued by the authority of the folder
//! KEYS, and that of the listening side has to be for NAME. KEYS has `authority.pem`, `certificate.pem` and `key.pem`.
#[path = "../../../bindings/rust-tokio/examples/sync/errors.rs"]
mod errors;
#[path = "../../../bindings/rust-tokio/examples/sync/fetch.rs"]
mod fetch;
#[path = "../../../bindings/rust-tokio/examples/sync/listing.rs"]
mod listing;
#[path = "../../../bindings/rust-tokio/examples/sync/messages.rs"]
mod messages;
#[path = "../../../bindings/rust-tokio/examples/sync/partial.rs"]
mod partial;
#[path = "../../../bindings/rust-tokio/examples/sync/serve.rs"]
mod serve;
#[path = "../../../bindings/rust-tokio/examples/sync/session.rs"]
mod session;

use partial::Partials;
use session::{sync, Outcome};
use std::fs::File;
use std::io::BufReader;
use std::path::Path;
use std::process::ExitCode;
use std::sync::Arc;
use std::{env, error::Error};
use tokio::net::{TcpListener, TcpStream};
use tokio_rustls::rustls::server::AllowAnyAuthenticatedClient;
use tokio_rustls::rustls::{
    Certificate, ClientConfig, PrivateKey, RootCertStore, ServerConfig, ServerName,
};
use tokio_rustls::{TlsAcceptor, TlsConnector, TlsStream};

const USAGE: &str =
    "usage: sync-tls listen ADDRESS FOLDER KEYS, or sync-tls connect ADDRESS FOLDER KEYS NAME";

/// The authority that both sides trust, and this side's certificate with its key.
struct Keys {
    authority: RootCertStore,
    chain: Vec<Certificate>,
    key: PrivateKey,
}

impl Keys {
    fn read(folder: &Path) -> Result<Keys, Box<dyn Error>> {
        let open = |name| File::open(folder.join(name)).map(BufReader::new);
        let mut authority = RootCertStore::empty();
        authority.add_parsable_certificates(&rustls_pemfile::certs(&mut open("authority.pem")?)?);
        let chain = rustls_pemfile::certs(&mut open("certificate.pem")?)?;
        let keys = rustls_pemfile::pkcs8_private_keys(&mut open("key.pem")?)?;
        let key = keys.into_iter().next().ok_or("key.pem has no key")?;
        Ok(Keys {
            authority,
            chain: chain.into_iter().map(Certificate).collect(),
            key: PrivateKey(key),
        })
    }

    fn acceptor(self) -> Result<TlsAcceptor, Box<dyn Error>> {
        let config = ServerConfig::builder()
            .with_safe_defaults()
            .with_client_cert_verifier(AllowAnyAuthenticatedClient::new(self.authority))
            .with_single_cert(self.chain, self.key)?;
        Ok(Arc::new(config).into())
    }

    fn connector(self) -> Result<TlsConnector, Box<dyn Error>> {
        let config = ClientConfig::builder()
            .with_safe_defaults()
            .with_root_certificates(self.authority)
            .with_single_cert(self.chain, self.key)?;
        Ok(Arc::new(config).into())
    }
}

async fn listen(address: &str, keys: Keys) -> Result<TlsStream<TcpStream>, Box<dyn Error>> {
    let acceptor = keys.acceptor()?;
    let listener = TcpListener::bind(address).await?;
    eprintln!("listening on {}", listener.local_addr()?);
    let stream = listener.accept().await?.0;
    stream.set_nodelay(true)?;
    Ok(acceptor.accept(stream).await?.into())
}

async fn connect(
    address: &str,
    keys: Keys,
    name: &str,
) -> Result<TlsStream<TcpStream>, Box<dyn Error>> {
    let stream = TcpStream::connect(address).await?;
    stream.set_nodelay(true)?;
    let connector = keys.connector()?;
    Ok(connector
        .connect(ServerName::try_from(name)?, stream)
        .await?
        .into())
}

async fn run(words: &[&str]) -> Result<Outcome, Box<dyn Error>> {
    let (folder, keys) = match *words {
        ["listen", _, folder, keys] | ["connect", _, folder, keys, _] => (folder, keys),
        _ => return Err(USAGE.into()),
    };
    let folder = Path::new(folder);
    let (partials, keys) = (Partials::open(folder)?, Keys::read(Path::new(keys))?);
    let stream = match *words {
        ["connect", address, _, _, name] => connect(address, keys, name).await?,
        _ => listen(words[1], keys).await?,
    };
    sync(stream, folder, &partials).await
}

#[tokio::main]
async fn main() -> ExitCode {
    let words: Vec<_> = env::args().skip(1).collect();
    let words: Vec<_> = words.iter().map(String::as_str).collect();
    Outcome::report(run(&words).await)
}
