//! TLS as it is made where the caller says nothing of it.

use rustls::{Certificate, ClientConfig, RootCertStore};
use std::sync::Arc;

/// Settings by which the system's authorities count. One that can't be read doesn't.
pub(crate) fn of_the_system() -> Arc<ClientConfig> {
    let mut authorities = RootCertStore::empty();
    let found = rustls_native_certs::load_native_certs().unwrap_or_else(|error| {
        log::warn!("the system's authorities can't be read: {error}");
        Vec::new()
    });
    for authority in found {
        // the system keeps some that no TLS of today takes
        let _ = authorities.add(&Certificate(authority.0));
    }
    let config = ClientConfig::builder().with_safe_defaults();
    Arc::new(
        config
            .with_root_certificates(authorities)
            .with_no_client_auth(),
    )
}
