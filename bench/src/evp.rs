//! OpenSSL's check of a signature, by a key that it keeps.

use std::ffi::{c_char, c_int, c_long, c_void, CString};
use std::ptr::{null, null_mut};

extern "C" {
    fn d2i_PUBKEY(into: *mut *mut c_void, octets: *mut *const u8, length: c_long) -> *mut c_void;
    fn EVP_PKEY_free(key: *mut c_void);
    fn EVP_MD_fetch(
        library: *mut c_void,
        name: *const c_char,
        properties: *const c_char,
    ) -> *mut c_void;
    fn EVP_MD_free(hash: *mut c_void);
    fn EVP_MD_CTX_new() -> *mut c_void;
    fn EVP_MD_CTX_free(context: *mut c_void);
    fn EVP_DigestVerifyInit(
        context: *mut c_void,
        options: *mut *mut c_void,
        hash: *const c_void,
        engine: *mut c_void,
        key: *mut c_void,
    ) -> c_int;
    fn EVP_DigestVerify(
        context: *mut c_void,
        signature: *const u8,
        signature_length: usize,
        signed: *const u8,
        signed_length: usize,
    ) -> c_int;
}

/// A public key that OpenSSL has read, and the hash that it is used with.
pub struct PublicKey {
    key: *mut c_void,
    hash: *mut c_void,
}

impl PublicKey {
    /// The key that the octets of a SubjectPublicKeyInfo are, if OpenSSL reads them. Without the name of a hash the
    /// octets themselves are signed.
    pub fn read(info: &[u8], hash: Option<&str>) -> Option<PublicKey> {
        let name = hash.and_then(|name| CString::new(name).ok());
        let mut next = info.as_ptr();
        // SAFETY: as d2i_PUBKEY(3) asks: no object to reuse, and a pointer to octets of this length, which it moves.
        let key = unsafe { d2i_PUBKEY(null_mut(), &mut next, info.len() as c_long) };
        let hash = name.map_or(null_mut(), |name| {
            // SAFETY: the default library, and a name that ends with 0.
            unsafe { EVP_MD_fetch(null_mut(), name.as_ptr(), null()) }
        });
        (!key.is_null()).then_some(PublicKey { key, hash })
    }

    /// Whether OpenSSL takes a signature under this key.
    pub fn takes(&self, signed: &[u8], signature: &[u8]) -> bool {
        // SAFETY: key and hash are alive, the context is this call's own, and each length is that of its octets.
        unsafe {
            let context = EVP_MD_CTX_new();
            let begun =
                EVP_DigestVerifyInit(context, null_mut(), self.hash, null_mut(), self.key) == 1;
            let good = begun
                && EVP_DigestVerify(
                    context,
                    signature.as_ptr(),
                    signature.len(),
                    signed.as_ptr(),
                    signed.len(),
                ) == 1;
            EVP_MD_CTX_free(context);
            good
        }
    }
}

impl Drop for PublicKey {
    fn drop(&mut self) {
        // SAFETY: both are this one's own, and either may be null.
        unsafe {
            EVP_PKEY_free(self.key);
            EVP_MD_free(self.hash);
        }
    }
}
