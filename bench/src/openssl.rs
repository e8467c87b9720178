//! OpenSSL's readers of certificates and of CRLs, as far as the benchmarks call them.

use std::ffi::{c_int, c_long, c_void};
use std::ptr::null_mut;

extern "C" {
    fn d2i_X509(into: *mut *mut c_void, octets: *mut *const u8, length: c_long) -> *mut c_void;
    fn X509_free(certificate: *mut c_void);
    fn d2i_X509_CRL(into: *mut *mut c_void, octets: *mut *const u8, length: c_long) -> *mut c_void;
    fn X509_CRL_free(list: *mut c_void);
    fn X509_CRL_get0_by_serial(
        list: *mut c_void,
        entry: *mut *mut c_void,
        serial: *const c_void,
    ) -> c_int;
    fn d2i_ASN1_INTEGER(
        into: *mut *mut c_void,
        octets: *mut *const u8,
        length: c_long,
    ) -> *mut c_void;
    fn ASN1_INTEGER_free(number: *mut c_void);
}

/// A certificate that OpenSSL has read.
pub struct Certificate(*mut c_void);

impl Certificate {
    /// The certificate that octets are, if OpenSSL reads them.
    pub fn read(octets: &[u8]) -> Option<Certificate> {
        let mut next = octets.as_ptr();
        // SAFETY: as d2i_X509(3) asks: no object to reuse, and a pointer to octets of this length, which it moves.
        let certificate = unsafe { d2i_X509(null_mut(), &mut next, octets.len() as c_long) };
        (!certificate.is_null()).then_some(Certificate(certificate))
    }
}

impl Drop for Certificate {
    fn drop(&mut self) {
        // SAFETY: the certificate is this one's own.
        unsafe { X509_free(self.0) }
    }
}

/// A list that OpenSSL has read.
pub struct List(*mut c_void);

impl List {
    /// The list that octets are, if OpenSSL reads them.
    pub fn read(octets: &[u8]) -> Option<List> {
        let mut next = octets.as_ptr();
        // SAFETY: as d2i_X509_CRL(3) asks: no object to reuse, and a pointer to octets of this length, which it moves.
        let list = unsafe { d2i_X509_CRL(null_mut(), &mut next, octets.len() as c_long) };
        (!list.is_null()).then_some(List(list))
    }

    /// Whether the list has an entry of a serial number, which is given as a whole INTEGER.
    pub fn has(&self, serial: &Serial) -> bool {
        let mut entry = null_mut();
        // SAFETY: both objects are alive; the entry stays the list's.
        unsafe { X509_CRL_get0_by_serial(self.0, &mut entry, serial.0) != 0 }
    }
}

impl Drop for List {
    fn drop(&mut self) {
        // SAFETY: the list is this one's own.
        unsafe { X509_CRL_free(self.0) }
    }
}

/// A number as OpenSSL keeps it.
pub struct Serial(*mut c_void);

impl Serial {
    pub fn read(integer: &[u8]) -> Option<Serial> {
        let mut next = integer.as_ptr();
        // SAFETY: as for a list.
        let number = unsafe { d2i_ASN1_INTEGER(null_mut(), &mut next, integer.len() as c_long) };
        (!number.is_null()).then_some(Serial(number))
    }
}

impl Drop for Serial {
    fn drop(&mut self) {
        // SAFETY: the number is this one's own.
        unsafe { ASN1_INTEGER_free(self.0) }
    }
}
