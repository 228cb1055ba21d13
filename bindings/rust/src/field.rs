//! The numbers of the fields, counted from 1, by name: what [`Record::field`](crate::Record::field) and
//! [`record_field`](crate::record_field) take, and what [`Refusal::field`](crate::Refusal::field) says.

/// The fields of an identity: `SMMAN.1`, `SMID.1` and `KMCID.1`.
pub mod identity {
    /// Manufacturer.
    pub const MANUFACTURER: usize = 1;
    /// MID.
    pub const MID: usize = 2;
    /// GNT, the time at which the key pair was generated.
    pub const GNT: usize = 3;
    /// Fingerprint of the public key.
    pub const FINGERPRINT: usize = 4;
}

/// The fields of a public key: `PK.ECDSA.1` and `PK.ECDH.1`.
pub mod public_key {
    /// Subject, the identity whose key it is.
    pub const SUBJECT: usize = 1;
    /// Q, the point.
    pub const Q: usize = 2;
    /// Expiry.
    pub const EXPIRY: usize = 3;
    /// Issuer, the identity that signed; empty in an unsigned key, which a module's is not.
    pub const ISSUER: usize = 4;
    /// Signature; empty in an unsigned key.
    pub const SIGNATURE: usize = 5;
}

/// The fields of a load request: `VKLOAD.REQ.1`.
pub mod request {
    /// ID_SM, the identity of the security module.
    pub const ID_SM: usize = 1;
    /// ID_KMC, the identity of the key management centre.
    pub const ID_KMC: usize = 2;
    /// TVP, the time variant parameter.
    pub const TVP: usize = 3;
    /// HWID, model and revision of the hardware.
    pub const HWID: usize = 4;
    /// FWID, name and version of the firmware.
    pub const FWID: usize = 5;
    /// QE, the point of the module's ephemeral key.
    pub const QE: usize = 6;
    /// MacTag.
    pub const MAC_TAG: usize = 7;
}

/// The fields of a load response: `VKLOAD.RESP.1`.
pub mod response {
    /// ID_KMC, the identity of the key management centre.
    pub const ID_KMC: usize = 1;
    /// ID_SM, the identity of the security module.
    pub const ID_SM: usize = 2;
    /// TVP, copied from the request.
    pub const TVP: usize = 3;
    /// MacTag.
    pub const MAC_TAG: usize = 4;
}

/// The fields of a wrapped vending key: `KEY.1`.
pub mod key {
    /// Nonce, which no other key under the same key exchange key has.
    pub const NONCE: usize = 1;
    /// Attributes, the whole list: the bytes that go to the cipher.
    pub const ATTRIBUTES: usize = 2;
    /// ProtectedKey, the vending key under the key exchange key.
    pub const PROTECTED_KEY: usize = 3;
}
