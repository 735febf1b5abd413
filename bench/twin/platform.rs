//! The platform's classes and methods, by their tokens in the usual table.
use crate::api::Native;

pub const LANG: &[u8] = &[0xA0, 0, 0, 0, 0x62, 0, 1];

// The words of classes: the package's number, 0x40 for the first one of the platform, and the class's.
pub const OBJECT: u16 = 0x4000;
pub const THROWABLE: u16 = 0x4001;
pub const SHAREABLE: u16 = 0x4100;
const APPLET: u16 = 0x4102;
pub const APDU: u16 = 0x4103;
pub const AID: u16 = 0x4104;
pub const ISO_EXCEPTION: u16 = 0x410A;

/// The tokens of methods of `Applet`.
pub const DESELECT: u8 = 1;
pub const SELECT: u8 = 5;
pub const PROCESS: u8 = 7;

/// The classes of the exceptions that the runtime environment has an instance of, with how many cells that has: one for a reason.
pub const EXCEPTIONS: [(u16, u16); 11] = [
    (0x4005, 0), // ArithmeticException
    (0x4006, 0), // ArrayIndexOutOfBoundsException
    (0x4007, 0), // ArrayStoreException
    (0x4008, 0), // ClassCastException
    (0x4009, 0), // NegativeArraySizeException
    (0x400A, 0), // NullPointerException
    (0x400B, 0), // SecurityException
    (ISO_EXCEPTION, 1),
    (0x410C, 1), // SystemException
    (0x410D, 1), // TransactionException
    (0x410E, 1), // APDUException
];

pub fn superclass(class: u16) -> Option<u16> {
    match class {
        0x4002 => Some(THROWABLE),       // Exception
        0x4003 | 0x4108 => Some(0x4002), // RuntimeException, CardException
        0x4006 => Some(0x4004),          // ArrayIndexOutOfBoundsException
        0x4004..=0x400B => Some(0x4003), // the other runtime exceptions
        0x4109 => Some(0x4003),          // CardRuntimeException
        0x410A..=0x410E => Some(0x4109), // ISOException and its kin
        0x410F => Some(0x4108),          // UserException
        0x4001 | 0x4102..=0x4107 => Some(OBJECT),
        _ => None,
    }
}

/// The method that an instance of a class of the platform has by a token.
pub fn virtual_method(class: u16, token: u8) -> Option<Native> {
    Some(match (class, token) {
        (APPLET, DESELECT) => Native::Deselect,
        (APPLET, 3) => Native::Register,
        (APPLET, SELECT) => Native::Select,
        (APPLET, 6) => Native::SelectingApplet,
        (APDU, 1) => Native::GetBuffer,
        (APDU, 6) => Native::SetOutgoingAndSend,
        _ => return None,
    })
}

pub fn static_method(class: u16, token: u8) -> Option<Native> {
    Some(match (class, token) {
        (APPLET, 0) => Native::Init,
        (0x4105, 1) => Native::BeginTransaction,
        (0x4105, 2) => Native::CommitTransaction,
        (0x4105, 12) => Native::MakeTransientByteArray,
        (0x4106, 1) => Native::ArrayCopy,
        (0x4106, 2) => Native::GetShort,
        (0x4106, 4) => Native::SetShort,
        (ISO_EXCEPTION, 1) => Native::ThrowIt,
        _ => return None,
    })
}
