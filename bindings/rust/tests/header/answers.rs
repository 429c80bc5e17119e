//! Every field of an answer is that of the same name in the C struct.

use abr::{ffi, Connection, ConnectionKind, Kind, Params, Received, ReceivedKind, Sent};

#[test]
fn a_received_cell() {
    let received = ffi::abr_received {
        refusal: 0,
        comparisons: 1,
        kind: ffi::ABR_RECEIVED_BACKWARD,
        vpi: 3,
        vci: 4,
        leaf: 5,
        acr: 6,
    };
    let expected = Received {
        vpi: 3,
        vci: 4,
        leaf: 5,
        kind: ReceivedKind::Backward,
        acr: 6,
        comparisons: 1,
    };
    assert_eq!(Received::from(received), expected);
}

#[test]
fn a_slot() {
    let sent = ffi::abr_sent {
        refusal: 0,
        comparisons: 1,
        kind: ffi::ABR_SENT_TURNED,
        vpi: 3,
        vci: 4,
        leaf: 5,
        acr: 6,
        acr_before: 7,
        made: 0,
        reserved: 0,
    };
    let expected = Sent {
        vpi: 3,
        vci: 4,
        leaf: 5,
        kind: Kind::Turned,
        made: false,
        acr: 6,
        acr_before: 7,
        comparisons: 1,
    };
    assert_eq!(Option::<Sent>::from(sent), Some(expected));
    let (sent, made) = (ffi::abr_sent { made: 1, ..sent }, true);
    let expected = Sent { made, ..expected };
    assert_eq!(Option::<Sent>::from(sent), Some(expected));
}

/// A reading in which every number is another one.
const READ: ffi::abr_connection = ffi::abr_connection {
    refusal: 0,
    kind: ffi::ABR_PATH,
    vpi: 3,
    vci: 4,
    leaf: 5,
    waiting: 6,
    params: Params {
        pcr: 7,
        mcr: 8,
        icr: 9,
        n: 10,
        r: 11,
        d: 12,
        c: 13,
        tbe: 14,
        frtt: 15,
        adtf: 16,
        trm: 17,
    },
    crm: 18,
    icr_used: 19,
    acr: 20,
    change: -21,
    opened: 22,
    last_sent: 23,
    last_forward: 24,
    ready: 25,
    last_made: 26,
    last_out_of_rate: 27,
    k: 28,
    unanswered: 29,
    backward_sent: 0,
    efci: 0,
    turned: 0,
    made_level: 30,
    served: 31,
    reserved: 0,
};

/// The connection of that reading.
const CONNECTION: Connection = Connection {
    kind: ConnectionKind::Path,
    vpi: 3,
    vci: 4,
    leaf: 5,
    waiting: 6,
    params: READ.params,
    crm: 18,
    icr_used: 19,
    acr: 20,
    change: -21,
    opened: 22,
    last_sent: Some(23),
    last_forward: Some(24),
    ready: Some(25),
    last_made: Some(26),
    last_out_of_rate: Some(27),
    k: 28,
    unanswered: 29,
    backward_sent: false,
    efci: false,
    turned: false,
    made_level: 30,
    served: 31,
};

/// Compares one field that has another value than above, in C and in Rust.
macro_rules! with {
    ($field:ident: $read:expr => $expected:expr) => {
        let (read, expected) = (
            ffi::abr_connection {
                $field: $read,
                ..READ
            },
            Connection {
                $field: $expected,
                ..CONNECTION
            },
        );
        assert_eq!(Connection::from(read), expected, stringify!($field));
    };
}

#[test]
fn a_connection() {
    assert_eq!(Connection::from(READ), CONNECTION);
    with!(backward_sent: 1 => true);
    with!(efci: 1 => true);
    with!(turned: 1 => true);
    with!(last_sent: ffi::ABR_NEVER => None);
    with!(last_forward: ffi::ABR_NEVER => None);
    with!(ready: ffi::ABR_NEVER => None);
    with!(last_made: ffi::ABR_NEVER => None);
    with!(last_out_of_rate: ffi::ABR_NEVER => None);
}
