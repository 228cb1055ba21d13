//! The calls for the tags of a key agreement held against those of `compare/`.

use super::{lent, of_refusal, NamedNumbers};
use compare::confirm::{self, Refused};
use obscurlane::{confirm_request, confirm_response, ConfirmRefusal};

fn named(refusal: ConfirmRefusal) -> NamedNumbers {
    match refusal {
        ConfirmRefusal::Request(refusal) => (1, of_refusal(refusal)),
        ConfirmRefusal::Response(refusal) => (2, of_refusal(refusal)),
        other => (0, (other.reason().number(), 0)),
    }
}

fn expected_named(Refused { refusal, which }: Refused) -> NamedNumbers {
    (which as u8, (refusal.number(), usize::from(refusal.field())))
}

/// Lends both sides outputs of these rooms, for MacKey and for KEK: they give the same answer and leave the same bytes, and a
/// refused call leaves both outputs as they were. Gives back the answer.
pub fn same_request(z: &[u8], request: &[u8], rooms: [usize; 2]) -> Result<(), NamedNumbers> {
    let lent = rooms.map(lent);
    let (mut outputs, mut wanted) = (lent.clone(), lent.clone());
    let [mac_key, kek] = &mut outputs;
    let answer = confirm_request(z, request, mac_key, kek).map_err(named);
    let [mac_key, kek] = &mut wanted;
    let theirs = confirm::request(z, request, mac_key, kek).map_err(expected_named);
    assert_eq!(answer, theirs, "{z:?} {request:?} {rooms:?}");
    assert_eq!(outputs, wanted, "{z:?} {request:?} {rooms:?}");
    assert!(answer.is_ok() || outputs == lent, "refused, and an output is written: {request:?}");
    answer
}

/// Both sides give the same answer. Gives it back.
pub fn same_response(z: &[u8], request: &[u8], response: &[u8]) -> Result<(), NamedNumbers> {
    let answer = confirm_response(z, request, response).map_err(named);
    let theirs = confirm::response(z, request, response).map_err(expected_named);
    assert_eq!(answer, theirs, "{z:?} {request:?} {response:?}");
    answer
}
