//! Refusals that are no failure.

use abr::Refusal;

/// Accepts one refusal, and no other.
pub fn accepted_too(expected: Refusal) -> impl Fn(Refusal) -> Result<(), Refusal> {
    move |refusal| match refusal == expected {
        true => Ok(()),
        false => Err(refusal),
    }
}
