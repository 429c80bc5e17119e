//! How many connections may be open at once, a parameter of the build. Document 02, L4, asks
//! for 1,024; the editions with fewer differ from it in this number alone.

/// The connections that may be open at once: what the environment variable `ABR_CONNECTIONS`
/// says where the reference is compiled, 16, 64, 256 or 1024, and 1,024 where it is not set.
pub const CONNECTIONS_MAX: usize = match option_env!("ABR_CONNECTIONS") {
    None => 1_024,
    Some(text) => match text.as_bytes() {
        b"16" => 16,
        b"64" => 64,
        b"256" => 256,
        b"1024" => 1_024,
        _ => panic!("ABR_CONNECTIONS must be 16, 64, 256 or 1024"),
    },
};

/// The most comparisons of a call, one for each level of matches between so many.
pub const COMPARISONS_MAX: u32 = CONNECTIONS_MAX.ilog2();

#[cfg(test)]
mod tests {
    use super::*;

    #[test]
    fn ten_levels_with_1_024_leaves_and_two_fewer_in_each_smaller_edition() {
        let editions = [(1_024, 10), (256, 8), (64, 6), (16, 4)];
        assert!(editions.contains(&(CONNECTIONS_MAX, COMPARISONS_MAX)));
    }
}
