//! Which service numbers exist. Follows document 02, item 5: a SAPI of TS 44.064 is assigned to
//! somebody or reserved.

/// Whom each number of four bits belongs to, at its place; nobody where it is reserved.
const OWNERS: [Option<&str>; 16] = [
    None,
    Some("GMM"),
    Some("TOM 2"),
    Some("user data"),
    None,
    Some("user data"),
    None,
    Some("SMS"),
    Some("TOM 8"),
    Some("user data"),
    None,
    Some("user data"),
    None,
    None,
    None,
    None,
];

/// A number that four bits cannot tell belongs to nobody.
pub fn is_assigned(sapi: u8) -> bool {
    OWNERS.get(usize::from(sapi)).is_some_and(Option::is_some)
}

pub fn assigned() -> Vec<u8> {
    (0..=u8::MAX).filter(|&sapi| is_assigned(sapi)).collect()
}

#[cfg(test)]
mod tests {
    use super::*;

    #[test]
    fn the_eight_numbers_of_item_5() {
        assert_eq!(assigned(), [1, 2, 3, 5, 7, 8, 9, 11]);
        let users = |owner: &&Option<&str>| **owner == Some("user data");
        assert_eq!(OWNERS.iter().filter(users).count(), 4);
    }
}
