//! The reader's number.

#[test]
fn the_number_of_this_landing() {
    assert_eq!(urthmoli::version(), 4);
}
