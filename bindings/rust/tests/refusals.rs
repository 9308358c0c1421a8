//! How a refusal reads.

use std::error::Error;

use brassdozen::Refusal;

/// `refusals.txt` has the number and the reason of each.
#[test]
fn refusals_read_as_the_table_has_them() {
    let table = include_str!("../../../refusals.txt");
    let mut last = 0;
    for line in table.lines() {
        let (number, why) = line.split_once(' ').expect("a number and a reason");
        let refusal = Refusal(number.parse().expect("a number"));
        assert_eq!(refusal.to_string(), format!("refused {number}: {why}"));
        assert!(refusal.0 > last);
        last = refusal.0;
    }
    assert!(last >= 16);
    for number in [0, last + 1, 255] {
        assert_eq!(Refusal(number).to_string(), format!("refused {number}"));
    }
}

#[test]
fn a_refusal_is_an_error() {
    fn fails() -> Result<(), Box<dyn Error>> {
        brassdozen::home(0xef00_0000)?;
        Ok(())
    }
    let why = fails().expect_err("a supervisor call is refused");
    assert_eq!(why.downcast_ref(), Some(&Refusal::NO_ROW));
}
