//! Document 02, wish 7: the Rust's `Encoding` comes from a register's constructor, where the number is
//! 2, and from no value that was made. So 3 is not used.

use qc_asm::{IndexRegister, ModifyRegister, Register, VisaError};
use visa_oracle::every_row;
use visa_oracle::one::one;
use visa_oracle::reading::{self, Item};
use visa_oracle::row::row;

fn is_encoding(error: &VisaError) -> bool {
    matches!(error, VisaError::Encoding(_))
}

#[test]
fn a_constructor_s_encoding_is_refusal_2() {
    for index in 16..=u8::MAX {
        let errors = [
            Register::new(index).map(|_| ()),
            IndexRegister::new(index).map(|_| ()),
            ModifyRegister::new(index).map(|_| ()),
        ];
        for error in errors {
            assert!(is_encoding(&VisaError::from(error.unwrap_err())), "{index}");
        }
        for fields in [[25, index.into(), 0, 0], [19, 0, index.into(), 0], [19, 0, 0, index.into()]] {
            assert_eq!(one(&row(&fields)).number, 2, "{fields:?}");
        }
    }
}

#[test]
fn a_value_that_was_made_gives_none() {
    let (mut good, mut refused) = (0, 0);
    every_row::each(&mut |row| {
        let Ok(Item::Instruction(instruction)) = reading::item(row, 0) else { return };
        for error in [instruction.parcels().err(), instruction.encode().err()] {
            assert!(!error.as_ref().is_some_and(is_encoding), "{row:?}: {error:?}");
            *(if error.is_none() { &mut good } else { &mut refused }) += 1;
        }
    });
    assert!(good > 100_000 && refused > 100_000, "{good} and {refused}");
}
