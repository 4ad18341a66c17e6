//! Data, index and modify registers, and universal codes: a wrapper each.

use crate::{Error, VisaError};

/// A data register, R0 to R15. Fn is the same register as Rn.
///
/// ```
/// use lhodrupesh::{Error, Register};
///
/// assert_eq!(Register::new(15).map(Register::index), Ok(15));
/// assert_eq!(Register::new(16), Err(Error::InvalidRegister(16)));
/// ```
#[derive(Debug, Clone, Copy, PartialEq, Eq, Hash)]
pub struct Register(u8);

impl Register {
    /// The register of this number.
    ///
    /// ```
    /// assert!(lhodrupesh::Register::new(0).is_ok());
    /// ```
    pub const fn new(index: u8) -> Result<Self, Error> {
        if index < 16 {
            Ok(Self(index))
        } else {
            Err(Error::InvalidRegister(index))
        }
    }

    /// Its number.
    ///
    /// ```
    /// assert_eq!(lhodrupesh::Register::new(3)?.index(), 3);
    /// # Ok::<(), lhodrupesh::Error>(())
    /// ```
    pub const fn index(self) -> u8 {
        self.0
    }
}

/// An index register, I0 to I15: I0 to I7 of DAG1 (DM), I8 to I15 of DAG2 (PM).
///
/// ```
/// assert!(lhodrupesh::IndexRegister::new(16).is_err());
/// ```
#[derive(Debug, Clone, Copy, PartialEq, Eq)]
pub struct IndexRegister(Register);

impl IndexRegister {
    /// The register of this number.
    ///
    /// ```
    /// assert!(lhodrupesh::IndexRegister::new(15).is_ok());
    /// ```
    pub const fn new(index: u8) -> Result<Self, Error> {
        match Register::new(index) {
            Ok(register) => Ok(Self(register)),
            Err(error) => Err(error),
        }
    }

    /// Its number.
    ///
    /// ```
    /// assert_eq!(lhodrupesh::IndexRegister::new(6)?.index(), 6);
    /// # Ok::<(), lhodrupesh::Error>(())
    /// ```
    pub const fn index(self) -> u8 {
        self.0.index()
    }
}

/// A modify register, M0 to M15: M0 to M7 of DAG1 (DM), M8 to M15 of DAG2 (PM).
///
/// ```
/// assert!(lhodrupesh::ModifyRegister::new(16).is_err());
/// ```
#[derive(Debug, Clone, Copy, PartialEq, Eq)]
pub struct ModifyRegister(Register);

impl ModifyRegister {
    /// The register of this number.
    ///
    /// ```
    /// assert!(lhodrupesh::ModifyRegister::new(15).is_ok());
    /// ```
    pub const fn new(index: u8) -> Result<Self, Error> {
        match Register::new(index) {
            Ok(register) => Ok(Self(register)),
            Err(error) => Err(error),
        }
    }

    /// Its number.
    ///
    /// ```
    /// assert_eq!(lhodrupesh::ModifyRegister::new(7)?.index(), 7);
    /// # Ok::<(), lhodrupesh::Error>(())
    /// ```
    pub const fn index(self) -> u8 {
        self.0.index()
    }
}

/// A universal code: R 0x00, I 0x10, M 0x20, L 0x30, B 0x40 or S 0x50, plus the number.
///
/// ```
/// use lhodrupesh::{IndexRegister, ModifyRegister, Register, UniversalRegister};
///
/// assert_eq!(UniversalRegister::from(Register::new(2)?).code(), 0x02);
/// assert_eq!(UniversalRegister::from(IndexRegister::new(2)?).code(), 0x12);
/// assert_eq!(UniversalRegister::from(ModifyRegister::new(2)?).code(), 0x22);
/// # Ok::<(), lhodrupesh::Error>(())
/// ```
#[derive(Debug, Clone, Copy, PartialEq, Eq)]
pub struct UniversalRegister(u8);

impl UniversalRegister {
    /// The register of this code.
    ///
    /// ```
    /// use lhodrupesh::{UniversalRegister, VisaError};
    ///
    /// let refused = UniversalRegister::new(0x60);
    /// assert_eq!(refused, Err(VisaError::InvalidUniversalRegister(0x60)));
    /// ```
    pub const fn new(code: u8) -> Result<Self, VisaError> {
        if code < 0x60 {
            Ok(Self(code))
        } else {
            Err(VisaError::InvalidUniversalRegister(code))
        }
    }

    /// Its code.
    ///
    /// ```
    /// assert_eq!(lhodrupesh::UniversalRegister::new(0x5f)?.code(), 0x5f);
    /// # Ok::<(), lhodrupesh::VisaError>(())
    /// ```
    pub const fn code(self) -> u8 {
        self.0
    }
}

impl From<Register> for UniversalRegister {
    fn from(register: Register) -> Self {
        Self(register.index())
    }
}

impl From<IndexRegister> for UniversalRegister {
    fn from(register: IndexRegister) -> Self {
        Self(0x10 + register.index())
    }
}

impl From<ModifyRegister> for UniversalRegister {
    fn from(register: ModifyRegister) -> Self {
        Self(0x20 + register.index())
    }
}
