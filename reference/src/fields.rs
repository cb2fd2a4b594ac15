//! The fields of calls and records: each type holds good values only, so a call that has one need not ask again.

/// The number a numeric field holds: it holds digits only.
pub fn digits(field: &[u8]) -> Option<u64> {
    let mut number = 0;
    for &byte in field {
        if !byte.is_ascii_digit() {
            return None;
        }
        number = number * 10 + u64::from(byte - b'0');
    }
    Some(number)
}

/// Writes a number zero-filled over the whole field.
pub fn put_number(field: &mut [u8], mut number: u64) {
    for byte in field.iter_mut().rev() {
        *byte = b'0' + (number % 10) as u8;
        number /= 10;
    }
}

/// Adds a number zero-filled to a width.
pub fn push_number(text: &mut Vec<u8>, width: usize, number: u64) {
    let from = text.len();
    text.resize(from + width, b'0');
    put_number(&mut text[from..], number);
}

/// Whole cents, 13 digits.
#[derive(Clone, Copy, Debug, PartialEq, Eq)]
pub struct Cents(pub u64);

/// Whole Ccf, 10 digits.
#[derive(Clone, Copy, Debug, PartialEq, Eq)]
pub struct Ccf(pub u64);

/// A Customer Account Number, 12 digits.
pub fn account(field: &[u8]) -> Option<u64> {
    if field.len() != 12 {
        return None;
    }
    digits(field)
}

/// Customer Account Number (12 digits) and Bill Key (4), side by side as one number of 16 digits.
#[derive(Clone, Copy, Debug, PartialEq, Eq, PartialOrd, Ord)]
pub struct Identity(u64);

impl Identity {
    pub fn read(account: &[u8], key: &[u8]) -> Option<Identity> {
        if key.len() != 4 {
            return None;
        }
        Some(Identity(self::account(account)? * 10_000 + digits(key)?))
    }

    pub fn account(self) -> u64 {
        self.0 / 10_000
    }

    pub fn key(self) -> u64 {
        self.0 % 10_000
    }
}

/// Two of A-Z or 0-9, then C, then two digits.
#[derive(Clone, Copy, Debug, PartialEq, Eq)]
pub struct RateCode([u8; 5]);

impl RateCode {
    pub fn read(field: &[u8]) -> Option<RateCode> {
        let code: [u8; 5] = field.try_into().ok()?;
        let marketer = |byte: u8| byte.is_ascii_uppercase() || byte.is_ascii_digit();
        let good = marketer(code[0])
            && marketer(code[1])
            && code[2] == b'C'
            && code[3].is_ascii_digit()
            && code[4].is_ascii_digit();
        good.then_some(RateCode(code))
    }

    pub fn bytes(&self) -> &[u8; 5] {
        &self.0
    }
}

#[derive(Clone, Copy, Debug, PartialEq, Eq)]
pub enum Product {
    BillReady,
    Prepay,
}

impl Product {
    pub fn read(byte: u8) -> Option<Product> {
        match byte {
            b'B' => Some(Product::BillReady),
            b'P' => Some(Product::Prepay),
            _ => None,
        }
    }

    pub fn letter(self) -> u8 {
        match self {
            Product::BillReady => b'B',
            Product::Prepay => b'P',
        }
    }
}
