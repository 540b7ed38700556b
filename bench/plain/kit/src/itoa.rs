//! Integers as text.

/// As many bytes as the longest integer has.
const MAX_LEN: usize = 40;

/// The numbers below 100, two digits each.
static PAIRS: [u8; 200] = *b"\
    0001020304050607080910111213141516171819\
    2021222324252627282930313233343536373839\
    4041424344454647484950515253545556575859\
    6061626364656667686970717273747576777879\
    8081828384858687888990919293949596979899";

/// Writes two digits.
#[inline(always)]
fn write_pair(pair: u64, buffer: &mut [u8], at: usize) {
    let from = pair as usize * 2;
    let (tens, ones) = (PAIRS[from], PAIRS[from + 1]);
    buffer[at] = tens;
    buffer[at + 1] = ones;
}

/// Writes the digits of a number before the end, and answers where they begin.
#[inline]
pub fn write_digits(number: u64, buffer: &mut [u8], end: usize) -> usize {
    let (mut left, mut at) = (number, end);
    while left >= 10_000 {
        let four = left % 10_000;
        left /= 10_000;
        write_pair(four % 100, buffer, at - 2);
        write_pair(four / 100, buffer, at - 4);
        at -= 4;
    }
    write_short(left, buffer, at)
}

/// Writes at most four digits.
#[inline(always)]
fn write_short(number: u64, buffer: &mut [u8], end: usize) -> usize {
    if number < 100 {
        return write_first(number, buffer, end);
    }
    write_pair(number % 100, buffer, end - 2);
    write_first(number / 100, buffer, end - 2)
}

/// Writes the first one or two digits.
#[inline(always)]
fn write_first(number: u64, buffer: &mut [u8], end: usize) -> usize {
    if number < 10 {
        buffer[end - 1] = b'0' + number as u8;
        return end - 1;
    }
    write_pair(number, buffer, end - 2);
    end - 2
}

/// An integer that can be written.
pub trait Integer: Copy {
    /// Writes it at the end, and answers where it begins.
    fn write(self, buffer: &mut [u8; MAX_LEN]) -> usize;
}

macro_rules! unsigned {
    ($($type:ty)*) => {
        $(impl Integer for $type {
            #[inline]
            fn write(self, buffer: &mut [u8; MAX_LEN]) -> usize {
                write_digits(self as u64, buffer, MAX_LEN)
            }
        })*
    };
}

macro_rules! signed {
    ($($type:ty)*) => {
        $(impl Integer for $type {
            #[inline]
            fn write(self, buffer: &mut [u8; MAX_LEN]) -> usize {
                let start = write_digits((self as i64).unsigned_abs(), buffer, MAX_LEN);
                if self >= 0 {
                    return start;
                }
                buffer[start - 1] = b'-';
                start - 1
            }
        })*
    };
}

unsigned!(u8 u16 u32 u64 usize);
signed!(i8 i16 i32 i64 isize);

/// Room for an integer.
pub struct Buffer {
    bytes: [u8; MAX_LEN],
}

impl Buffer {
    #[inline]
    pub fn new() -> Buffer {
        Buffer {
            bytes: [0; MAX_LEN],
        }
    }

    #[inline]
    pub fn format<I: Integer>(&mut self, number: I) -> &str {
        let start = number.write(&mut self.bytes);
        // SAFETY: they are digits and a sign.
        unsafe { std::str::from_utf8_unchecked(&self.bytes[start..]) }
    }
}
