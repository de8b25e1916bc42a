//! Numbers as they are read and put.

/// The number of a text: decimal, or 0x and hexadecimal digits; 32 bits. Otherwise what is wrong with it.
///
/// ```
/// # use command::numbers;
/// assert_eq!(numbers::of("300"), Ok(300));
/// assert_eq!(numbers::of("0x12c"), Ok(300));
/// assert_eq!(numbers::of("0xFFFFFFFF"), Ok(4_294_967_295));
/// assert!(numbers::of("4294967296").unwrap_err().contains("too large"));
/// assert!(numbers::of("1_000").unwrap_err().contains("not a number"));
/// assert!(numbers::of("+1").unwrap_err().contains("not a number"));
/// ```
pub fn of(text: &str) -> Result<u32, String> {
    let (digits, radix) = match text.strip_prefix("0x").or(text.strip_prefix("0X")) {
        Some(digits) => (digits, 16),
        None => (text, 10),
    };
    if digits.is_empty() || !digits.chars().all(|digit| digit.is_digit(radix)) {
        return Err(format!(
            "'{}' is not a number; a number is decimal, or 0x and hexadecimal digits",
            text.escape_debug()
        ));
    }
    u32::from_str_radix(digits, radix).map_err(|_| {
        format!("{text} is too large; the largest number is 4294967295 (0xffffffff, 32 bits)")
    })
}

/// Puts a number in decimal.
///
/// ```
/// # use command::numbers;
/// let mut line = Vec::new();
/// numbers::put(&mut line, 4_294_967_295);
/// line.push(b' ');
/// numbers::put(&mut line, 0);
/// assert_eq!(line, b"4294967295 0");
/// ```
pub fn put(line: &mut Vec<u8>, number: u32) {
    let mut digits = [0; 10];
    let mut start = digits.len();
    let mut rest = number;
    loop {
        start -= 1;
        digits[start] = b'0' + (rest % 10) as u8;
        rest /= 10;
        if rest == 0 {
            break;
        }
    }
    line.extend_from_slice(&digits[start..]);
}

/// Puts numbers joined by a separator.
///
/// ```
/// # use command::numbers;
/// let mut line = Vec::new();
/// numbers::put_joined(&mut line, &[3, 17, 200], b',');
/// assert_eq!(line, b"3,17,200");
/// ```
pub fn put_joined(line: &mut Vec<u8>, numbers: &[u32], separator: u8) {
    for (index, &number) in numbers.iter().enumerate() {
        if index > 0 {
            line.push(separator);
        }
        put(line, number);
    }
}

/// Puts a number as 0x and eight hexadecimal digits.
///
/// ```
/// # use command::numbers;
/// let mut line = Vec::new();
/// numbers::put_hex(&mut line, 300);
/// assert_eq!(line, b"0x0000012c");
/// ```
pub fn put_hex(line: &mut Vec<u8>, number: u32) {
    const DIGITS: &[u8; 16] = b"0123456789abcdef";
    line.extend_from_slice(b"0x");
    for byte in number.to_be_bytes() {
        line.push(DIGITS[usize::from(byte >> 4)]);
        line.push(DIGITS[usize::from(byte & 15)]);
    }
}

/// A number with a comma before each group of three digits.
///
/// ```
/// # use command::numbers;
/// assert_eq!(numbers::grouped(16_777_216), "16,777,216");
/// assert_eq!(numbers::grouped(999), "999");
/// ```
pub fn grouped(number: u64) -> String {
    let digits = number.to_string();
    let mut text = String::new();
    for (index, digit) in digits.chars().enumerate() {
        if index > 0 && (digits.len() - index) % 3 == 0 {
            text.push(',');
        }
        text.push(digit);
    }
    text
}

/// Numbers joined by a separator.
///
/// ```
/// # use command::numbers;
/// assert_eq!(numbers::joined(&[3, 4], "x"), "3x4");
/// ```
pub fn joined(numbers: &[u32], separator: &str) -> String {
    let texts: Vec<String> = numbers.iter().map(u32::to_string).collect();
    texts.join(separator)
}
