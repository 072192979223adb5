//! Sizes as a sheet spells them, as CSS does, and as plain numbers.
use crate::limits;
use palgwern::Size;

/// The bits of a value in eight hexadecimal digits.
pub fn bits(value: f32) -> String {
    format!("{:08x}", value.to_bits())
}

/// The value of eight lower-case hexadecimal digits.
pub fn value(field: &[u8]) -> Option<f32> {
    let spelt = field.len() == 8 && field.iter().all(|byte| matches!(byte, b'0'..=b'9' | b'a'..=b'f'));
    let digits = std::str::from_utf8(field).ok()?;
    if spelt {
        u32::from_str_radix(digits, 16).ok().map(f32::from_bits)
    } else {
        None
    }
}

/// A whole number as a sheet spells it; numbers too long for one are outside every range.
pub fn whole(field: &[u8]) -> Option<i64> {
    let digits = field.strip_prefix(b"-").unwrap_or(field);
    let spelt = !digits.is_empty() && digits.iter().all(u8::is_ascii_digit) && (digits[0] != b'0' || field == b"0");
    if !spelt {
        return None;
    }
    let text = std::str::from_utf8(field).ok()?;
    Some(text.parse().unwrap_or(if field[0] == b'-' { i64::MIN } else { i64::MAX }))
}

/// The largest value of a kind.
pub fn largest(kind: &[u8]) -> f32 {
    match kind {
        b"auto" | b"min" | b"max" => 0.0,
        b"pct" | b"fitp" => limits::FRACTION,
        _ => limits::LENGTH,
    }
}

/// A size by the word of its kind.
pub fn size(kind: &[u8], value: f32) -> Option<Size> {
    Some(match kind {
        b"len" => Size::Length(value),
        b"pct" => Size::Percent(value),
        b"fr" => Size::Fraction(value),
        b"auto" => Size::Auto,
        b"min" => Size::MinContent,
        b"max" => Size::MaxContent,
        b"fitl" => Size::FitContentLength(value),
        b"fitp" => Size::FitContentPercent(value),
        _ => return None,
    })
}

/// The word of a size's kind, and its value.
pub fn parts(size: Size) -> (&'static str, f32) {
    match size {
        Size::Length(value) => ("len", value),
        Size::Percent(value) => ("pct", value),
        Size::Fraction(value) => ("fr", value),
        Size::Auto => ("auto", 0.0),
        Size::MinContent => ("min", 0.0),
        Size::MaxContent => ("max", 0.0),
        Size::FitContentLength(value) => ("fitl", value),
        Size::FitContentPercent(value) => ("fitp", value),
    }
}

/// A size as two fields of a sheet.
pub fn fields(size: Size) -> String {
    let (kind, value) = parts(size);
    format!("{kind}\t{}", bits(value))
}

/// A fraction as a percentage, in the fewest digits that give it back.
pub fn percentage(fraction: f32) -> String {
    let text = format!("{fraction:e}");
    let (digits, exponent) = text.split_once('e').unwrap_or((&text, "0"));
    let point = digits.find('.').unwrap_or(digits.len()) as i32 + exponent.parse::<i32>().unwrap_or(0) + 2;
    let digits = digits.replace('.', "");
    let plain = match point {
        ..=0 => format!("0.{}{digits}", "0".repeat(-point as usize)),
        _ if point as usize >= digits.len() => format!("{digits}{}", "0".repeat(point as usize - digits.len())),
        _ => format!("{}.{}", &digits[..point as usize], &digits[point as usize..]),
    };
    let whole = plain.trim_start_matches('0');
    format!("{}{whole}", if whole.is_empty() || whole.starts_with('.') { "0" } else { "" })
}

/// The fraction that a percentage says.
pub fn fraction(percentage: &str) -> Option<f32> {
    let (digits, exponent) = percentage.split_once(['e', 'E']).unwrap_or((percentage, "0"));
    format!("{digits}e{}", exponent.parse::<i32>().ok()? - 2).parse().ok()
}

/// A size as CSS writes it.
pub fn css_size(size: Size) -> String {
    match size {
        Size::Length(value) => format!("{value}px"),
        Size::Percent(value) => format!("{}%", percentage(value)),
        Size::Fraction(value) => format!("{value}fr"),
        Size::Auto => "auto".to_string(),
        Size::MinContent => "min-content".to_string(),
        Size::MaxContent => "max-content".to_string(),
        Size::FitContentLength(value) => format!("fit-content({value}px)"),
        Size::FitContentPercent(value) => format!("fit-content({}%)", percentage(value)),
    }
}

/// Whether a size is a length or a percentage.
pub fn is_fixed(size: Size) -> bool {
    matches!(size, Size::Length(_) | Size::Percent(_))
}

/// Whether a size is a limit of fit-content.
pub fn is_fit_content(size: Size) -> bool {
    matches!(size, Size::FitContentLength(_) | Size::FitContentPercent(_))
}

/// A track size as CSS writes it: one word where one says both ends.
pub fn css_track(minimum: Size, maximum: Size) -> String {
    let alone = minimum == maximum || minimum == Size::Auto && (is_fit_content(maximum) || matches!(maximum, Size::Fraction(_)));
    if alone {
        css_size(maximum)
    } else {
        format!("minmax({}, {})", css_size(minimum), css_size(maximum))
    }
}
