//! Numbers as people read them.

/// With a comma before each three digits.
pub fn grouped(number: u64) -> String {
    let digits = number.to_string();
    let mut grouped = String::new();
    for (place, digit) in digits.chars().enumerate() {
        if place > 0 && (digits.len() - place).is_multiple_of(3) {
            grouped.push(',');
        }
        grouped.push(digit);
    }
    grouped
}

/// So many of something, whose name is given for one.
pub fn counted(number: u64, name: &str) -> String {
    let plural = if number == 1 { "" } else { "s" };
    format!("{} {name}{plural}", grouped(number))
}

/// The share that a part is of a whole, to the nearest thousandth; that of nothing is 0.
pub fn share(part: u64, whole: u64) -> String {
    let thousandths = (1_000 * part + whole / 2).checked_div(whole).unwrap_or_default();
    format!("{}.{:03}", grouped(thousandths / 1_000), thousandths % 1_000)
}

/// The mean of so many numbers that have this sum, to the nearest thousandth; that of none is 0.
pub fn mean(sum: u64, count: u64) -> String {
    share(sum, count)
}
