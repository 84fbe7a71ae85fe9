//! The words that the programs have for a refusal.

/// Numbers 1 to 10: the words, and what the place counts.
const NUMBERS: [(&str, &str); 10] = [
    ("under 4 bytes", ""),
    ("a header byte against its rule", ""),
    ("file ends inside the contents", ""),
    ("array length or their total against its rule", "array"),
    (
        "body entry: fourth byte not zero, more declarations than records, \
         declarations in body 0 or total too large",
        "body",
    ),
    ("file length not as the contents say", ""),
    ("check bytes wrong", ""),
    ("a field against its rule", "record"),
    ("kind not allowed there", "record"),
    ("arm past the end of what holds it, or nested too deep", "record"),
];

/// The words of a refusal with its place.
pub fn refusal(number: u16, place: usize) -> String {
    match number {
        11 => "judge or expand without kind 1, check, run or log without kind 2".into(),
        20 => "over 65,536 choices".into(),
        23 => "first not below end, or end past the shortest memory".into(),
        24 => "neither side wholly current".into(),
        25 => "no such body".into(),
        26 => format!("along some nesting the product of the counts passes 4,096, record {place}"),
        29 => "odd length".into(),
        38 => "n above 24".into(),
        _ => match NUMBERS[number as usize - 1] {
            (words, "") => words.into(),
            (words, counts) => format!("{words}, {counts} {place}"),
        },
    }
}
