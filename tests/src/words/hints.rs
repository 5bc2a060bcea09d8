//! What the program says to standard error beside its answer, where a file is not what it was taken for.
#![forbid(unsafe_code)]

use super::wrong::visible;

/// Of a file with these bytes in the place of a section: that it is ELF, empty, or of another version than 2.
pub fn of_file(file: &str, bytes: &[u8]) -> String {
    let visible = visible(file.as_bytes());
    let (file, program) = if file == "-" { ("standard input", "PROGRAM") } else { (&visible[..], &visible[..]) };
    match bytes {
        [] => format!(
            "sframe: {file} is empty: was it taken from a program that has no .sframe section? \
             'readelf -SW PROGRAM' lists its sections\n"
        ),
        [0x7f, b'E', b'L', b'F', ..] => format!(
            "sframe: {file} is an ELF file, not the bytes of a section. Its section is taken out by\n    \
             objcopy -O binary --only-section=.sframe {program} section.sframe\n"
        ),
        [0xe2, 0xde, version, ..] | [0xde, 0xe2, version, ..] if *version != 2 => format!(
            "sframe: {file} is a section of version {version}, and version 2 is read, which GNU binutils 2.41 to 2.45 \
             write\n"
        ),
        _ => String::new(),
    }
}

/// Where a lookup in this section comes to this number: behind 22, that no start is filled in.
pub fn of_number(section: &[u8], number: u64) -> String {
    let field = |entry: usize| {
        let place = 28 + usize::from(*section.get(7)?) + 20 * entry;
        section.get(place..place + 4)
    };
    if number == 22 && [0, 1].iter().all(|entry| field(*entry) == Some(&[0; 4][..])) {
        return "sframe: no start is filled in, as in an object file that is not linked: take the section from the \
                linked program\n"
            .to_string();
    }
    String::new()
}

/// Of a run that was asked about this file, by what it said.
pub fn beside(file: &str, section: &[u8], said: &str) -> String {
    let number = if said.starts_with("refused: 22, ") { 22 } else { 0 };
    of_file(file, section) + &of_number(section, number)
}

#[cfg(test)]
mod tests {
    use super::*;
    use crate::cases::S;

    #[test]
    fn a_file_is_told_by_its_first_bytes() {
        assert_eq!([of_file("a", &S), of_file("a", b"\x7fELO"), of_file("a", &[0xe2, 0xde])].concat(), "");
        assert!(of_file("a", b"").starts_with("sframe: a is empty: "));
        let elf = of_file("a\n", b"\x7fELF");
        assert!(elf.contains("\n    objcopy -O binary --only-section=.sframe a\\x0a section.sframe\n"), "{elf}");
        let piped = of_file("-", b"\x7fELF");
        assert!(piped.starts_with("sframe: standard input is an ELF file"), "{piped}");
        assert!(piped.ends_with(" --only-section=.sframe PROGRAM section.sframe\n"), "{piped}");
        let other = [[0xe2, 0xde, 1], [0xde, 0xe2, 3]].map(|section| of_file("a", &section));
        let said = |version| format!("sframe: a is a section of version {version}, and version 2 is read");
        assert!((1..).step_by(2).zip(&other).all(|(version, text)| text.starts_with(&said(version))), "{other:?}");
    }

    #[test]
    fn a_dispute_in_a_section_that_is_not_linked_is_told() {
        let mut unlinked = S;
        unlinked[28..32].fill(0);
        assert_eq!(of_number(&unlinked, 22), "");
        unlinked[48..52].fill(0);
        assert!(of_number(&unlinked, 22).starts_with("sframe: no start is filled in"));
        assert_eq!([of_number(&unlinked, 21), of_number(&S, 22), of_number(&[], 22)].concat(), "");
    }
}
