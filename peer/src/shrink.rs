//! Shortening a script for as long as it keeps a property.

/// Leaves out lines, then bytes, in ever smaller runs, wherever `keeps` still holds without them.
pub fn shrink(script: &[u8], mut keeps: impl FnMut(&[u8]) -> bool) -> Vec<u8> {
    let lines = script.split_inclusive(|byte| *byte == b'\n').collect();
    let fewer = leave_out(lines, &mut keeps);
    leave_out(fewer.chunks(1).collect(), &mut keeps)
}

fn leave_out(mut parts: Vec<&[u8]>, keeps: &mut impl FnMut(&[u8]) -> bool) -> Vec<u8> {
    let mut run = parts.len().div_ceil(2);
    while run > 0 {
        let before = parts.len();
        let mut at = 0;
        while at < parts.len() {
            let end = parts.len().min(at + run);
            let rest = [&parts[..at], &parts[end..]].concat();
            if keeps(&rest.concat()) {
                parts = rest;
            } else {
                at = end;
            }
        }
        // Single parts are tried again until none can go.
        if run > 1 || parts.len() == before {
            run /= 2;
        }
    }
    parts.concat()
}

#[cfg(test)]
mod tests {
    use super::*;

    #[test]
    fn only_what_is_needed_is_left() {
        let script = b"show\ndo 1 1 look 7\n# x\ndo 1 2 take 7 9\nshow";
        let has = |text: &[u8], part: &[u8]| text.windows(part.len()).any(|window| window == part);
        let keeps = |text: &[u8]| has(text, b"look") && has(text, b"9");
        assert_eq!(shrink(script, keeps), b"look9");
    }

    #[test]
    fn nothing_goes_where_all_is_needed() {
        let script = b"do 1 1 look 7\nshow\n";
        assert_eq!(shrink(script, |text| text == script), script);
        assert_eq!(shrink(b"", |_| true), b"");
    }
}
