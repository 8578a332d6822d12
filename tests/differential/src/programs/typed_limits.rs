//! Named texts for desk_rule and rules for desk_text, with all that the two have to do: they and the oracle are held to
//! it.

use crate::bytes::rule::{self, node, plain, Node, A, AND, LABEL, NOT, TRUE};
use crate::named::rules::nots;
use crate::programs::files::Stored;
use crate::programs::typed::{Done, Typed};
use crate::random::long_texts::{longest_of_64, under_nots};

type List = Vec<Typed>;

/// What is typed where there is no desk.rul yet.
fn add(list: &mut List, name: &str, pieces: Vec<Vec<u8>>, written: Done) {
    add_over(list, name, Stored::Missing, pieces, written);
}

fn add_over(list: &mut List, name: &str, before: Stored, pieces: Vec<Vec<u8>>, written: Done) {
    let name = format!("typed: {name}");
    list.push(Typed { name, before, pieces: Some(pieces), written: Some(written) });
}

/// desk_rule prints nothing and writes the rule; desk_text tells it.
fn accepted(nodes: &[Node], text: &str) -> Done {
    Done { printed: Some(Vec::new()), file: Stored::Bytes(rule::bytes(nodes)), told: format!("{text}\n").into_bytes() }
}

/// desk_rule prints the refusal, the rule being wrong, what it has read, and a sign under the place; what lay there is
/// as it was, so nothing.
fn refused(number: u32, place: usize, shown: impl AsRef<[u8]>) -> Done {
    let (line, sign) = (format!("refused {number} at {place} 3\n"), format!("\n{}^\n", " ".repeat(place)));
    let printed = [line.as_bytes(), shown.as_ref(), sign.as_bytes()].concat();
    Done { printed: Some(printed), file: Stored::Missing, told: b"refused 10 at 0 3\n".to_vec() }
}

fn within_14() -> Vec<Node> {
    vec![plain(TRUE, 0, 0), plain(LABEL, 2, 0), node(A, 1, 0, 1, 14)]
}

fn once(text: impl AsRef<[u8]>) -> Vec<Vec<u8>> {
    vec![text.as_ref().to_vec()]
}

/// A newline at the end is none of the text, and only one.
fn newlines(list: &mut List) {
    let text = "A(true U<=14 L2)";
    add(list, "the paper's text", once(format!("{text}\n")), accepted(&within_14(), text));
    add(list, "no newline", once(text), accepted(&within_14(), text));
    add(list, "two newlines", once("true\n\n"), refused(64, 4, "true?"));
    add(list, "CR LF", once("true\r\n"), refused(64, 4, "true?"));
    add(list, "a newline before", once("\ntrue\n"), refused(64, 0, "?true"));
    add(list, "two lines", once("true\nL1\n"), refused(64, 4, "true?L1"));
    add(list, "nothing", Vec::new(), refused(64, 0, ""));
    add(list, "a newline alone", once("\n"), refused(64, 0, ""));
    add(list, "two newlines alone", once("\n\n"), refused(64, 0, "?"));
}

/// Whoever types pauses.
fn pieces(list: &mut List) {
    let typed = |pieces: &[&str]| pieces.iter().map(|piece| piece.as_bytes().to_vec()).collect();
    add(list, "in two pieces", typed(&["A(true U<=14", " L2)\n"]), accepted(&within_14(), "A(true U<=14 L2)"));
    add(list, "the newline late", typed(&["true", "\n"]), accepted(&[plain(TRUE, 0, 0)], "true"));
    add(list, "more after a newline", typed(&["true\n", "L1\n"]), refused(64, 4, "true?L1"));
}

fn refusals(list: &mut List) {
    add(list, "L16", once("L16\n"), refused(64, 2, "L16"));
    add(list, "L15", once("L15\n"), accepted(&[plain(LABEL, 15, 0)], "L15"));
    add(list, "a leading zero", once("A(true U<=007 L2)\n"), refused(64, 11, "A(true U<=007 L2)"));
    let exactly = |c| vec![plain(TRUE, 0, 0), plain(LABEL, 2, 0), node(A, 3, 0, 1, c)];
    add(list, "exactly 0", once("A(true U==0 L2)\n"), accepted(&exactly(0), "A(true U==0 L2)"));
    add(list, "exactly 255", once("A(true U==255 L2)\n"), accepted(&exactly(255), "A(true U==255 L2)"));
    add(list, "exactly 256", once("A(true U==256 L2)\n"), refused(64, 12, "A(true U==256 L2)"));
    add(list, "a single sign", once("A(true U=14 L2)\n"), refused(64, 9, "A(true U=14 L2)"));
    add(list, "a text that stops", once("A(true\n"), refused(64, 6, "A(true"));
    add(list, "a byte above 127", once(b"L\xB2\n"), refused(64, 1, b"L\xB2"));
    add(list, "bytes that can't be shown", once(b"!\0\x1F\x7F\x80\n"), refused(64, 1, b"!???\x80"));
    add(list, "64 nodes", once(under_nots(b"true\n", 68)), accepted(&nots(64), &nots_of(63, "true")));
    add(list, "65 nodes", once(under_nots(b"true\n", 69)), refused(65, 0, nots_of(64, "true")));
}

fn nots_of(count: usize, rest: &str) -> String {
    "!".repeat(count) + rest
}

/// 4,096 bytes and their newline are read; of more only the first 4,098 are, and a newline at the end of these is none.
fn lengths(list: &mut List) {
    let longest = nots_of(4_096, "");
    add(list, "4,096 bytes", once(&longest), refused(64, 4_096, &longest));
    add(list, "4,096 bytes and a newline", once(format!("{longest}\n")), refused(64, 4_096, &longest));
    add(list, "4,096 bytes and two newlines", once(format!("{longest}\n\n")), refused(65, 0, nots_of(4_096, "?")));
    let formula = under_nots(b"true", 4_096);
    add(list, "4,096 bytes of a formula", once([&formula[..], b"\n"].concat()), refused(65, 0, formula));
    for length in [4_097, 4_098] {
        let text = nots_of(length, "");
        add(list, &format!("{length} bytes"), once(&text), refused(65, 0, &text));
        add(list, &format!("{length} bytes and a newline"), once(format!("{text}\n")), refused(65, 0, &text));
    }
    add(list, "5,000 bytes", once(nots_of(5_000, "")), refused(65, 0, nots_of(4_098, "")));
    add(list, "70,000 bytes", once(nots_of(70_000, "\n")), refused(65, 0, nots_of(4_098, "")));
    let late = vec![nots_of(4_000, "").into_bytes(), nots_of(1_000, "").into_bytes()];
    add(list, "5,000 bytes in two pieces", late, refused(65, 0, nots_of(4_098, "")));
}

/// A file that is there is kept on a refusal, and wholly replaced by a rule.
fn files(list: &mut List) {
    let longer = || Stored::Bytes(rule::bytes(&longest_of_64()));
    let told = [crate::bytes::text::text(&longest_of_64()), b"\n".to_vec()].concat();
    let kept =
        |number, place, shown: &str| Done { file: longer(), told: told.clone(), ..refused(number, place, shown) };
    let one = || accepted(&[plain(TRUE, 0, 0)], "true");
    add_over(list, "true over a longer rule", longer(), once("true\n"), one());
    add_over(list, "true over a much longer file", Stored::Bytes(vec![7; 20_000]), once("true\n"), one());
    add_over(list, "true over an empty file", Stored::Bytes(vec![]), once("true\n"), one());
    let shorter = Stored::Bytes(rule::bytes(&[plain(TRUE, 0, 0)]));
    let text = "A(true U<=14 L2)";
    add_over(list, "three nodes over one", shorter, once(text), accepted(&within_14(), text));
    add_over(list, "64 over a rule", longer(), once("true \n"), kept(64, 4, "true "));
    let above = nots_of(64, "true");
    add_over(list, "65 over a rule", longer(), once(&above), kept(65, 0, &above));
    add_over(list, "nothing over a rule", longer(), Vec::new(), kept(64, 0, ""));
    let strange = Stored::Bytes(vec![7; 20_000]);
    let kept = Done { file: strange.clone(), told: b"refused 11 at 0 3\n".to_vec(), ..refused(64, 0, "x") };
    add_over(list, "64 over another file", strange, once("x\n"), kept);
}

/// desk_text alone: its text of a file.
fn told(list: &mut List, name: &str, file: Stored, text: &str) {
    let written = Done { printed: None, file: file.clone(), told: format!("{text}\n").into_bytes() };
    list.push(Typed { name: format!("told: {name}"), before: file, pieces: None, written: Some(written) });
}

fn texts(list: &mut List) {
    let of = |nodes: &[Node]| Stored::Bytes(rule::bytes(nodes));
    let text = String::from_utf8_lossy(&crate::bytes::text::text(&longest_of_64())).into_owned();
    assert_eq!(text.len(), 532);
    told(list, "64 nodes, 532 bytes", of(&longest_of_64()), &text);
    told(list, "63 nots", of(&nots(64)), &nots_of(63, "true"));
    told(
        list,
        "the right operand first",
        of(&[plain(LABEL, 1, 0), plain(TRUE, 0, 0), plain(AND, 1, 0)]),
        "(true & L1)",
    );
    told(list, "no file", Stored::Missing, "refused 10 at 0 3");
    told(list, "a folder", Stored::Folder, "refused 10 at 0 3");
    told(list, "an empty file", Stored::Bytes(vec![]), "refused 10 at 0 3");
}

/// Rows 10 to 16, and files that are longer than what is read.
fn rules(list: &mut List) {
    let three = rule::bytes(&within_14());
    let with = |at: usize, byte: u8| [&three[..at], &[byte], &three[at + 1..]].concat();
    let mut test = |name: &str, bytes: Vec<u8>, text: &str| told(list, name, Stored::Bytes(bytes), text);
    test("6 bytes", three[..6].to_vec(), "refused 10 at 0 3");
    test("version 2", with(0, 2), "refused 11 at 0 3");
    test("a byte cut", three[..30].to_vec(), "refused 12 at 0 3");
    test("two nodes stated", with(6, 2), "refused 13 at 0 3");
    test("label 16", with(18, 16), "refused 14 at 1 3");
    test("label 15", with(18, 15), "A(true U<=14 L15)");
    test("kind 3", with(24, 3), "A(true U==14 L2)");
    test("kind 4", with(24, 4), "refused 14 at 2 3");
    test("kind 3 with c = 270", [&with(24, 3)[..29], &[1, 14]].concat(), "refused 14 at 2 3");
    test("an operand that is its node", with(28, 2), "refused 15 at 2 3");
    test("an operand twice", with(28, 0), "refused 16 at 0 3");
    test("65 nodes", rule::bytes(&[plain(TRUE, 0, 0); 65]), "refused 12 at 0 3");
    test("a byte behind 64 nodes", [rule::bytes(&nots(64)), vec![0]].concat(), "refused 12 at 0 3");
    test("100 bytes behind 64 nodes", [rule::bytes(&nots(64)), vec![0; 100]].concat(), "refused 12 at 0 3");
    test("a not of itself", rule::bytes(&[plain(NOT, 0, 0)]), "refused 15 at 0 3");
}

pub fn all() -> List {
    let mut list = Vec::new();
    newlines(&mut list);
    pieces(&mut list);
    refusals(&mut list);
    lengths(&mut list);
    files(&mut list);
    texts(&mut list);
    rules(&mut list);
    list
}

#[cfg(test)]
mod tests {
    use super::all;

    #[test]
    fn no_name_and_no_text_twice() {
        let list = all();
        for (i, typed) in list.iter().enumerate() {
            let same = list[..i].iter().find(|other| {
                other.name == typed.name || (other.before == typed.before && other.pieces == typed.pieces)
            });
            assert!(same.is_none(), "{}", typed.name);
        }
    }

    #[test]
    fn the_oracle_does_what_is_written() {
        for typed in all() {
            assert_eq!(Some(typed.done()), typed.written, "{}", typed.name);
        }
    }
}
