//! Stands in for the crate `turso_macros` where speed counts: it makes nested matches, one byte after the other. The oracle's stand-in
//! compares with each arm in turn.
extern crate proc_macro;
use proc_macro::{Delimiter, Group, TokenStream, TokenTree};
use std::collections::BTreeMap;

/// What may follow the bytes read so far, and the value where the word ends here.
#[derive(Default)]
struct Node {
    next: BTreeMap<char, Node>,
    value: Option<String>,
}

/// `match word { b"A" => x, .., _ => other }`, without regard to the case of ASCII letters.
#[proc_macro]
pub fn match_ignore_ascii_case(input: TokenStream) -> TokenStream {
    let input: Vec<_> = input.into_iter().collect();
    let [_, word, TokenTree::Group(arms)] = &input[..] else { panic!("match NAME {{ .. }}") };
    let (mut root, mut other) = (Node::default(), String::new());
    for (text, value) in arms_of(arms) {
        match text.strip_prefix("b\"").and_then(|text| text.strip_suffix('"')) {
            Some(text) => text.chars().fold(&mut root, |node, c| node.next.entry(c).or_default()).value = Some(value),
            None => other = value,
        }
    }
    root.code(&word.to_string(), 0, &other).parse().unwrap()
}

/// The pattern and the value of each arm.
fn arms_of(arms: &Group) -> Vec<(String, String)> {
    assert_eq!(arms.delimiter(), Delimiter::Brace);
    let trees: Vec<_> = arms.stream().into_iter().map(|tree| tree.to_string()).collect();
    let arms = trees.split(|tree| tree == ",").filter(|arm| !arm.is_empty());
    arms.map(|arm| (arm[0].clone(), arm[3..].concat())).collect() // between them stand = and >
}

impl Node {
    fn code(&self, word: &str, place: usize, other: &str) -> String {
        let arm = |(c, node): (&char, &Node)| {
            let (low, deeper) = (c.to_ascii_lowercase(), node.code(word, place + 1, other));
            let same = if low == *c { String::new() } else { format!("| Some(b'{low}')") };
            format!("Some(b'{c}') {same} => {deeper},")
        };
        let arms: String = self.next.iter().map(arm).collect();
        let here = self.value.as_deref().unwrap_or(other);
        format!("match {word}.get({place}) {{ None => {here}, {arms} _ => {other} }}")
    }
}
