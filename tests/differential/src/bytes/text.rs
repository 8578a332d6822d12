//! Rules as text: the text of a tree, and the order in which a text's nodes are numbered.

use crate::bytes::rule::{Node, A, AND, AT_LEAST, AT_MOST, E, LABEL, NOT, OR, TRUE};

/// The text of the tree under the last node.
pub fn text(nodes: &[Node]) -> Vec<u8> {
    let mut text = Vec::new();
    put(nodes, nodes.len() - 1, &mut text);
    text
}

fn put(nodes: &[Node], t: usize, text: &mut Vec<u8>) {
    let node = nodes[t];
    match node.operation {
        TRUE => text.extend(b"true"),
        LABEL => text.extend(format!("L{}", node.a).bytes()),
        NOT => {
            text.push(b'!');
            put(nodes, node.a.into(), text);
        }
        _ => {
            text.extend(opening(node));
            put(nodes, node.a.into(), text);
            text.extend(between(node).bytes());
            put(nodes, node.b.into(), text);
            text.push(b')');
        }
    }
}

fn opening(node: Node) -> &'static [u8] {
    match node.operation {
        E => b"E(",
        A => b"A(",
        _ => b"(",
    }
}

fn between(node: Node) -> String {
    match (node.operation, node.kind) {
        (AND, _) => " & ".into(),
        (OR, _) => " | ".into(),
        (_, AT_MOST) => format!(" U<={} ", node.c),
        (_, AT_LEAST) => format!(" U>={} ", node.c),
        _ => format!(" U=={} ", node.c),
    }
}

/// The same tree, operands before their node and the left one whole before the right one.
pub fn left_first(nodes: &[Node]) -> Vec<Node> {
    let mut placed = Vec::with_capacity(nodes.len());
    place(nodes, nodes.len() - 1, &mut placed);
    placed
}

fn place(nodes: &[Node], t: usize, placed: &mut Vec<Node>) -> u16 {
    let mut node = nodes[t];
    if node.operands() > 0 {
        node.a = place(nodes, node.a.into(), placed);
    }
    if node.operands() > 1 {
        node.b = place(nodes, node.b.into(), placed);
    }
    placed.push(node);
    placed.len() as u16 - 1
}

#[cfg(test)]
mod tests {
    use super::{left_first, text};
    use crate::bytes::rule::{node, plain, Node, A, AND, E, LABEL, NOT, OR, TRUE};

    fn told(nodes: &[Node]) -> String {
        String::from_utf8(text(nodes)).unwrap()
    }

    #[test]
    fn each_operation() {
        let (yes, label) = (plain(TRUE, 0, 0), |number| plain(LABEL, number, 0));
        assert_eq!(told(&[yes]), "true");
        assert_eq!(told(&[label(15), plain(NOT, 0, 0)]), "!L15");
        assert_eq!(told(&[label(0), yes, plain(AND, 0, 1)]), "(L0 & true)");
        assert_eq!(told(&[label(0), yes, plain(OR, 1, 0)]), "(true | L0)");
        assert_eq!(told(&[yes, label(2), node(A, 1, 0, 1, 14)]), "A(true U<=14 L2)");
        assert_eq!(told(&[yes, label(2), node(E, 2, 1, 0, 0)]), "E(L2 U>=0 true)");
        assert_eq!(told(&[yes, label(2), node(A, 3, 0, 1, 255)]), "A(true U==255 L2)");
    }

    #[test]
    fn the_left_operand_comes_first() {
        let (yes, label) = (plain(TRUE, 0, 0), plain(LABEL, 3, 0));
        let mixed = [label, yes, plain(NOT, 0, 0), plain(NOT, 1, 0), plain(OR, 3, 2)];
        let placed = [yes, plain(NOT, 0, 0), label, plain(NOT, 2, 0), plain(OR, 1, 3)];
        assert_eq!(left_first(&mixed), placed);
        assert_eq!(left_first(&placed), placed);
        assert_eq!((text(&mixed), told(&placed)), (text(&placed), "(!true | !L3)".into()));
    }
}
