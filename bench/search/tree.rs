//! Bound trees in plain Rust.

use crate::slots::End;

#[derive(Debug)]
pub enum Tree {
    Overload(u16),
    Split { class: u8, m: u16, below: Box<Tree>, from: Box<Tree> },
    Cut { set: u16, needed: u8, children: Vec<Tree> },
    Close { children: Vec<Tree> },
    Open,
}

impl Tree {
    pub fn children(&self) -> Vec<&Tree> {
        match self {
            Tree::Overload(_) | Tree::Open => Vec::new(),
            Tree::Split { below, from, .. } => vec![below, from],
            Tree::Cut { children, .. } | Tree::Close { children } => children.iter().collect(),
        }
    }

    /// How many nodes are not `Open`.
    pub fn nodes(&self) -> u32 {
        let own = u32::from(!matches!(self, Tree::Open));
        own + self.children().into_iter().map(Tree::nodes).sum::<u32>()
    }

    pub fn depth(&self) -> u32 {
        1 + self.children().into_iter().map(Tree::depth).max().unwrap_or(0)
    }

    pub fn has_open(&self) -> bool {
        matches!(self, Tree::Open) || self.children().into_iter().any(Tree::has_open)
    }

    /// The tree as certificates of versions 2 and 4 spell it.
    fn write(&self, bytes: &mut Vec<u8>) {
        match self {
            Tree::Overload(set) => {
                bytes.push(0);
                bytes.extend(set.to_be_bytes());
            }
            Tree::Split { class, m, .. } => {
                bytes.extend([1, *class]);
                bytes.extend(m.to_be_bytes());
            }
            Tree::Cut { set, needed, children } => {
                bytes.push(2);
                bytes.extend(set.to_be_bytes());
                bytes.push(*needed);
                bytes.extend((children.len() as u16).to_be_bytes());
            }
            Tree::Open => bytes.push(3),
            Tree::Close { children } => bytes.extend([4, children.len() as u8]),
        }
        for child in self.children() {
            child.write(bytes);
        }
    }

    /// The certificate of the tree for so many batches, in the version of the end.
    pub fn certificate(&self, end: End, batches: u32) -> Vec<u8> {
        let mut bytes = match end {
            End::Open => b"PCB2\0".to_vec(),
            End::Closed => b"PCB2\x01".to_vec(),
            End::Idle => b"PCB4".to_vec(),
        };
        bytes.extend(batches.to_be_bytes());
        self.write(&mut bytes);
        bytes
    }
}
