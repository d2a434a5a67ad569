//! Stand-in for the part of `clvm_traits` and `clvmr` that `from_parts` uses: an allocator of
//! atoms, and the atom of a `u64`.

#[derive(Debug)]
pub struct ToClvmError;

#[derive(Clone, Copy)]
pub struct NodePtr(usize);

pub trait ClvmEncoder {
    type Node;
    fn encode_atom(&mut self, bytes: &[u8]) -> Result<Self::Node, ToClvmError>;
}

pub trait ToClvm<E: ClvmEncoder> {
    fn to_clvm(&self, encoder: &mut E) -> Result<<E as ClvmEncoder>::Node, ToClvmError>;
}

#[derive(Default)]
pub struct Allocator(Vec<Vec<u8>>);

impl Allocator {
    pub fn atom(&self, node: NodePtr) -> &[u8] {
        &self.0[node.0]
    }
}

#[derive(Default)]
pub struct AllocEncoder(Allocator);

impl AllocEncoder {
    pub fn new() -> AllocEncoder {
        AllocEncoder::default()
    }

    pub fn allocator(&mut self) -> &mut Allocator {
        &mut self.0
    }
}

impl ClvmEncoder for AllocEncoder {
    type Node = NodePtr;

    fn encode_atom(&mut self, bytes: &[u8]) -> Result<NodePtr, ToClvmError> {
        self.0 .0.push(bytes.to_vec());
        Ok(NodePtr(self.0 .0.len() - 1))
    }
}

/// The shortest big-endian two's complement of the number; 0 is empty.
impl<E: ClvmEncoder> ToClvm<E> for u64 {
    fn to_clvm(&self, encoder: &mut E) -> Result<<E as ClvmEncoder>::Node, ToClvmError> {
        let bytes = self.to_be_bytes();
        let first = bytes.iter().position(|byte| *byte != 0).unwrap_or(8);
        let mut atom = Vec::new();
        if first < 8 && bytes[first] >= 0x80 {
            atom.push(0);
        }
        atom.extend_from_slice(&bytes[first..]);
        encoder.encode_atom(&atom)
    }
}
