//! Whether two single ARIs are the same (request (iv)): item by item, with no regard to how
//! long a head is, nor to the case of letters in namespace names, object types and object
//! ids.

use crate::head::Kind;
use crate::{walk_single, Limits, Refusal, Visitor};

/// "refusals: the first's, then the second's"
pub fn same(first: &[u8], second: &[u8], limits: &Limits) -> Result<bool, Refusal> {
    let first = compared(first, limits)?;
    Ok(first == compared(second, limits)?)
}

/// What is compared of an ARI: of each item its kind with its number or length, and of a
/// string its bytes.
type Compared = Vec<(Kind, Vec<u8>)>;

fn compared(input: &[u8], limits: &Limits) -> Result<Compared, Refusal> {
    let mut items = Items { input, compared: Vec::new(), open: Vec::new() };
    walk_single(input, limits, &mut items)?;
    Ok(items.compared)
}

struct Items<'a> {
    input: &'a [u8],
    compared: Compared,
    /// Of each open container: whether it is a reference, and its members so far.
    open: Vec<(bool, usize)>,
}

impl Items<'_> {
    /// Whether the item that comes is one of the first three members of a reference: its
    /// namespace, its type or its id. Counts it as a member.
    fn is_name_due(&mut self) -> bool {
        let Some((reference, members)) = self.open.last_mut() else { return false };
        *members += 1;
        *reference && *members <= 3
    }
}

impl Visitor for Items<'_> {
    type Mark = ();

    fn leaf(&mut self, _: usize, after: usize, _: usize, kind: Kind) {
        let due = self.is_name_due();
        let length = match kind {
            Kind::Bytes(length) | Kind::Text(length) => length as usize,
            _ => 0,
        };
        let mut string = self.input[after - length..after].to_vec();
        if due {
            for byte in &mut string {
                // "A to Z and a to z are alike"
                *byte = match *byte {
                    small @ b'a'..=b'z' => small - b'a' + b'A',
                    other => other,
                };
            }
        }
        self.compared.push((kind, string));
    }

    fn open(&mut self, _: usize, _: usize, kind: Kind, reference: bool) {
        self.is_name_due();
        self.compared.push((kind, Vec::new()));
        self.open.push((reference, 0));
    }

    fn close(&mut self, _: (), _: usize) {
        self.open.pop();
    }
}
