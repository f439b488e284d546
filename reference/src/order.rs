//! Needs within a tick, the house order and rule 15.

use crate::sheet::{check, refuse, Node, Refusal, Sheet, What};

/// The needs of every node: entry i lists the nodes that node i needs.
pub fn needs(sheet: &Sheet) -> Vec<Vec<usize>> {
    let nodes = sheet.nodes();
    nodes.iter().map(|node| needs_of(&nodes, node)).collect()
}

fn needs_of(nodes: &[&Node], node: &Node) -> Vec<usize> {
    match node.what {
        What::Const { .. } | What::Input { .. } | What::Fby { .. } => Vec::new(),
        What::Op { .. } | What::Rec { .. } => node.operands.iter().map(|o| o.number).collect(),
        What::Let | What::Check | What::Contract => vec![node.operands[1].number],
        What::Var { binder } => {
            let binder = nodes[binder as usize];
            match binder.what {
                What::Rec { .. } => vec![binder.number],
                What::Let => vec![binder.operands[0].number],
                What::Contract => vec![binder.operands[1].number],
                _ => unreachable!("a VAR in scope names a REC, a LET or a CONTRACT"),
            }
        }
    }
}

/// The house order: the lowest node whose needs are all placed comes next.
pub fn house_order(sheet: &Sheet) -> Vec<u16> {
    let needs = needs(sheet);
    let mut placed = vec![false; needs.len()];
    let mut order = Vec::new();
    while order.len() < needs.len() {
        let next = (0..needs.len())
            .find(|&node| !placed[node] && needs[node].iter().all(|&need| placed[need]))
            .expect("an accepted sheet has a node that is ready");
        placed[next] = true;
        order.push(next as u16);
    }
    order
}

/// Rule 15, for an order of N entries.
pub fn check_order(sheet: &Sheet, order: &[u16]) -> Result<(), Refusal> {
    let needs = needs(sheet);
    let mut placed = vec![false; needs.len()];
    for (position, &entry) in order.iter().enumerate() {
        let entry = usize::from(entry);
        let wrong =
            entry >= needs.len() || placed[entry] || needs[entry].iter().any(|&need| !placed[need]);
        if wrong {
            return refuse(15, position);
        }
        placed[entry] = true;
    }
    Ok(())
}

/// The operation House order.
pub fn write_house_order(bytes: &[u8], order: &mut [u16]) -> Result<(), Refusal> {
    let sheet = check(bytes)?;
    let house = house_order(&sheet);
    if order.len() != house.len() {
        return refuse(12, 3);
    }
    order.copy_from_slice(&house);
    Ok(())
}
