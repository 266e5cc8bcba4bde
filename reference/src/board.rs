//! The board by the table (document 02, request 9): a line of 72 characters for each live instance.

use crate::agent::Agent;
use crate::literal::Bindings;
use crate::refusal::Refusal;
use crate::state::Status;
use std::fmt::Write;

/// Writes the page at the front of a buffer; how many bytes it wrote. An agent of this type is always well formed.
pub fn board(agent: &Agent, buffer: &mut [u8]) -> Result<usize, Refusal> {
    let page = page(agent);
    let place = buffer.get_mut(..page.len()).ok_or(Refusal::BoardRoom)?;
    place.copy_from_slice(page.as_bytes());
    Ok(page.len())
}

/// The lines of all live instances: stacks in turn order, the lowest instance first.
pub fn page(agent: &Agent) -> String {
    let mut page = String::new();
    for (stack, instances) in (1..).zip(agent.stacks()) {
        for (height, instance) in (1..).zip(instances) {
            let status = match instance.status {
                Status::Active => 'A',
                Status::Waiting => 'W',
                Status::Suspended => 'S',
            };
            let job = format!("{stack:>1} {height:>1} {:>10}", instance.id);
            let place = format!("{:>2} {:>2} {:>1}", instance.plan, instance.state, instance.tried);
            // writing to a string does not fail
            let _ = writeln!(page, "{job} {place} {status}{}", values(&instance.bindings));
        }
    }
    page
}

/// V0 to V7, each behind a space: the constant, or a hyphen where it is unbound.
fn values(bindings: &Bindings) -> String {
    let value = |variable: u8| bindings.get(variable).map_or("-".to_string(), |constant| constant.to_string());
    (0..8).map(|variable| format!(" {:>5}", value(variable))).collect()
}
