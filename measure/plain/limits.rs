//! The limits on the counts of a bundle.
use crate::refusal::Refusal;
use crate::tree::Start;

/// What the parser counts on its way: sites, the most locals of a method, and the locals that the body at hand declares.
#[derive(Debug, Default)]
pub struct Counts {
    pub sites: usize,
    pub locals: usize,
    pub declared: usize,
}

/// The first limit that is passed is refused.
pub fn check(start: &Start, counts: &Counts) -> Result<(), Refusal> {
    let program = &start.program;
    let rows = [
        ("principals", program.nodes.len(), 64),
        (
            "nodes",
            program
                .nodes
                .iter()
                .filter(|node| node.role.is_node())
                .count(),
            32,
        ),
        ("labels", program.labels.len(), 64),
        ("classes", program.classes.len(), 64),
        (
            "fields",
            program
                .classes
                .iter()
                .map(|class| class.fields.len())
                .max()
                .unwrap_or(0),
            16,
        ),
        ("methods", program.methods.len(), 256),
        (
            "parameters",
            program
                .methods
                .iter()
                .map(|method| method.parameters.len())
                .max()
                .unwrap_or(0),
            16,
        ),
        ("locals", counts.locals, 256),
        ("sites", counts.sites, 65_000),
        ("roots", start.roots.len(), 100_000),
        (
            "requests",
            start
                .sessions
                .iter()
                .map(|session| session.requests.len())
                .sum(),
            100_000,
        ),
        ("posts", start.posts.len(), 10_000),
        ("crashes", start.crashes.len(), 1_000),
        ("events", start.schedule.len(), 100_000),
        ("cache", start.cache as usize, 4_096),
    ];
    match rows.into_iter().find(|(_, count, most)| count > most) {
        Some((what, _, _)) => Err(Refusal::Limit(what)),
        None => Ok(()),
    }
}
