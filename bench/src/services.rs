//! What is compared.

use crate::expert;
use crate::inputs::Input;
use reference::{product, Service};

pub struct Named {
    pub name: &'static str,
    pub service: Service,
    /// The service's function, as a profiler calls it.
    pub function: &'static str,
}

/// All services: ours first, the expert's walk last.
pub fn all() -> Result<[Named; 3], String> {
    Ok([
        Named { name: "ours", service: product::service()?, function: "junction_answer" },
        Named { name: "reference", service: reference::answer, function: "reference::answer" },
        Named { name: "expert", service: expert::answer, function: "junction_bench::expert::answer" },
    ])
}

/// The services that answer a row's line: the expert's walk answers searches in loaded order alone.
pub fn answering(input: &Input) -> Result<Vec<Named>, String> {
    let mut services = Vec::from(all()?);
    if !input.is_for_expert() {
        services.pop();
    }
    Ok(services)
}
