//! The command `idle`: the parts that never change whether the machine runs.

use crate::arguments::Arguments;
use crate::design::Design;
use crate::ending::Ending;
use crate::names::Names;
use crate::output::{self, Stream};

/// The command `idle`: a line for each idle part, or a comment that there is none.
pub fn idle(arguments: &Arguments) -> Result<(), Ending> {
    let name = arguments.file(0);
    let design = Design::read(&name)?;
    let names = Names::read(arguments.names.as_ref(), &design.parts, &design.retired)?;
    let idle = design.idle();
    let idle = idle.map_err(|refusal| Ending::refused(refusal, &name))?;
    let text = match idle.is_empty() {
        true => "# no part is idle\n".to_string(),
        false => names.lines("idle", &idle),
    };
    output::print(&text, Stream::Output)
}
