//! A session's records as the bench takes them: `run until done` becomes a
//! grant of so many clocks, which the library tells.

use crate::bytes::to_bytes;
use crate::record::{Item, Record, Session, Step};
use crate::source::Error;
use crate::trace::Trace;

/// The binary session. Checks have no place in it.
pub fn assemble(session: &Session) -> Result<Vec<u8>, Error> {
    Ok(to_bytes(resolve(session)?.records()))
}

/// The session with a grant in place of each `run until done`.
pub fn resolve(session: &Session) -> Result<Session, Error> {
    let mut resolved = session.clone();
    let last = session.items.iter().rposition(|item| item.step == Step::UntilDone);
    let mut trace = Trace::brief();
    for item in resolved.items.iter_mut().take(last.map_or(0, |last| last + 1)) {
        let Item { place, step } = item;
        match step {
            Step::Record(record) => {
                trace.step(record, &mut |_| ());
            }
            Step::UntilDone => {
                let control = trace.device().core.control;
                let clocks = trace.until_done().ok_or_else(|| {
                    Error::new(*place, never_ends(control.restart, trace.device().core.enabled))
                })?;
                *step = Step::Record(Record::Grant { clocks });
            }
            Step::Expect(_) => {}
        }
    }
    Ok(resolved)
}

fn never_ends(restart: bool, enabled: bool) -> &'static str {
    match (enabled, restart) {
        (true, true) => {
            "expected a block that ends: with auto restart it starts again; \
             write 'run CLOCKS', or turn auto restart off by WR5"
        }
        _ => {
            "expected a running block: the DMA is disabled here, and nothing would end; \
             'run' above this line may have ended it, or Enable found no bytes to move"
        }
    }
}
