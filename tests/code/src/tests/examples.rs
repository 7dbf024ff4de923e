//! All examples, and a small load.

use crate::examples::{NAMES, example};
use crate::loads::transactions;
use crate::stop::Stop;
use std::test::Fail;

#[test]
fn each_call_gives_what_it_should(rt: HostRuntime) -> Result<(), Fail> {
    for (number, name) in NAMES.iter().enumerate() {
        assert!(rt; example(&rt, rt.alloc(), number).is_ok(), "{name} differs");
    }
    Ok(())
}

#[test]
fn requests_are_served(rt: HostRuntime) -> Result<(), Stop> {
    let [told, answered, ended, held, _] = transactions(&rt, rt.alloc(), 10, 10)?;
    assert!(rt; [told, answered, ended, held] == [20, 20, 20, 0]);
    Ok(())
}
