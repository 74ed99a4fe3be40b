//! The rival goes through the same trials as the archive: a time is worth something only beside equal answers.

use bench::rival;
use trials::random::Random;
use trials::rig::{ARCHIVE, Calls, Rig};
use trials::suites::SUITES;

const RIVAL: Calls = Calls {
    build: rival::build,
    check: rival::check,
    fill: rival::fill,
    ask: rival::ask,
    quick_ask: rival::quick_ask,
    find: rival::find,
    append: rival::append,
    ..ARCHIVE
};

#[test]
fn the_rival_answers_as_the_rules_say() {
    let mut rig = Rig::new(RIVAL);
    for suite in &SUITES {
        let cases = suite.short / 20;
        for case in 0..cases {
            let number = case * 20;
            let mut random = Random::new(0, suite.name, number);
            if let Err(difference) = (suite.run)(&mut rig, &mut random, number) {
                panic!("{} {number}: {}", suite.name, difference.0);
            }
        }
    }
}
