//! The limits: a run with limits is the run without them, cut at the first step that does not fit.

use chamrolak_rules::answer::{Answer, Limit, Limits};
use chamrolak_rules::drive::{drive, Driven};
use chamrolak_rules::generate::{random_location, random_specimen, random_tokens};
use chamrolak_rules::random::Random;

const BUDGET: u64 = 200;

/// What a run of so many units may take.
fn needs(driven: &Driven) -> [usize; 4] {
    let run = &driven.run;
    [
        driven.deepest,
        run.child_entries.len(),
        run.nodes.len(),
        run.records.len(),
    ]
}

/// What the limits must give, read off the unlimited run cut after 0, 1, 2 and so on units.
fn cut_at_the_first_step_that_does_not_fit(steps: &[Driven], limits: &Limits) -> Driven {
    let rooms = [
        (limits.depth, Limit::Depth),
        (limits.child_entries, Limit::ChildEntries),
        (limits.nodes, Limit::Nodes),
        (limits.records, Limit::Records),
    ];
    for (units, step) in steps.iter().enumerate() {
        let exceeded = |(need, (room, _)): &(usize, (usize, Limit))| need > room;
        if let Some((_, (_, limit))) = needs(step).into_iter().zip(rooms).find(exceeded) {
            // The first state stands before the first look; everything else is pushed by a look.
            let mut stopped = steps[units.saturating_sub(1)].clone();
            if units == 0 {
                stopped.deepest = 0;
            }
            stopped.run.answer = Answer::Stopped(limit);
            stopped.run.units = units as u64;
            return stopped;
        }
        if units as u64 == limits.budget {
            return step.clone();
        }
    }
    steps.last().expect("the run itself").clone()
}

#[test]
fn limits_cut_the_unlimited_run() {
    let mut random = Random::new(6);
    let mut answers = [0; 24];
    for _ in 0..400 {
        let specimen = random_specimen(&mut random);
        let tokens = random_tokens(&mut random, &specimen.grammar, 12);
        let start = random_location(&mut random);
        let run = |limits: &Limits| drive(&specimen.tables, &tokens, start, limits);
        let whole = run(&Limits::budget_only(BUDGET));
        let steps: Vec<Driven> = (0..=whole.run.units)
            .map(|units| run(&Limits::budget_only(units)))
            .collect();
        for _ in 0..40 {
            let [depth, child_entries, nodes, records] = needs(&whole).map(|need| {
                let tight = random.one_in(2);
                if tight {
                    random.between(0, need)
                } else {
                    need
                }
            });
            let limits = Limits {
                budget: random.between(0, whole.run.units as usize) as u64,
                depth,
                child_entries,
                nodes,
                records,
            };
            let driven = run(&limits);
            answers[driven.run.answer.number() as usize] += 1;
            assert_eq!(
                driven,
                cut_at_the_first_step_that_does_not_fit(&steps, &limits)
            );
        }
    }
    let often = (19..=23).all(|number| answers[number] >= 100);
    assert!(often, "each limit is met: {answers:?}");
}
