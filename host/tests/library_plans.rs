//! Plans parsed by the wrapper: the reference's plan, and a text that the judge accepts again.
#![cfg(feature = "library")]

mod common;
use common::inputs;
use common::rng::Rng;
use juzvarola_checks::reference::{self, texts::read_job, texts::read_plan};
use juzvarola_host::{judge, plan_parsed, Plan};

#[test]
fn plans_come_parsed() {
    common::with_stack(|| {
        let mut rng = Rng::new(81);
        let (mut plans, mut none) = (0, 0);
        for _ in 0..600 {
            let text = inputs::job(&mut rng).text();
            let walk = rng.within(0, 400);
            let expected = reference::plan(&text, walk, 16_384);
            let planned = plan_parsed(&text, walk);
            assert_eq!(planned.answer.result, expected.result);
            let Some(plan) = planned.plan else {
                assert!(!String::from_utf8_lossy(&expected.bytes).contains("cost="));
                none += 1;
                continue;
            };
            plans += 1;
            let written = plan.text();
            assert!(String::from_utf8_lossy(&expected.bytes).ends_with(&written));
            assert!(planned.nodes.is_some() && planned.floor.is_some_and(|floor| floor <= plan.cost));
            let (read, cost) = read_plan(&read_job(&text).expect("a job"), written.as_bytes()).expect("a plan");
            assert_eq!((cost, read.stops.iter().filter(|stop| **stop).count()), (u64::from(plan.cost), plan.stops.len()));
            assert_eq!(judge(&text, written.as_bytes(), &mut [0; 16_384]).result, 0);
            assert_eq!(Plan::parse(written.as_bytes()), Some(plan));
        }
        assert!(plans > 100 && none > 20, "{plans} {none}");
    });
}

#[test]
fn what_is_no_plan_is_none() {
    assert_eq!(Plan::parse(b""), Some(Plan { cost: 0, stops: Vec::new() }));
    for text in [
        "\n",
        "cost=1\n",
        "cost=1\nstops=1\n",
        "cost=1\nstops=0",
        "cost=1\nstops=0\nstop=1\n",
        "cost=x\nstops=0\n",
        "result=0\ncost=1\nstops=0\n",
    ] {
        assert_eq!(Plan::parse(text.as_bytes()), None, "{text:?}");
    }
}
