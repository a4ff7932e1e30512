//! Request 2026-08: times count what leaves, and "the order promise stands, such feeds
//! included".

use super::*;
use crate::compare::Departures;

#[test]
fn times_count_what_leaves() {
    let mut random = Random::new(19);
    // Feeds that leave nothing; Takes without a time; nodes at the end that no Crash has named.
    let mut seen = [0; 3];
    for _ in 0..600 {
        let mut line = Line::of(any_plan(&mut random));
        let mut order = Order::new(&line.plan);
        let mut departures = Departures::new(&line);
        let mut practice = Practice::new(&mut random);
        for _ in 0..random.between(20, 250) {
            let frame = practice.frame(&mut random, &line);
            let before = line.clone();
            if pass(&mut line, &mut order, &frame) == ACCEPTED {
                departures.follow(&before, &frame);
                assert_eq!(departures.wrong(&line), None, "{frame:?} {before:?}");
                let same = |node: &usize| line.nodes[*node].time() == before.nodes[*node].time();
                match Frame::read(&frame) {
                    Ok((_, Frame::Feed { node, .. })) if same(&node.into()) => seen[0] += 1,
                    Ok((_, Frame::Take { channel })) => {
                        let node = line.plan.channels[usize::from(channel)].receiver;
                        let is_up = before.nodes[node].status == Status::Up;
                        seen[1] += usize::from(is_up && same(&node));
                    }
                    _ => {}
                }
            }
        }
        assert!(order.holds(&line), "{:?}", line.plan);
        seen[2] += departures.counted();
    }
    println!("{seen:?}");
    assert!(seen.iter().all(|&times| times > 1_000), "{seen:?}");
}
