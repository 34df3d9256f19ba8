//! The orders in which records are done by steps.

use crate::calls::prepare::in_every_order::orders::each_order;
use builder::Random;
use std::collections::BTreeSet;

/// All that are tried.
fn orders(count: usize) -> Vec<Vec<usize>> {
    let mut all = Vec::new();
    let tried: Result<(), ()> = each_order(count, &mut Random::new(1), &mut |order| {
        all.push(order.to_vec());
        Ok(())
    });
    assert_eq!(tried, Ok(()));
    for order in &all {
        let numbers: BTreeSet<usize> = order.iter().copied().collect();
        assert_eq!((order.len(), numbers.len()), (count, count));
        assert!(numbers.iter().all(|number| *number < count));
    }
    all
}

#[test]
fn few_records_have_all_their_orders() {
    for (count, all) in [(0, 1), (1, 1), (2, 2), (3, 6), (4, 24), (5, 120)] {
        let orders = orders(count);
        let different: BTreeSet<&Vec<usize>> = orders.iter().collect();
        assert_eq!((orders.len(), different.len()), (all, all), "{count}");
    }
}

#[test]
fn many_records_have_some() {
    for (count, some) in [(6, 6), (100, 6), (200, 3), (600, 1), (65_535, 1)] {
        let orders = orders(count);
        let different: BTreeSet<&Vec<usize>> = orders.iter().collect();
        assert_eq!((orders.len(), different.len()), (some, some), "{count}");
        let in_turn: Vec<usize> = (0..count).collect();
        assert!(!different.contains(&in_turn), "{count}");
    }
}

#[test]
fn the_first_error_ends_it() {
    for count in [3, 9] {
        let mut tried = 0;
        let ended = each_order(count, &mut Random::new(1), &mut |_| {
            tried += 1;
            match tried {
                2 => Err("an error"),
                _ => Ok(()),
            }
        });
        assert_eq!((ended, tried), (Err("an error"), 2));
    }
}
