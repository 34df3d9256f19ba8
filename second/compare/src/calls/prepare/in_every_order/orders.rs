//! The orders in which records are done.

use builder::Random;

/// So many records have all their orders tried.
const ALL: usize = 5;
/// Random orders of more records, so long as these aren't too many steps.
const SOME: usize = 6;
const STEPS: usize = 600;

/// Calls `visit` with orders of the numbers under `count`, up to its first
/// error. With few numbers these are all orders, else at least one.
pub fn each_order<E>(
    count: usize,
    random: &mut Random,
    visit: &mut impl FnMut(&[usize]) -> Result<(), E>,
) -> Result<(), E> {
    let mut order: Vec<usize> = (0..count).collect();
    if count <= ALL {
        return all(&mut order, 0, visit);
    }
    for _ in 0..(STEPS / count).clamp(1, SOME) {
        random.shuffle(&mut order);
        visit(&order)?;
    }
    Ok(())
}

/// All orders of the numbers from `from` on, behind those before.
fn all<E>(
    order: &mut [usize],
    from: usize,
    visit: &mut impl FnMut(&[usize]) -> Result<(), E>,
) -> Result<(), E> {
    if from + 1 >= order.len() {
        return visit(order);
    }
    for next in from..order.len() {
        order.swap(from, next);
        all(order, from + 1, visit)?;
        order.swap(from, next);
    }
    Ok(())
}
