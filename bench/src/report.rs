//! The two tables. They have ratios only, which say more on another machine
//! than times do.

use crate::measure::Times;
use crate::programs::{CAREFUL, LIBRARY, PLAIN_COPY, SECOND};
use bench::inputs::Input;

/// The library's time by those of the others.
pub fn ratios(inputs: &[Input], times: &[Times]) {
    println!("The library's time by that of another program\n");
    println!("| Input | careful | second | memcpy and memset |");
    println!("|---|---|---|---|");
    for (input, times) in inputs.iter().zip(times).filter(|(input, _)| input.headline) {
        let by = |other: usize| times[LIBRARY] / times[other];
        let copy = match input.records {
            0 => format!("{:.2}", by(PLAIN_COPY)),
            _ => String::new(),
        };
        let (careful, second) = (by(CAREFUL), by(SECOND));
        println!("| {} | {careful:.2} | {second:.2} | {copy} |", input.name);
    }
}

/// The time by unit of work at each size of a family, by that at its smallest.
pub fn growth(inputs: &[Input], times: &[Times]) {
    println!("\nThe time by byte, site or record, by that at the smallest size");
    println!("(net: without the time of the same segment with one record of one unit)\n");
    println!("| Work | Size | library | careful | library, net | careful, net |");
    println!("|---|---|---|---|---|---|");
    for family in families(inputs) {
        let sizes = inputs.iter().zip(times);
        let sizes = sizes.filter(|(input, _)| input.family == Some(family));
        let sizes: Vec<Size> = sizes.map(|(input, times)| (input.units, *times)).collect();
        one_family(family, &sizes);
    }
}

/// The units of an input, and its times.
type Size = (usize, Times);

/// The families in the order of the inputs.
fn families(inputs: &[Input]) -> Vec<&'static str> {
    let mut families: Vec<_> = inputs.iter().filter_map(|input| input.family).collect();
    families.dedup();
    families
}

/// One line for each size; that of one unit only serves to take the fixed costs
/// off.
fn one_family(family: &str, sizes: &[Size]) {
    let (fixed, sizes) = match sizes {
        [(1, fixed), sizes @ ..] => (Some(fixed), sizes),
        sizes => (None, sizes),
    };
    let none = Times::default();
    let by_smallest = |size: &Size, fixed: &Times| {
        [LIBRARY, CAREFUL].map(|program| {
            let fixed = fixed[program];
            by_unit(size, program, fixed) / by_unit(&sizes[0], program, fixed)
        })
    };
    for size in sizes {
        let [library, careful] = by_smallest(size, &none);
        let net = match fixed.map(|fixed| by_smallest(size, fixed)) {
            Some([library, careful]) => format!("{library:.2} | {careful:.2}"),
            None => " | ".into(),
        };
        let units = size.0;
        println!("| {family} | {units} | {library:.2} | {careful:.2} | {net} |");
    }
}

/// The time by unit beyond the fixed costs.
fn by_unit(size: &Size, program: usize, fixed: f64) -> f64 {
    (size.1[program] - fixed) / size.0 as f64
}
