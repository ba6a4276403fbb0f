//! The tables of docs/BENCH.md: ratios first, then what they are ratios of.

use crate::groups::Group;
use crate::{counts, operations, scans, times};

/// What one kernel took in one group.
struct Measured {
    kernel: &'static str,
    /// Nanoseconds per call, round by round.
    times: Vec<f64>,
    /// Instructions per call.
    count: f64,
}

type Row = (Group, Vec<Measured>);

/// The scan, on texts.
pub fn scans() {
    let measured = measured(scans::groups());
    println!("| Texts | proved against | time | instructions |");
    println!("|---|---|---:|---:|");
    for (group, kernels) in &measured {
        print_ratios(group.texts, kernels);
    }
    println!();
    println!("| Texts | Kernel | ns per text | middle half | MB/s | instructions | per byte |");
    println!("|---|---|---:|---:|---:|---:|---:|");
    for (group, kernels) in &measured {
        for kernel in kernels {
            print_scan(group, kernel);
        }
    }
}

/// The operations of the product.
pub fn operations() {
    let measured = measured(operations::groups());
    println!("| Operation | Policy | proved against | time | instructions |");
    println!("|---|---|---|---:|---:|");
    for (group, kernels) in &measured {
        print_ratios(&format!("{} | {}", group.operation, group.texts), kernels);
    }
    println!();
    println!("| Operation | Policy | Kernel | ns per call | middle half | instructions |");
    println!("|---|---|---|---:|---:|---:|");
    for (group, kernels) in &measured {
        for kernel in kernels {
            print_operation(group, kernel);
        }
    }
}

/// Where the proved operations spend their instructions.
pub fn functions() {
    println!("| Operation | Policy | Instructions by function |");
    println!("|---|---|---|");
    for group in operations::groups() {
        let functions = counts::by_function(&group);
        let told = functions
            .iter()
            .map(|(name, share)| format!("`{name}` {:.0}%", share * 100.0));
        let told = told.collect::<Vec<_>>().join(", ");
        println!("| {} | {} | {told} |", group.operation, group.texts);
    }
}

fn measured(groups: Vec<Group>) -> Vec<Row> {
    let rows = groups.into_iter().map(|mut group| {
        let times = times::measure(&mut group);
        let kernels = group.kernels.iter().map(|kernel| kernel.name).zip(times);
        let measured = kernels.map(|(kernel, times)| Measured {
            kernel,
            times,
            count: counts::per_call(&group, kernel),
        });
        let measured = measured.collect();
        (group, measured)
    });
    rows.collect()
}

/// Ratios are taken round by round, so that both sides had the same machine.
fn print_ratios(what: &str, kernels: &[Measured]) {
    let Some((proved, others)) = kernels.split_first() else {
        return;
    };
    for other in others {
        let rounds = proved.times.iter().zip(&other.times);
        let ratios: Vec<f64> = rounds.map(|(one, two)| one / two).collect();
        println!(
            "| {what} | {} | {:.2} | {:.2} |",
            other.kernel,
            part(&ratios, 2),
            proved.count / other.count,
        );
    }
}

fn print_scan(group: &Group, measured: &Measured) {
    let median = part(&measured.times, 2);
    println!(
        "| {} | {} | {median:.0} | {:.0} to {:.0} | {:.0} | {:.0} | {:.1} |",
        group.texts,
        measured.kernel,
        part(&measured.times, 1),
        part(&measured.times, 3),
        group.bytes * 1000.0 / median,
        measured.count,
        measured.count / group.bytes,
    );
}

fn print_operation(group: &Group, measured: &Measured) {
    println!(
        "| {} | {} | {} | {:.0} | {:.0} to {:.0} | {:.0} |",
        group.operation,
        group.texts,
        measured.kernel,
        part(&measured.times, 2),
        part(&measured.times, 1),
        part(&measured.times, 3),
        measured.count,
    );
}

/// The number that so many quarters of the numbers lie below.
pub fn part(numbers: &[f64], quarters: usize) -> f64 {
    let mut sorted = numbers.to_vec();
    sorted.sort_by(f64::total_cmp);
    sorted[(sorted.len() - 1) * quarters / 4]
}
