//! Times of the library as ratios to the peer's.

use crate::count::Count;
use crate::exact_tables;
use crate::input::Input;
use crate::show::Show;
use crate::timing::{Pair, Plan};
use crate::typing::Typing;
use bench::{counted, exact, families, rules, shown, small, texts};
use std::time::Duration;

/// The times on the family's chart that has the greatest ratio.
pub fn worst_chart(plan: &Plan, family: &str, rule: &str) -> Result<Pair, String> {
    let mut pairs = Vec::new();
    for chart in families::charts(family) {
        let times = Input::named(&chart, rule)?.times(plan);
        pairs.push(times.map_err(|why| format!("{chart}, {rule}: {why}"))?);
    }
    let worst = pairs.into_iter().max_by(|a, b| a.ratio().total_cmp(&b.ratio()));
    worst.ok_or(format!("no chart of {family}"))
}

pub fn geometric_mean(ratios: &[f64]) -> f64 {
    let sum: f64 = ratios.iter().map(|ratio| ratio.ln()).sum();
    (sum / ratios.len() as f64).exp()
}

/// Few short batches, and a single one of what is slow, so that the whole takes seconds.
const QUICK: Plan = Plan { batches: 15, batch: Duration::from_micros(500), most: Duration::from_millis(20) };

/// Prints the ratios alone, for the loop of changing and timing.
pub fn quick() -> Result<(), String> {
    let (mut all, mut worst) = (Vec::new(), (0.0, ""));
    println!("{:17}{}", "", line(rules::NAMES.iter().map(|name| name.to_string())));
    for family in families::NAMES {
        let mut ratios = Vec::new();
        for rule in rules::NAMES {
            ratios.push(worst_chart(&QUICK, family, rule)?.ratio());
        }
        println!("{family:17}{}", line(ratios.iter().map(|ratio| format!("{ratio:.2}"))));
        let greatest = ratios.iter().copied().fold(0.0, f64::max);
        if greatest > worst.0 {
            worst = (greatest, family);
        }
        all.extend(ratios);
    }
    small_charts()?;
    shown_runs()?;
    counted_minutes()?;
    exact_bounds()?;
    typed_rules()?;
    println!("geometric mean {:.2}, worst family {:.2} {}", geometric_mean(&all), worst.0, worst.1);
    Ok(())
}

fn line(cells: impl Iterator<Item = String>) -> String {
    cells.map(|cell| format!("{cell:>8}")).collect()
}

fn small_charts() -> Result<(), String> {
    for (chart, rule) in small::ROWS {
        let times = Input::named(chart, rule)?.times(&QUICK);
        let ratio = times.map_err(|why| format!("{chart}, {rule}: {why}"))?.ratio();
        println!("{:17}{ratio:8.2}", format!("{chart} {rule}"));
    }
    Ok(())
}

fn shown_runs() -> Result<(), String> {
    for (chart, rule) in shown::ROWS {
        let (show, _) = Show::named(chart, rule)?;
        let ratio = show.times(&QUICK).map_err(|why| format!("show, {chart}, {rule}: {why}"))?.ratio();
        println!("{rule:17}{ratio:8.2}");
    }
    Ok(())
}

fn typed_rules() -> Result<(), String> {
    for name in texts::READS.into_iter().chain(texts::WRITES) {
        let (typing, _) = Typing::named(name)?;
        let ratio = typing.times(&QUICK).map_err(|why| format!("{name}: {why}"))?.ratio();
        println!("{name:19}{ratio:6.2}");
    }
    Ok(())
}

/// First the ratios to the plain peer, then those to the quick one.
fn counted_minutes() -> Result<(), String> {
    let names = line(counted::UNTILS.iter().map(|name| name.to_string()));
    println!("{:17}{:42}to the quick peer", "", "to the plain peer");
    println!("{:17}{names}  {names}", "");
    for chart in counted::CHARTS {
        for c in counted::BOUNDS {
            let (mut plain, mut quick) = (Vec::new(), Vec::new());
            for rule in counted::UNTILS.map(|untils| counted::name(untils, c)) {
                let times = Count::named(chart, &rule)?.times(&QUICK);
                let times = times.map_err(|why| format!("count, {chart}, {rule}: {why}"))?;
                plain.push(format!("{:.2}", times.to_plain()));
                quick.push(format!("{:.2}", times.to_quick()));
            }
            let name = format!("{chart} {c}");
            println!("{name:17}{}  {}", line(plain.into_iter()), line(quick.into_iter()));
        }
    }
    Ok(())
}

/// Check of exact bounds to count of the same rule with "at most".
fn exact_bounds() -> Result<(), String> {
    println!("{:17}exactly 255 to at most, counted", "");
    println!("{:17}{}", "", line(exact::UNTILS.iter().map(|name| name.to_string())));
    for rows in exact::rows().chunks(exact::UNTILS.len()) {
        let mut ratios = Vec::new();
        for row in rows {
            ratios.push(format!("{:.2}", exact_tables::times(&QUICK, row)?.to_most()));
        }
        println!("{:17}{}", rows[0].chart, line(ratios.into_iter()));
    }
    Ok(())
}

#[cfg(test)]
mod tests {
    use super::geometric_mean;

    #[test]
    fn twice_and_half_make_one() {
        assert!((geometric_mean(&[2.0, 0.5]) - 1.0).abs() < 1e-9);
        assert!((geometric_mean(&[8.0, 1.0, 1.0]) - 2.0).abs() < 1e-9);
    }
}
