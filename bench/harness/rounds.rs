//! Rounds of one job on two sides, ours and std's: what both answer is compared, and what each phase took.
use super::phases::phases;
use std::hint::black_box;

/// A job of ours, and the same of std's.
pub type Runs<J> = [fn(&J) -> u64; 2];

/// How wide the name of a row and a number are, and the digits after its point.
pub type Form = (usize, usize, usize);

/// Prints a row of both sides, and ours as a multiple of std's.
pub fn print_row(name: &str, (names, numbers, digits): Form, [ours, stds]: [f64; 2], multiple: f64) {
    println!("  {name:<names$} {ours:>numbers$.digits$} / {stds:<numbers$.digits$} ({multiple:4.2})");
}

/// What the rounds told of a phase.
pub struct Compared {
    /// The least time of ours, and of std's.
    pub least: [f64; 2],
    ratios: Vec<f64>,
}

impl Compared {
    /// The median over the rounds of ours as a multiple of std's in the same round. What else the machine does in a round
    /// makes both slower, so this is steadier than two least times, of which each is of a round of its own.
    pub fn median(&self) -> f64 {
        let mut ratios = self.ratios.clone();
        ratios.sort_by(f64::total_cmp);
        let middle = ratios.len() / 2;
        (ratios[middle] + ratios[(ratios.len() - 1) / 2]) / 2.0
    }

    /// Prints the least times of one of so many calls, and ours as a multiple of std's.
    pub fn print_least(&self, name: &str, form: Form, calls: usize) {
        let least = self.least.map(|time| time / calls as f64);
        print_row(name, form, least, least[0] / least[1]);
    }

    /// Prints the same with the median of the multiples.
    pub fn print_median(&self, name: &str, form: Form, calls: f64) {
        print_row(name, form, self.least.map(|time| time / calls), self.median());
    }
}

/// Each phase of the job, run on both sides as often as `rounds` says. They take turns, since who runs first finds another heap.
pub fn compare<J>(job: &J, rounds: usize, runs: Runs<J>) -> Vec<Compared> {
    let mut compared: Vec<Compared> = Vec::new();
    for round in 0..rounds {
        let mut seen = [0; 2];
        let mut taken = [Vec::new(), Vec::new()];
        for who in [round % 2, 1 - round % 2] {
            taken[who] = phases(|| seen[who] = runs[who](black_box(job)));
        }
        assert_eq!(seen[0], seen[1], "what the two sides gave differs");
        compared.resize_with(taken[0].len(), || Compared {
            least: [f64::MAX; 2],
            ratios: Vec::new(),
        });
        for (phase, (ours, stds)) in compared.iter_mut().zip(taken[0].iter().zip(&taken[1])) {
            phase.least = [phase.least[0].min(*ours), phase.least[1].min(*stds)];
            phase.ratios.push(ours / stds);
        }
    }
    compared
}
