//! A portfolio file as numbers, right or wrong, and as text.

/// Tenths of a gram for one unit of rows 1 to 6 of the factor table.
pub const FACTORS: [i128; 6] = [21_989_700, 22_200, 27_000, 21_600, 4_200, 5_703];

pub const PROJECT: i128 = 1;
pub const PURCHASE: i128 = 3;
pub const VEHICLE: i128 = 4;
pub const LOAN: i128 = 5;
pub const BOND: i128 = 6;

pub const NATIONAL: i128 = 1;
pub const PUDONG: i128 = 2;

#[derive(Clone)]
pub struct Portfolio {
    pub rule: i128,
    pub investees: Vec<Investee>,
    pub posts: Vec<Post>,
}

#[derive(Clone)]
pub struct Investee {
    pub id: i128,
    pub kind: i128,
    pub sector: i128,
    pub size: i128,
    pub days: i128,
    pub investment: i128,
    pub revenue: i128,
    pub total_assets: i128,
    pub initial_value: i128,
    pub overseas: i128,
    pub green_power: i128,
    pub ccer: i128,
    pub tickets: i128,
    pub method: Method,
}

#[derive(Clone)]
pub enum Method {
    Report { kilograms: i128, mark: i128 },
    Bill { terms: Vec<Term> },
    Mean { output: i128, mean: i128 },
}

#[derive(Clone, Copy)]
pub struct Term {
    pub row: i128,
    pub quantity: i128,
}

#[derive(Clone)]
pub struct Post {
    pub branch: i128,
    pub investee: i128,
    pub month: i128,
    pub balance: i128,
}

impl Term {
    fn tenths_of_grams(&self) -> i128 {
        let sound_row = (1..=6).contains(&self.row);
        if sound_row { FACTORS[self.row as usize - 1] * self.quantity } else { 0 }
    }
}

impl Method {
    /// What a sound method reads, so that cuts can be placed right at it.
    pub fn kilograms(&self) -> i128 {
        match self {
            Method::Report { kilograms, .. } => *kilograms,
            Method::Bill { terms } => {
                let tenths_of_grams: i128 = terms.iter().map(Term::tenths_of_grams).sum();
                (tenths_of_grams + 9_999) / 10_000
            }
            Method::Mean { output, mean } => output * mean,
        }
    }

    fn numbers(&mut self) -> Vec<&mut i128> {
        match self {
            Method::Report { kilograms, mark } => vec![kilograms, mark],
            Method::Bill { terms } => {
                terms.iter_mut().flat_map(|term| [&mut term.row, &mut term.quantity]).collect()
            }
            Method::Mean { output, mean } => vec![output, mean],
        }
    }

    fn fields(&self) -> Vec<String> {
        let (letter, numbers) = match self {
            Method::Report { kilograms, mark } => ("R", vec![*kilograms, *mark]),
            Method::Bill { terms } => {
                let numbers = terms.iter().flat_map(|term| [term.row, term.quantity]);
                ("P", [terms.len() as i128].into_iter().chain(numbers).collect())
            }
            Method::Mean { output, mean } => ("E", vec![*output, *mean]),
        };
        [letter.to_string()].into_iter().chain(numbers.iter().map(i128::to_string)).collect()
    }
}

impl Investee {
    /// The numbers of the line before the method.
    pub fn numbers(&mut self) -> [&mut i128; 13] {
        self.numbers_and_method().0
    }

    /// All numbers of the line but for the count of a bill's terms.
    pub fn all_numbers(&mut self) -> Vec<&mut i128> {
        let (numbers, method) = self.numbers_and_method();
        numbers.into_iter().chain(method.numbers()).collect()
    }

    fn numbers_and_method(&mut self) -> ([&mut i128; 13], &mut Method) {
        let numbers = [
            &mut self.id,
            &mut self.kind,
            &mut self.sector,
            &mut self.size,
            &mut self.days,
            &mut self.investment,
            &mut self.revenue,
            &mut self.total_assets,
            &mut self.initial_value,
            &mut self.overseas,
            &mut self.green_power,
            &mut self.ccer,
            &mut self.tickets,
        ];
        (numbers, &mut self.method)
    }

    /// The figure that the rule divides by.
    pub fn needed_figure(&mut self, rule: i128) -> &mut i128 {
        match self.kind {
            PURCHASE | VEHICLE => &mut self.initial_value,
            LOAN if rule == NATIONAL => &mut self.revenue,
            LOAN | BOND => &mut self.total_assets,
            _ => &mut self.investment,
        }
    }

    fn line(&self) -> String {
        let numbers = self.clone().numbers().map(|number| number.to_string());
        format!("{} {}\n", numbers.join(" "), self.method.fields().join(" "))
    }
}

impl Portfolio {
    /// The lines of the file, each with its line feed.
    pub fn lines(&self) -> Vec<Vec<u8>> {
        let header = format!("{} {} {}\n", self.investees.len(), self.posts.len(), self.rule);
        let key = |post: &Post| format!("{} {} {}\n", post.branch, post.investee, post.month);
        let mut lines = vec![header];
        lines.extend(self.investees.iter().map(Investee::line));
        lines.extend(self.posts.iter().map(key));
        lines.extend(self.posts.iter().map(|post| format!("{}\n", post.balance)));
        lines.into_iter().map(String::into_bytes).collect()
    }

    pub fn bytes(&self) -> Vec<u8> {
        self.lines().concat()
    }
}
