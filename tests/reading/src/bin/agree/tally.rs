//! How often each answer occurred.

use reading::archive::NO;

/// The answers of one function, by their top byte.
pub struct Column {
    pub name: String,
    /// The numbers that may be the top byte; each has to occur.
    pub numbers: Vec<u64>,
    answers: [usize; 256],
}

impl Column {
    pub fn new(name: &str, numbers: Vec<u64>) -> Column {
        Column { name: name.to_lowercase(), numbers, answers: [0; 256] }
    }

    pub fn add(&mut self, answer: u64) {
        self.answers[(answer >> 56) as usize] += 1;
    }

    pub fn times(&self, number: u8) -> usize {
        self.answers[usize::from(number)]
    }
}

/// Prints a table; false if an answer that a function may give never occurred.
pub fn print(columns: &[&Column]) -> bool {
    print!("{:>12}", "");
    for column in columns {
        print!("{:>10}", column.name);
    }
    println!();
    let mut complete = true;
    for number in 0..=NO {
        if !columns.iter().any(|column| column.numbers.contains(&number)) {
            continue;
        }
        match number {
            0 => print!("{:>12}", "accepted"),
            NO => print!("{:>12}", "no"),
            _ => print!("{:>12}", format!("refused {number}")),
        }
        for column in columns {
            match column.answers[number as usize] {
                0 if !column.numbers.contains(&number) => print!("{:>10}", "-"),
                times => {
                    complete &= times > 0;
                    print!("{times:>10}");
                }
            }
        }
        println!();
    }
    complete
}
