//! The tables, in Markdown.

/// One line: library first, then reference.
pub struct Row<'a> {
    pub name: &'a str,
    pub instructions: [f64; 2],
    pub nanoseconds: Option<[f64; 2]>,
}

fn ratio([library, reference]: [f64; 2]) -> String {
    format!("{:.2}", library / reference)
}

/// A whole number with its thousands apart.
pub fn whole(number: f64) -> String {
    let digits = format!("{number:.0}");
    let mut text = String::new();
    for (index, digit) in digits.chars().enumerate() {
        if index > 0 && (digits.len() - index) % 3 == 0 {
            text.push(',');
        }
        text.push(digit);
    }
    text
}

/// The cells of a count: library, reference, ratio.
fn counted(count: [f64; 2]) -> String {
    let [library, reference] = count.map(whole);
    format!("{library} | {reference} | {}", ratio(count))
}

pub fn print<'a>(rows: impl Iterator<Item = Row<'a>>) {
    println!("| Call | Instr. | Ref. | Ratio | ns | Ref. | Ratio |");
    println!("|---|---:|---:|---:|---:|---:|---:|");
    for row in rows {
        let time = row.nanoseconds.map_or_else(
            || "- | - | -".to_string(),
            |time| format!("{:.1} | {:.1} | {}", time[0], time[1], ratio(time)),
        );
        println!("| {} | {} | {time} |", row.name, counted(row.instructions));
    }
}

pub fn print_sums<'a>(sums: impl Iterator<Item = (&'a str, [f64; 2])>) {
    println!("| Sum alone | Instr. | Ref. | Ratio |");
    println!("|---|---:|---:|---:|");
    for (name, instructions) in sums {
        println!("| {name} | {} |", counted(instructions));
    }
}
