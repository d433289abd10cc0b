//! Tables as plain text or as Markdown: the first column to the left, numbers to the right.

pub struct Table {
    pub header: Vec<String>,
    pub rows: Vec<Vec<String>>,
}

impl Table {
    pub fn new(header: &[&str]) -> Self {
        Table {
            header: header.iter().map(|cell| cell.to_string()).collect(),
            rows: Vec::new(),
        }
    }

    pub fn plain(&self) -> String {
        let widths = self.widths();
        let mut text = String::new();
        for row in self.lines() {
            let cells = row.iter().zip(&widths).enumerate();
            let padded: Vec<String> = cells
                .map(|(k, (cell, &width))| match k {
                    0 => format!("{cell:<width$}"),
                    _ => format!("{cell:>width$}"),
                })
                .collect();
            text += padded.join("  ").trim_end();
            text.push('\n');
        }
        text
    }

    pub fn markdown(&self) -> String {
        let mut lines = self.lines().map(|row| format!("| {} |\n", row.join(" | ")));
        let header: String = lines.by_ref().take(1).collect();
        let rule = format!("|---|{}\n", "--:|".repeat(self.header.len() - 1));
        header + &rule + &lines.collect::<String>()
    }

    fn lines(&self) -> impl Iterator<Item = &Vec<String>> {
        std::iter::once(&self.header).chain(&self.rows)
    }

    fn widths(&self) -> Vec<usize> {
        (0..self.header.len())
            .map(|k| self.lines().map(|row| row[k].chars().count()).max())
            .map(|width| width.unwrap_or(0))
            .collect()
    }
}

/// A whole number with its thousands apart.
pub fn grouped(number: f64) -> String {
    let digits = format!("{number:.0}");
    let mut text = String::new();
    for (k, digit) in digits.chars().enumerate() {
        if k > 0 && (digits.len() - k) % 3 == 0 {
            text.push(',');
        }
        text.push(digit);
    }
    text
}

#[cfg(test)]
mod tests {
    use super::*;

    fn sample() -> Table {
        let mut table = Table::new(&["who", "ns"]);
        table.rows.push(vec!["engine".into(), "7".into()]);
        table.rows.push(vec!["C".into(), "1,234".into()]);
        table
    }

    #[test]
    fn columns_line_up() {
        assert_eq!(
            sample().plain(),
            "who        ns\nengine      7\nC       1,234\n"
        );
    }

    #[test]
    fn markdown_has_a_rule_under_its_header() {
        let expected = "| who | ns |\n|---|--:|\n| engine | 7 |\n| C | 1,234 |\n";
        assert_eq!(sample().markdown(), expected);
    }

    #[test]
    fn thousands_stand_apart() {
        assert_eq!(grouped(999.4), "999");
        assert_eq!(grouped(91_840.0), "91,840");
        assert_eq!(grouped(1_234_567.0), "1,234,567");
    }
}
