//! julian.txt, from three private functions of the original's date file:
//! `month_day DAY_OF_YEAR MONTH DAY` (`month_day_from_julian`),
//! `ordinal MONTH N` (`julian_ordinal_day`) and
//! `binary YEAR DAY_OF_YEAR HOUR N` (`to_binary`).

use crate::answers::{Answers, Row};
use crate::dates::YEARS;
use jomini::leaves;

pub fn ask(answers: &mut Answers) {
    for day_of_year in 0..=364 {
        let (month, day) = leaves::month_and_day(day_of_year);
        let question = format!("month_day {day_of_year}");
        answers.edge(Row::new(question, format!("{month} {day}")));
    }
    for month in 1..=12 {
        let days = leaves::days_before_first(month);
        answers.edge(Row::new(format!("ordinal {month}"), days));
    }
    for year in YEARS {
        for (day_of_year, hour) in [(0, 0), (0, 1), (0, 2), (364, 23), (364, 24)] {
            let number = leaves::number(year, day_of_year, hour);
            let question = format!("binary {year} {day_of_year} {hour}");
            answers.edge(Row::new(question, number));
        }
    }
}
