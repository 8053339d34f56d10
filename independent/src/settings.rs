//! Settings as people write them: a fraction for each parameter.

use crate::explore::Setting;
use crate::model::Tables;
use crate::row::common;

/// The reference as a setting.
pub fn reference(model: &Tables) -> Setting {
    let numerators = model.reference();
    let denominators = vec![model.scale(); numerators.len()];
    Setting {
        numerators,
        denominators,
    }
}

/// Reads `4 2 13/2`, one word for each parameter.
pub fn parsed(words: &[String]) -> Result<Setting, String> {
    let mut setting = Setting {
        numerators: Vec::new(),
        denominators: Vec::new(),
    };
    for word in words {
        let (numerator, denominator) = word.split_once('/').unwrap_or((word, "1"));
        let bad = |_| format!("not a fraction: {word}");
        let numerator: i64 = numerator.parse().map_err(bad)?;
        let denominator: i64 = denominator.parse().map_err(bad)?;
        if numerator < 0 || denominator < 1 {
            return Err(format!("not a nonnegative fraction: {word}"));
        }
        setting.numerators.push(i128::from(numerator));
        setting.denominators.push(i128::from(denominator));
    }
    Ok(setting)
}

/// The same setting as words, in lowest terms.
pub fn words(setting: &Setting) -> String {
    let both = setting.numerators.iter().zip(&setting.denominators);
    let words: Vec<String> = both
        .map(|(&n, &d)| {
            let divisor = common(n, d).max(1);
            match d / divisor {
                1 => format!("{}", n / divisor),
                below => format!("{}/{below}", n / divisor),
            }
        })
        .collect();
    words.join(" ")
}

/// A trace as `0 -10-> 1 -11-> 2`.
pub fn trace_words(trace: &[u8]) -> String {
    let mut text = format!("{}", trace[0]);
    for step in trace[1..].chunks(2) {
        text += &format!(" -{}-> {}", step[0], step[1]);
    }
    text
}

#[cfg(test)]
mod tests {
    use super::*;

    #[test]
    fn fractions_there_and_back() {
        let given: Vec<String> = ["4", "6/4", "0"].map(String::from).to_vec();
        assert_eq!(words(&parsed(&given).unwrap()), "4 3/2 0");
        assert!(parsed(&["-1".to_string()]).is_err());
        assert!(parsed(&["1/0".to_string()]).is_err());
        assert!(parsed(&["x".to_string()]).is_err());
    }

    #[test]
    fn a_trace_in_words() {
        assert_eq!(trace_words(&[0, 10, 1]), "0 -10-> 1");
    }
}
